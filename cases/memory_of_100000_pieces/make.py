"""Twenty boards, on each of which an install places 5,000 designators."""
from spelling import accepted, message, write

names = [f"R{n:x}" for n in range(5_000)]
row = {"Slot": "1", "PartNumber": "P", "Designators": names}
pairs = [
    (message("u1", "PartDefined", PartNumber="P"), accepted(1, "u1")),
    (message("u2", "SheetDefined", Product="PR", Machine="M", Rows=[row]), accepted(2, "u2")),
    (message("u3", "ProductSelected", Machine="M", Product="PR"), accepted(3, "u3")),
    (
        message(
            "u4", "ReelReceived", Reel="K1", PartNumber="P", Lot="L1", Level="1", Quantity=100_000
        ),
        accepted(4, "u4"),
    ),
    (
        message("u5", "MaterialsLoaded", Machine="M", Slot="1", Reel="K1"),
        accepted(5, "u5", MinutesLeft=None),
    ),
]
for board in (f"B{n}" for n in range(20)):
    one, two, three = (f"u{len(pairs) + more}" for more in (1, 2, 3))
    pairs += [
        (message(one, "WorkStarted", Machine="M", Board=board), accepted(len(pairs) + 1, one)),
        (
            message(two, "MaterialsInstalled", Machine="M", Board=board, Designators=names),
            accepted(len(pairs) + 2, two, Reels=["K1"] * 5_000),
        ),
        (
            message(three, "WorkCompleted", Machine="M", Board=board),
            accepted(len(pairs) + 3, three),
        ),
    ]
write(pairs)
