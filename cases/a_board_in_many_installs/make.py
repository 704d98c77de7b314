"""One board, on which 5,000 installs place a designator each."""
from spelling import accepted, message, write

names = [f"R{n:x}" for n in range(5_000)]
row = {"Slot": "1", "PartNumber": "P", "Designators": names}
pairs = [
    (message("u1", "PartDefined", PartNumber="P"), accepted(1, "u1")),
    (message("u2", "SheetDefined", Product="PR", Machine="M", Rows=[row]), accepted(2, "u2")),
    (message("u3", "ProductSelected", Machine="M", Product="PR"), accepted(3, "u3")),
    (
        message(
            "u4", "ReelReceived", Reel="K1", PartNumber="P", Lot="L1", Level="1", Quantity=5_000
        ),
        accepted(4, "u4"),
    ),
    (
        message("u5", "MaterialsLoaded", Machine="M", Slot="1", Reel="K1"),
        accepted(5, "u5", MinutesLeft=None),
    ),
    (message("u6", "WorkStarted", Machine="M", Board="B1"), accepted(6, "u6")),
]
for number, name in enumerate(names, 7):
    uid = f"u{number}"
    pairs.append(
        (
            message(uid, "MaterialsInstalled", Machine="M", Board="B1", Designators=[name]),
            accepted(number, uid, Reels=["K1"]),
        )
    )
write(pairs)
