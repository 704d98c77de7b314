"""860 counts of one reel, of 1 and of 10,000,000 pieces by turns: each of the second kind finds
9,999,999.
"""
from spelling import accepted, message, write

row = {"Slot": "1", "PartNumber": "P", "Designators": ["R1"]}
pairs = [
    (message("u1", "PartDefined", PartNumber="P"), accepted(1, "u1")),
    (message("u2", "SheetDefined", Product="PR", Machine="M", Rows=[row]), accepted(2, "u2")),
    (message("u3", "ProductSelected", Machine="M", Product="PR"), accepted(3, "u3")),
    (
        message(
            "u4",
            "ReelReceived",
            Reel="K1",
            PartNumber="P",
            Lot="L1",
            Level="1",
            Quantity=10_000_000,
        ),
        accepted(4, "u4"),
    ),
]
for n in range(5, 865, 2):
    few, many = ([{"Reel": "K1", "Quantity": quantity}] for quantity in (1, 10_000_000))
    pairs.append(
        (message(f"u{n}", "CountsTaken", Counts=few), accepted(n, f"u{n}", Taken=9_999_999))
    )
    pairs.append(
        (message(f"u{n + 1}", "CountsTaken", Counts=many), accepted(n + 1, f"u{n + 1}", Taken=0))
    )
write(pairs)
