"""A sheet of as many rows as may be, one row more, and what is wrong only in the last row."""
from typing import Any
from spelling import accepted, faulty, message, refused, write


def sheet(uid: str, *rows: Any) -> Any:
    told = [{"Slot": slot, "PartNumber": "P", "Designators": [name]} for slot, name in rows]
    return message(uid, "SheetDefined", Product="PR", Machine="M", Rows=told)


rows = [(str(n), f"R{n}") for n in range(1, 5_001)]
write(
    [
        (message("u1", "PartDefined", PartNumber="P"), accepted(1, "u1")),
        (sheet("u2", *rows, ("5001", "R5001")), faulty("OverLimit", Member="Rows")),
        (sheet("u2", *rows[:4_999], ("1", "R5000")), refused("u2", "SlotTwice", "1")),
        (sheet("u2", *rows[:4_999], ("5000", "R1")), refused("u2", "DesignatorTwice", "R1")),
        (sheet("u2", *rows), accepted(2, "u2")),
        (sheet("u2", *rows), accepted(2, "u2")),  # a repeat
        (message("u3", "ProductSelected", Machine="M", Product="PR"), accepted(3, "u3")),
        (
            message(
                "u4", "ReelReceived", Reel="K1", PartNumber="P", Lot="L1", Level="1", Quantity=1
            ),
            accepted(4, "u4"),
        ),
        (
            message("u5", "MaterialsLoaded", Machine="M", Slot="5001", Reel="K1"),
            refused("u5", "SlotNotOnSheet", "5001"),
        ),
        (
            message("u5", "MaterialsLoaded", Machine="M", Slot="5000", Reel="K1"),
            accepted(5, "u5", MinutesLeft=None),
        ),
    ]
)
