"""A sheet of 20 rows with 5,000 designators each, and one whose last designator is the first one
again.
"""
from typing import Any
from spelling import accepted, message, refused, write


def sheet(uid: str, names: Any) -> Any:
    rows = [names[at : at + 5_000] for at in range(0, 100_000, 5_000)]
    told = [
        {"Slot": str(n), "PartNumber": "P", "Designators": row} for n, row in enumerate(rows, 1)
    ]
    return message(uid, "SheetDefined", Product="PR", Machine="M", Rows=told)


names = [f"R{n:x}" for n in range(100_000)]
write(
    [
        (message("u1", "PartDefined", PartNumber="P"), accepted(1, "u1")),
        (sheet("u2", [*names[:-1], "R0"]), refused("u2", "DesignatorTwice", "R0")),
        (sheet("u2", names), accepted(2, "u2")),
    ]
)
