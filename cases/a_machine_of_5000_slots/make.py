"""A machine with as many slots as a sheet may have rows: each is loaded, and a board takes a piece
off each.
"""
from typing import Any
from spelling import accepted, message, refused, write

slots = range(1, 5_001)
names = [f"R{n}" for n in slots]
rows = [{"Slot": str(n), "PartNumber": "P", "Designators": [f"R{n}"]} for n in slots]


def fed(n: int) -> tuple[Any, Any]:
    """Receipt and load of the reel of slot n: the commands 2n + 2 and 2n + 3."""
    reel = message(
        f"r{n}", "ReelReceived", Reel=f"K{n}", PartNumber="P", Lot="L1", Level="1", Quantity=1
    )
    load = message(f"l{n}", "MaterialsLoaded", Machine="M", Slot=str(n), Reel=f"K{n}")
    return (reel, accepted(2 * n + 2, f"r{n}")), (
        load,
        accepted(2 * n + 3, f"l{n}", MinutesLeft=None),
    )


def start(uid: str, board: str) -> str:
    return message(uid, "WorkStarted", Machine="M", Board=board)


write(
    [
        (message("u1", "PartDefined", PartNumber="P"), accepted(1, "u1")),
        (message("u2", "SheetDefined", Product="PR", Machine="M", Rows=rows), accepted(2, "u2")),
        (message("u3", "ProductSelected", Machine="M", Product="PR"), accepted(3, "u3")),
        *(pair for n in slots[:-1] for pair in fed(n)),
        (
            start("u4", "B1"),
            refused("u4", "SlotEmpty", "5000"),
        ),  # all slots but the last are loaded
        *fed(5_000),
        (start("u4", "B1"), accepted(10_004, "u4")),
        (
            message("u5", "MaterialsInstalled", Machine="M", Board="B1", Designators=names),
            accepted(10_005, "u5", Reels=[f"K{n}" for n in slots]),
        ),
        (message("u6", "WorkCompleted", Machine="M", Board="B1"), accepted(10_006, "u6")),
        (start("u7", "B2"), refused("u7", "SlotEmpty", "1")),  # each reel had one piece
    ]
)
