"""Two reels of level 6 with the least and the greatest label, baked and opened at once, on a
machine of two slots.
"""
from typing import Any
from spelling import accepted, faulty, message, refused, write

YEAR = 525_600


def received(uid: str, reel: str, label: int) -> str:
    return message(
        uid,
        "ReelReceived",
        Reel=reel,
        PartNumber="P",
        Lot="L1",
        Level="6",
        Quantity=10,
        LabelMinutes=label,
    )


def loaded(uid: str, slot: str, reel: str, minute: int) -> Any:
    return message(uid, "MaterialsLoaded", minute, Machine="M", Slot=slot, Reel=reel)


def started(uid: str, board: str, minute: int) -> str:
    return message(uid, "WorkStarted", minute, Machine="M", Board=board)


rows = [
    {"Slot": slot, "PartNumber": "P", "Designators": [name]}
    for slot, name in (("1", "R1"), ("2", "C1"))
]
over = faulty("OverLimit", Member="LabelMinutes")
write(
    [
        (message("u1", "PartDefined", PartNumber="P"), accepted(1, "u1")),
        (message("u2", "SheetDefined", Product="PR", Machine="M", Rows=rows), accepted(2, "u2")),
        (message("u3", "ProductSelected", Machine="M", Product="PR"), accepted(3, "u3")),
        (received("u4", "K1", 0), faulty("BodyMember", Member="LabelMinutes")),
        (received("u4", "K1", 1), accepted(4, "u4")),
        (received("u5", "K2", YEAR + 1), over),
        (received("u5", "K2", YEAR), accepted(5, "u5")),
        (message("u6", "ReelBaked", Reel="K1"), accepted(6, "u6")),
        (message("u7", "ReelBaked", Reel="K2"), accepted(7, "u7")),
        (loaded("u8", "1", "K1", 0), accepted(8, "u8", MinutesLeft=1)),
        (loaded("u9", "2", "K2", 0), accepted(9, "u9", MinutesLeft=YEAR)),
        (started("u10", "B1", 0), accepted(10, "u10")),
        (message("u11", "WorkCompleted", 0, Machine="M", Board="B1"), accepted(11, "u11")),
        (started("u12", "B2", 1), refused("u12", "Expired", "1")),  # K1 was out for its one minute
        (message("u13", "MaterialsUnloaded", 1, Machine="M", Slot="1"), accepted(12, "u13")),
        (message("u14", "ReelBaked", 1, Reel="K1"), accepted(13, "u14")),
        (message("u15", "ClockSet", YEAR - 1), accepted(14, "u15")),
        (loaded("u16", "1", "K1", YEAR - 1), accepted(15, "u16", MinutesLeft=1)),
        (started("u17", "B2", YEAR - 1), accepted(16, "u17")),  # each of the two has a minute left
        (message("u18", "WorkCompleted", YEAR - 1, Machine="M", Board="B2"), accepted(17, "u18")),
        (message("u19", "MaterialsUnloaded", YEAR, Machine="M", Slot="1"), accepted(18, "u19")),
        (message("u20", "ReelBaked", YEAR, Reel="K1"), accepted(19, "u20")),
        (loaded("u21", "1", "K1", YEAR), accepted(20, "u21", MinutesLeft=1)),
        (started("u22", "B3", YEAR), refused("u22", "Expired", "2")),  # and K2 for its 525,600
    ]
)
