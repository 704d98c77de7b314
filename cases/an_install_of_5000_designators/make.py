"""A sheet row of as many designators as may be, and one install of them all off two reels."""
from typing import Any
from spelling import accepted, faulty, message, refused, write


def sheet(uid: str, names: Any) -> Any:
    row = {"Slot": "1", "PartNumber": "P", "Designators": names}
    return message(uid, "SheetDefined", Product="PR", Machine="M", Rows=[row])


def reel(uid: str, name: Any, quantity: int) -> Any:
    return message(
        uid, "ReelReceived", Reel=name, PartNumber="P", Lot="L1", Level="1", Quantity=quantity
    )


def install(uid: str, names: Any) -> str:
    return message(uid, "MaterialsInstalled", Machine="M", Board="B1", Designators=names)


names = [f"R{n}" for n in range(1, 5_001)]
write(
    [
        (message("u1", "PartDefined", PartNumber="P"), accepted(1, "u1")),
        (sheet("u2", [*names, "R5001"]), faulty("OverLimit", Member="Designators")),
        (sheet("u2", [*names[:4_999], "R1"]), refused("u2", "DesignatorTwice", "R1")),
        (sheet("u2", names), accepted(2, "u2")),
        (message("u3", "ProductSelected", Machine="M", Product="PR"), accepted(3, "u3")),
        (reel("u4", "K1", 1_999), accepted(4, "u4")),
        (reel("u5", "K2", 3_000), accepted(5, "u5")),
        (reel("u6", "K3", 1), accepted(6, "u6")),
        (
            message("u7", "MaterialsLoaded", Machine="M", Slot="1", Reel="K1"),
            accepted(7, "u7", MinutesLeft=None),
        ),
        (
            message("u8", "MaterialsSpliced", Machine="M", Slot="1", Reel="K2"),
            accepted(8, "u8", MinutesLeft=None),
        ),
        (message("u9", "WorkStarted", Machine="M", Board="B1"), accepted(9, "u9")),
        (install("u10", [*names, "R5001"]), faulty("OverLimit", Member="Designators")),
        (install("u10", [*names[:4_999], "R1"]), refused("u10", "DesignatorTwice", "R1")),
        (
            install("u10", names),
            refused("u10", "ReelShort", "R5000"),
        ),  # the two reels have 4,999 pieces
        (
            message("u11", "MaterialsSpliced", Machine="M", Slot="1", Reel="K3"),
            accepted(10, "u11", MinutesLeft=None),
        ),
        (
            install("u10", names),
            accepted(11, "u10", Reels=["K1"] * 1_999 + ["K2"] * 3_000 + ["K3"]),
        ),
        (install("u12", ["R5000"]), refused("u12", "AlreadyPlaced", "R5000")),
    ]
)
