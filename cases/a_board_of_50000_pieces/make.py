"""A board of 50,000 pieces off ten reels, all placed past floor life, and what its reports say.

Slot n feeds 5,000 designators off the reel Kn. The reels are opened by their loads at minute 0 and
have 1,440 minutes; the board is begun a minute before that and built at the minute.
"""
import pathlib
from typing import Any

from spelling import accepted, message, write

slots = range(1, 11)
names = {n: [f"R{n}-{place}" for place in range(1, 5_001)] for n in slots}
rows = [{"Slot": str(n), "PartNumber": "P", "Designators": names[n]} for n in slots]


def received(n: int) -> tuple[str, str]:
    asked = message(
        f"r{n}", "ReelReceived", Reel=f"K{n}", PartNumber="P", Lot="L1", Level="5a", Quantity=5_000
    )
    return asked, accepted(3 + n, f"r{n}")


def loaded(n: int) -> Any:
    asked = message(f"l{n}", "MaterialsLoaded", Machine="M", Slot=str(n), Reel=f"K{n}")
    return asked, accepted(13 + n, f"l{n}", MinutesLeft=1_440)


def installed(n: int) -> tuple[str, str]:
    asked = message(
        f"i{n}", "MaterialsInstalled", 1_440, Machine="M", Board="B1", Designators=names[n]
    )
    return asked, accepted(24 + n, f"i{n}", Reels=[f"K{n}"] * 5_000)


def csv(name: str, header: str, rows: Any) -> None:
    pathlib.Path(name).write_text("".join(f"{line}\n" for line in [header, *rows]))


write(
    [
        (message("u1", "PartDefined", PartNumber="P"), accepted(1, "u1")),
        (message("u2", "SheetDefined", Product="PR", Machine="M", Rows=rows), accepted(2, "u2")),
        (message("u3", "ProductSelected", Machine="M", Product="PR"), accepted(3, "u3")),
        *map(received, slots),
        *map(loaded, slots),
        (message("u4", "WorkStarted", 1_439, Machine="M", Board="B1"), accepted(24, "u4")),
        *map(installed, slots),
    ]
)
pieces = [(n, name) for n in slots for name in names[n]]
by_name = sorted((name.encode(), n) for n, name in pieces)  # byte by byte
header = "designator,part,lot,reel,machine,slot,overdue"
csv("board_4.csv", header, [f"{name.decode()},P,L1,K{n},M,{n},yes" for name, n in by_name])
header = "board,designator,part,reel,machine,slot,overdue"
csv("lot_4.csv", header, [f"B1,{name.decode()},P,K{n},M,{n},yes" for name, n in by_name])
csv("overdue.csv", "board,designator,reel,minute", [f"B1,{name},K{n},1440" for n, name in pieces])
