"""A small line for recalls of sets of reels: two parts whose lots have the same name, and an
archive.
"""
from __future__ import annotations

from typing import Any, Iterator, Mapping

from lab import messages
from lab.line import Line

REELS = {  # by reel its part and lot
    "K-1": ("CAP", "240131"),
    "K-2": ("RES", "240131"),
    "K-3": ("CAP", "L-3"),
    "K-4": ("CAP", "L-4"),
}
MACHINES = {"CAP": ("M1", "C1"), "RES": ("M2", "R1")}


def say(word: str, uid: str, **body: Any) -> bytes:
    return messages.message(word, uid, messages.MORNING, **body)


def set_up(codes: Mapping[str, str] | None = None) -> Iterator[bytes]:
    """Parts, sheets and reels, these of which have date codes."""
    for part, (machine, designator) in MACHINES.items():
        row = {"Slot": "1", "PartNumber": part, "Designators": [designator]}
        yield say("PartDefined", f"part-{part}", PartNumber=part)
        body = {"Product": "B", "Machine": machine}
        yield say("SheetDefined", f"sheet-{part}", Rows=[row], **body)
        yield say("ProductSelected", f"product-{part}", **body)
    for reel, (part, lot) in REELS.items():
        yield received(reel, part, lot, **({"DateCode": codes[reel]} if codes else {}))


def received(reel: str, part: str, lot: str, **more: str) -> bytes:
    its = {"Reel": reel, "PartNumber": part, "Lot": lot, "Level": "1", "Quantity": 9}
    return say("ReelReceived", f"received-{reel}", **its, **more)


def board(reel: str, name: str, part: str = "", uid: str = "") -> Iterator[bytes]:
    """A board with a piece of a reel; the slot is empty before and afterwards. `uid` ends the
    UniqueIDs, which have the board's name unless it is given."""
    machine, designator = MACHINES[part or REELS[reel][0]]
    on, its = {"Machine": machine, "Slot": "1"}, {"Machine": machine, "Board": name}
    end = uid or name
    yield say("MaterialsLoaded", f"load-{end}", Reel=reel, **on)
    yield say("WorkStarted", f"start-{end}", **its)
    yield say("MaterialsInstalled", f"install-{end}", Designators=[designator], **its)
    yield say("WorkCompleted", f"complete-{end}", **its)
    yield say("MaterialsUnloaded", f"unload-{end}", **on)


def begin(line: Line) -> None:
    """Boards SN-1 to SN-4, each of the reel with that number; the last two in the running desk."""
    line.time = messages.MORNING
    line.accept(*set_up(), *board("K-1", "SN-1"), *board("K-2", "SN-2"))
    line.rollover().expect()
    line.accept(*board("K-3", "SN-3"), *board("K-4", "SN-4"))
