"""The entries of the book of a line's model: what messages and people say, what adds an entry, and
what closes one.
"""
from __future__ import annotations

import json
from typing import Any, NamedTuple

Body = dict[str, Any]

LOADS = ("MaterialsLoaded", "MaterialsSpliced")
HANDLINGS = (*LOADS, "MaterialsUnloaded")
MEMBERS = {  # of the bodies of the seven messages that may make an entry. Others are skipped
    "MaterialsLoaded": ("Machine", "Slot", "Reel"),
    "MaterialsSpliced": ("Machine", "Slot", "Reel"),
    "MaterialsUnloaded": ("Machine", "Slot"),
    "WorkStarted": ("Machine", "Board"),
    "WorkCompleted": ("Machine", "Board"),
    "MaterialsInstalled": ("Machine", "Board", "Designators"),
    "MaterialsScrapped": ("Machine", "Slot", "Quantity"),
}
NAMELESS = ("NotJson", "NotObject")  # faults of a message whose name can't be read
VERIFIED = ("SlotTaken", "ReelMounted")  # what a load is refused for whose reel is there already
STOP = ("handling", "stray", "work", "differs")  # kinds of entries that stop a machine
WAIT = ("work", "unread", "differs", "uncompared")  # those that wait for a decision
ATTRIBUTES = ("DateCode", "Supplier", "MakerPart", "Order")  # of a reel, in its receipt


class Command(NamedTuple):
    """An accepted command."""

    word: str
    body: Body


class Piece(NamedTuple):
    """A placed piece, and the reels that it came from by the machine and by the desk."""

    designator: str
    slot: str
    reel: str | None
    desk_reel: str


class Entry(NamedTuple):
    """A row of the book, without its number."""

    after: int
    kind: str
    source: str = ""
    uid: str = ""
    machine: str = ""
    slot: str = ""
    board: str = ""
    reel: str = ""
    word: str = ""
    of: int = 0
    told: str = ""


def as_told(message: bytes) -> str:
    """A message as the book has it."""
    try:
        told = message.decode()
    except UnicodeDecodeError:
        told = "\\"
    return f"\\x{message.hex()}" if told.startswith("\\") else told


def envelope(message: bytes) -> Body:
    """The members of a message, none if it is no object."""
    try:
        told = json.loads(message.decode())
    except ValueError:
        return {}
    return told if isinstance(told, dict) else {}


def word_of(told: Body) -> str:
    """The word of a message, empty if its name can't be read."""
    name = told.get("MessageName")
    return name.removeprefix("TraceDesk.") if isinstance(name, str) else ""


def members_of(told: Body) -> Body:
    """What is read of the body of one of the seven messages."""
    return {it: told["MessageBody"][it] for it in MEMBERS[word_of(told)]}


def said(entry: Entry) -> Any:
    """What an entry is about: a command without its envelope, or all of a faulty message."""
    if entry.kind == "unread":
        return entry.told
    told = envelope(entry.told.encode())
    return word_of(told), members_of(told)


def closes(entry: Entry, command: Command) -> bool:
    """Whether an accepted command closes an entry before it."""
    word, body = command
    is_there = body.get("Machine") == entry.machine
    at_slot = is_there and body.get("Slot") == entry.slot
    if entry.kind == "handling":
        return word in HANDLINGS and at_slot
    if entry.kind == "differs":
        return word in ("MaterialsLoaded", "MaterialsUnloaded") and at_slot
    if entry.kind == "work":
        return word == "WorkStarted" and is_there
    if entry.reel:
        return word in LOADS and body["Reel"] == entry.reel
    return word == "MaterialsUnloaded" and is_there


def is_text(value: Any) -> bool:
    """Whether somebody may say this in a decision or a hold."""
    return (
        isinstance(value, str)
        and 1 <= len(value.encode()) <= 1000
        and not any(it < " " or it == "\x7f" for it in value)
    )


def is_name(value: Any) -> bool:
    return (
        isinstance(value, str)
        and 1 <= len(value) <= 64
        and all(" " <= it <= "~" for it in value)
        and value == value.strip(" ")
    )


# --- What an accepted message adds


def is_attribute(value: Any) -> bool:
    """Whether a receipt may have this of a reel."""
    return (
        isinstance(value, str)
        and 1 <= len(value) <= 200
        and not any(it < " " or it == "\x7f" for it in value)
    )


def attributes(body: Body) -> list[Entry]:
    """The entries of those in a receipt."""
    return [
        Entry(0, "attribute", reel=body["Reel"], word=it, told=as_told(body[it].encode()))
        for it in ATTRIBUTES
        if is_attribute(body.get(it))
    ]


def names_reels(value: Any, count: int) -> bool:
    """Whether a machine names a reel, or none, for each of so many pieces."""
    return (
        isinstance(value, list)
        and len(value) == count
        and all(it is None or is_name(it) for it in value)
    )


def differences(pieces: list[Piece], tapes: dict[str, list[str]]) -> list[Entry]:
    """The entries of each slot and pair of reels that differ, in the order of their first pieces. A
    boundary if one reel was spliced right behind the other.
    """
    found: dict[tuple[str, str, str], Entry] = {}
    for designator, slot, reel, desk_reel in pieces:
        if reel not in (None, desk_reel):
            pairs = [{*two} for two in zip(tapes[slot], tapes[slot][1:])]
            kind = "boundary" if {reel, desk_reel} in pairs else "differs"
            new = Entry(0, kind, slot=slot, reel=str(reel), word=desk_reel)
            old = found.get((slot, str(reel), desk_reel), new)
            told = f"{old.told} {designator}".strip()
            found[slot, str(reel), desk_reel] = old._replace(told=told)
    return [*found.values()]
