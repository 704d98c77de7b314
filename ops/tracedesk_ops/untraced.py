"""Untraced work of a line, by the books of its files: reports of work that its server refused or
couldn't read, boards of which a machine names other reels, and what somebody decided about each.
Refused loads, splices and unloads are here too, but nobody has to decide about them: a recall says
which pieces they make doubtful (tapes.py).

    its = untraced.Books()
    its.read("running desk", database)       # each file, in the order of their chain
    its.entries, its.decisions
"""
from __future__ import annotations

import json
import sqlite3
from collections.abc import Iterator
from typing import Any, NamedTuple

from tracedesk import records
from tracedesk_ops import catalogue, copies, entries, sealed
from tracedesk_ops.entries import BookEntry

DIFFERS, UNCOMPARED = "differs", "uncompared"
CONTRADICTIONS = (DIFFERS, "boundary", UNCOMPARED)
REFUSALS = ("handling", "stray", "work", "unread")
THOSE = "SELECT {} FROM book WHERE kind IN ({}) ORDER BY n".format(
    ", ".join(entries.COLUMNS),
    ", ".join(f"'{it}'" for it in (*CONTRADICTIONS, *REFUSALS, entries.DECISION)),
)
# the install of a contradiction is the command behind it
OWN = "SELECT own FROM accepted WHERE number BETWEEN ? AND ? ORDER BY number DESC LIMIT 1"
EFFECTIVE = "SELECT effective FROM accepted WHERE number = ?"
PLACED = "SELECT reel, designator FROM placement WHERE board = ? AND number = ?"
# columns of tables for readers
WORK = ("at", "machine", "board", "work", "refusal", "place", "source")
OUTCOME = ("became", "decided_by", "reason")
SCRAPPED = "scrapped"  # what became of a board: nothing else takes it out of recalls
HANDLING = ("MaterialsLoaded", "MaterialsSpliced", "MaterialsUnloaded")
MOST_SAID = 2_000  # letters of a column that a reader is shown; the book has all


class Decision(NamedTuple):
    """What somebody said about an entry."""

    became: str
    by: str
    reason: str


class Noted(NamedTuple):
    """What an entry says. `done` is the minute of its message, if that can be read, and `heard`
    that of the desk then. `reel` and `designators` are of pieces, as the desk has them, of which a
    machine names other reels.
    """

    id: str
    entry: BookEntry
    word: str = ""
    body: dict[str, Any] = {}
    done: int | None = None
    heard: int | None = None
    reel: str = ""
    designators: tuple[str, ...] = ()

    def minutes(self) -> list[int]:
        """From when it was done until the desk heard of it."""
        return sorted(it for it in (self.done, self.heard) if it is not None)

    def text(self, name: str) -> str:
        """A member of the body, as a text."""
        return str(self.body.get(name, ""))


class Books:
    """Those of a line, file by file. An entry that a roll-over carried on is that of the file
    before it, and the newest decision about it counts.
    """

    def __init__(self) -> None:
        self.found: dict[BookEntry, list[Noted]] = {}
        self.decided: dict[BookEntry, Decision] = {}

    def read(self, name: str, database: sqlite3.Connection) -> None:
        """Takes the book of a file in, if it has one."""
        here: dict[int, BookEntry] = {}
        for row in database.execute(THOSE) if sealed.has(database, sealed.BOOK) else ():
            its = BookEntry._make(row)
            if its.kind != entries.DECISION:
                here[its.n] = key = its._replace(n=0, after=0, of=0)
                if not its.of or key not in self.found:
                    self.decided.pop(key, None)  # it was about an earlier one of this UniqueID
                    id_ = f"entry {its.n} of {name}"
                    is_refused = its.kind in REFUSALS
                    those = refused_by if is_refused else contradicted_by
                    self.found[key] = [*those(id_, its, database)]
            elif its.of in here:
                told = json.loads(its.told)
                said = (told[member] for member in ("Became", "By", "Reason"))
                self.decided[here[its.of]] = Decision(*map(catalogue.printable, said))

    @property
    def entries(self) -> list[Noted]:
        return [noted for its in self.found.values() for noted in its]

    @property
    def decisions(self) -> dict[str, Decision]:
        """The newest one about each entry, by its id."""
        return {it.id: by for key, by in self.decided.items() for it in self.found[key]}


def refused_by(id_: str, entry: BookEntry, database: sqlite3.Connection) -> Iterator[Noted]:
    """What was refused, by its message."""
    told = records.as_read(entries.raw(entry.told))
    body = told.get("MessageBody")
    word = str(told.get("MessageName", "")).removeprefix("TraceDesk.")
    rows = copies.rows(database, EFFECTIVE, entry.after)
    heard, done = rows[0][0] if rows else None, minute_of(str(told.get("TimeStamp")))
    yield Noted(id_, entry, word, body if isinstance(body, dict) else {}, done, heard)


def contradicted_by(id_: str, entry: BookEntry, database: sqlite3.Connection) -> Iterator[Noted]:
    """The pieces of which a machine names another reel, by the desk's reels. If the file doesn't
    have the install of an entry that can't be compared, which no one of the line has then, each
    piece of the board may be one.
    """
    rows = copies.rows(database, OWN, entry.after, entry.after + 1)
    minute = rows[0][0] if rows else None
    its = Noted(id_, entry, "MaterialsInstalled", {}, minute, minute)
    if entry.kind != UNCOMPARED:
        yield its._replace(reel=entry.word, designators=tuple(entry.told.split(" ")))
        return
    found: dict[str, list[str]] = {}
    for reel, designator in copies.rows(database, PLACED, entry.board, entry.after + 1):
        found.setdefault(reel, []).append(designator)
    for reel, names in (found or {"": [""]}).items():
        yield its._replace(reel=reel, designators=tuple(names))


def minute_of(text: str) -> int | None:
    """The minute of a time as a message has it, none if that can't be read."""
    try:
        return catalogue.minute_of(text)
    except ValueError:
        return None


# --- What an entry is


def is_contradiction(it: Noted) -> bool:
    """Whether a machine names other reels than the desk, or none that can be compared."""
    return it.entry.kind in CONTRADICTIONS


def is_handling(it: Noted) -> bool:
    """Whether it is a refused load, splice or unload."""
    return it.entry.kind in REFUSALS and it.word in HANDLING


def is_work(it: Noted) -> bool:
    """Whether it is refused work, or something that nobody can read and that may be work."""
    return it.entry.kind in REFUSALS and it.word not in HANDLING


def is_shipped(by: Decision | None) -> bool:
    """Whether a board is decided about, and may be with somebody: recalls go on naming it."""
    return by is not None and by.became != SCRAPPED


# --- For readers


def said(it: Noted) -> list[str]:
    """What an entry says to a reader: its id and its kind, and the columns of WORK, each of a
    length that can be read.
    """
    return [
        text if len(text) <= MOST_SAID else f"{text[:MOST_SAID]} .. ({len(text):,} letters)"
        for text in map(catalogue.printable, columns(it))
    ]


def columns(it: Noted) -> list[str]:
    its, at = it.entry, "".join(map(catalogue.spelled, it.minutes()[:1]))
    if is_contradiction(it):
        work = f"{' '.join(it.designators)} by the desk of reel {it.reel}"
        why, place = "Differs" if its.reel else "Uncompared", its.reel
    else:
        names = it.body.get("Designators")
        of_slot = f"slot {it.text('Slot')}, {it.text('Quantity')} pieces" if it.text("Slot") else ""
        named = " ".join(map(str, names)) if isinstance(names, list) else of_slot
        work, why, place = f"{it.word} {named}".strip(), its.word, its.slot
    machine, board = its.machine or it.text("Machine"), its.board or it.text("Board")
    return [it.id, its.kind, at, machine, board, work, why, place, its.source]


def outcome(by: Decision | None) -> list[str]:
    """What became of untraced work, who decided that, and why; empty if nobody did."""
    return [*by] if by else [""] * len(OUTCOME)
