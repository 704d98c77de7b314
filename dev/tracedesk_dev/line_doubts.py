"""A plain search for the pieces in doubt of a line's file, by SQL over its tables and by what
docs/line.md says of each reason. Lists are searched for each piece, and nothing is kept.
"""
from __future__ import annotations

import csv
import io
import pathlib
import sqlite3
from typing import NamedTuple

from tracedesk_dev.trial import Difference

PIECES = """SELECT p.number, p.place, p.board, p.designator, r.part, r.lot, p.reel, p.machine, p.slot,
        a.effective, a.own
    FROM placement p JOIN reel r USING (reel) JOIN accepted a USING (number)
    ORDER BY p.number, p.place"""
NOTES = "SELECT n, after, kind, machine, slot, board, word FROM book ORDER BY n"
RESTARTS = ("MaterialsLoaded", "MaterialsUnloaded")
HEADER = "number,place,board,designator,part,lot,reel,machine,slot,minute,reason,of".split(",")


class Piece(NamedTuple):
    """A placed piece, with the minute that counts and that of its message."""

    number: int
    place: int
    board: str
    designator: str
    part: str
    lot: str
    reel: str
    machine: str
    slot: str
    effective: int
    own: int

    def is_before(self, other: Piece) -> bool:
        return self[:2] < other[:2]

    def is_at(self, other: Piece) -> bool:
        return (self.machine, self.slot) == (other.machine, other.slot)


class Handling(NamedTuple):
    """A load, splice or unload that was accepted."""

    number: int
    own: int
    word: str
    machine: str
    slot: str


class Note(NamedTuple):
    """An entry of the book. The word of one about reels is the desk's reel."""

    number: int
    after: int
    kind: str
    machine: str
    slot: str
    board: str
    word: str


class Lists:
    """What the tables of a file say."""

    def __init__(self, file: pathlib.Path) -> None:
        desk = sqlite3.connect(f"file:{file}?mode=ro", uri=True)
        self.pieces = [Piece(*row) for row in desk.execute(PIECES)]
        has = desk.execute("SELECT 1 FROM sqlite_schema WHERE name = 'book'").fetchone()
        self.notes = [Note(*row) for row in desk.execute(NOTES)] if has else []
        texts = desk.execute("SELECT number, own, command FROM accepted ORDER BY number")
        said = [(number, own, text.split("\t")) for number, own, text in texts]
        self.handlings = [
            Handling(number, own, *its[:3])
            for number, own, its in said
            if its[0] in (*RESTARTS, "MaterialsSpliced")
        ]
        desk.close()

    def is_restarted(self, piece: Piece, after: int, before: int) -> bool:
        """Whether the piece's slot was loaded or unloaded between these commands."""
        return any(
            it.word in RESTARTS
            and (it.machine, it.slot) == (piece.machine, piece.slot)
            and after < it.number < before
            for it in self.handlings
        )

    def unsettling(self, piece: Piece) -> list[int]:
        return [
            it.number
            for it in self.notes
            if it.kind in ("handling", "differs")
            and (it.machine, it.slot) == (piece.machine, piece.slot)
            and it.after < piece.number
            and not self.is_restarted(piece, it.after, piece.number)
        ]

    def boundaries(self, piece: Piece) -> list[int]:
        its = piece.machine, piece.slot, piece.board, piece.reel
        return [
            it.number
            for it in self.notes
            if it.kind == "boundary"
            and it.after + 1 == piece.number
            and (it.machine, it.slot, it.board, it.word) == its
        ]

    def late(self, piece: Piece) -> list[int]:
        return [
            it.number
            for it in self.handlings
            if (it.machine, it.slot) == (piece.machine, piece.slot)
            and (it.number - piece.number) * (it.own - piece.own) < 0
        ]

    def is_near(self, one: Piece, other: Piece, within: int) -> bool:
        """Whether the first was placed before the other, off one tape, and fewer pieces between."""
        between = [
            it for it in self.pieces if it.is_at(one) and one.is_before(it) and it.is_before(other)
        ]
        return (
            one.is_before(other)
            and one.reel != other.reel
            and not self.is_restarted(one, one.number, other.number)
            and len(between) < within
        )

    def splices(self, piece: Piece, within: int) -> list[int]:
        near = any(
            self.is_near(piece, it, within) or self.is_near(it, piece, within)
            for it in self.pieces
            if it.is_at(piece)
        )
        return [0] if near else []

    def reasons(self, piece: Piece, within: int) -> dict[str, list[int]]:
        return {
            "entry": self.unsettling(piece),
            "boundary": self.boundaries(piece),
            "late": self.late(piece),
            "splice": self.splices(piece, within),
        }


def compare(file: pathlib.Path, within: int, told: str) -> dict[str, int]:
    """Compares what the program printed with the search; how many pieces have each reason. More
    than one entry or command may be a reason: the program names one of them.
    """
    lists, met = Lists(file), dict.fromkeys(("entry", "boundary", "late", "splice"), 0)
    rows = list(csv.reader(io.StringIO(told)))
    wanted = []
    for it in lists.pieces:
        found = lists.reasons(it, within)
        if first := next((name for name in found if found[name]), None):
            met[first] += 1
            wanted.append(([*map(str, it[:10]), first], found[first]))
    if rows[:1] != [HEADER] or len(rows) != len(wanted) + 1:
        raise Difference(f"{len(rows) - 1} pieces in doubt, and {len(wanted)} by the search")
    for row, (its, numbers) in zip(rows[1:], wanted):
        if row[:-1] != its or int(row[-1]) not in numbers:
            raise Difference(f"{row}\n  by the search {its}, of one of {numbers}")
    return met
