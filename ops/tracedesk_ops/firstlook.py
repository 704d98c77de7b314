"""What a recall asks, and what tracedesk-chain doesn't print of a file, by SQL."""
from __future__ import annotations

import json
import pathlib
import sqlite3
from typing import NamedTuple

from tracedesk_ops import catalogue, copies

KNOWN = "SELECT 1 FROM {} WHERE {}"
LEFT = """SELECT reel, part, lot, remaining, iif(mount.reel IS NOT NULL, 'mounted', iif(open_since >= 0, 'open', 'sealed')),
    coalesce(machine, ''), coalesce(slot, '') FROM reel LEFT JOIN mount USING (reel) WHERE {} AND remaining > 0 ORDER BY reel"""


class Line(NamedTuple):
    """A line of the plant and its folder."""

    name: str
    folder: pathlib.Path


class Question(NamedTuple):
    """What is asked: `kind` is lot, board, reel, or reels, a set of them whose `name` is a title. A
    lot may be asked for its pieces of one part. `within` is by how many pieces a label may be
    wrong, and `as_of` the minute until which a line without its desk has to be known.
    """

    kind: str
    name: str
    part: str = ""
    reels: tuple[str, ...] = ()
    within: int = 0
    as_of: int | None = None

    def names(self) -> tuple[str, ...]:
        """The names that are asked for; of a set of reels perhaps none."""
        return self.reels if self.kind == "reels" else (self.name,)

    def about(self) -> dict[str, str]:
        """The question as a certificate has it."""
        part = {"part": self.part} if self.part else {}
        within = {"within": f"{self.within} pieces of a splice"} if self.within else {}
        as_of = {} if self.as_of is None else {"as_of": catalogue.spelled(self.as_of)}
        return {"kind": self.kind, "name": self.name, **part, **within, **as_of}

    def words(self, listed: pathlib.Path) -> list[str]:
        """The words of tracedesk-chain; a set of reels is in this file."""
        if self.kind == "reels":
            return ["reels", str(listed)]
        return [self.kind, self.name, *(["--part", self.part] if self.part else [])]

    def sql(self) -> tuple[str, list[str]]:
        """The condition on a row of the table `reel`, and its values."""
        if self.kind == "reels":
            return "reel IN (SELECT value FROM json_each(?))", [json.dumps(self.reels)]
        if self.part:
            return "lot = ? AND part = ?", [self.name, self.part]
        return f"{self.kind} = ?", [self.name]

    def is_of(self, reel: str, part: str, lot: str) -> bool:
        """Whether such a reel is asked for."""
        if self.kind == "lot":
            return lot == self.name and self.part in ("", part)
        return reel in self.names()


class Piece(NamedTuple):
    """A placed piece."""

    board: str
    designator: str
    part: str
    lot: str
    reel: str
    machine: str
    slot: str
    overdue: str
    minute: int
    line: str
    file: str


class ReelLeft(NamedTuple):
    """What is left of a reel as of a minute, None being now; machine and slot may be empty."""

    reel: str
    part: str
    lot: str
    remaining: int
    state: str
    machine: str
    slot: str
    line: str
    minute: int | None


def is_known(database: sqlite3.Connection, question: Question) -> bool:
    """Whether a desk knows the name."""
    where, values = question.sql()
    query = KNOWN.format("board" if question.kind == "board" else "reel", where)
    return bool(copies.rows(database, query, *values))


def left_in(
    database: sqlite3.Connection, line: Line, question: Question, minute: int | None = None
) -> list[ReelLeft]:
    """What is left of the lot or reel by the tables of a desk, as of a minute, none being now."""
    where, values = question.sql()
    left = [] if question.kind == "board" else copies.rows(database, LEFT.format(where), *values)
    return [ReelLeft._make((*row, line.name, minute)) for row in left]
