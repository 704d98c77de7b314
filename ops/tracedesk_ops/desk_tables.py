"""What the tables of a desk's file say, for who tells it to another desk: carry.py.

    desk_tables.DeskTables(pathlib.Path("/var/lib/tracedesk/L1/desk")).reels
"""
from __future__ import annotations

import contextlib
import functools
import pathlib
import sqlite3
from collections.abc import Callable
from typing import Any, NamedTuple

from tracedesk.limits import GREATEST_LABEL

from tracedesk_ops import copies, sealed

FLOOR_LIFE = {
    "1": None,
    "2": 525_600,
    "2a": 40_320,
    "3": 10_080,
    "4": 4_320,
    "5": 2_880,
    "5a": 1_440,
}
# UniqueIDs of each source that a new desk knows of the archive: those that a sender may still send
# again
KNOWN = 1_000
TABLES = ("accepted", "part", "alternate", "sheet_row", "selected", "reel", "mount", "board")
SHEETS = """SELECT product, machine, slot, part, designators FROM sheet_row
    ORDER BY product, machine, place"""
MOUNTS = "SELECT machine, slot, reel FROM mount ORDER BY machine, slot, since"
COLUMNS = "reel, part, lot, level, label, remaining, used, open_since, baked"

Known = tuple[int, str, str, int]  # number, UniqueID, source and own minute of a command
SheetRow = tuple[str, str, list[str]]  # slot, part, designators
Opener = Callable[[pathlib.Path], contextlib.AbstractContextManager[sqlite3.Connection]]


class NotCarried(Exception):
    """Why no messages can be made of a file."""


class ReelRow(NamedTuple):
    """A row of the table reel."""

    reel: str
    part: str
    lot: str
    level: str
    label: int
    remaining: int
    used: int
    open_since: int
    baked: int

    def is_open(self) -> bool:
        return self.open_since >= 0

    def exposure(self, minute: int) -> int:
        """How many minutes it was open until this one, at most its floor life."""
        counted = self.used + (minute - self.open_since if self.is_open() else 0)
        return min(counted, self.limit() or GREATEST_LABEL)

    def limit(self) -> int | None:
        """Its floor life in minutes, none where it has no limit."""
        return self.label if self.level == "6" else FLOOR_LIFE[self.level]

    def waits_for_its_bake(self) -> bool:
        return self.level == "6" and not self.baked

    def runs(self) -> bool:
        """Whether its minutes out of the bag count for anything."""
        return not (self.level == "1" or self.waits_for_its_bake())


class DeskTables:
    """What the tables of a desk's file say; the file is opened as `opened` does it."""

    def __init__(self, path: pathlib.Path, opened: Opener = copies.opened) -> None:
        with opened(path) as database:
            self.read(database)

    def read(self, database: sqlite3.Connection) -> None:
        rows = functools.partial(copies.rows, database)
        try:
            ((number, self.greatest),) = rows("SELECT number, greatest FROM version")
        except (sqlite3.Error, ValueError):
            raise NotCarried("it is no desk's file")
        names = {name for (name,) in rows("SELECT name FROM sqlite_master WHERE type = 'table'")}
        if number not in (1, 2) or not names.issuperset(TABLES):
            raise NotCarried(f"it has tables of version {number}, or some are missing")
        ((self.commands, self.minute),) = rows("SELECT count(*), max(effective) FROM accepted")
        self.parts = [part for (part,) in rows("SELECT part FROM part ORDER BY part")]
        self.alternates = dict.fromkeys(
            rows("SELECT part, alternate FROM alternate ORDER BY part, alternate")
        )
        self.sheets: dict[tuple[str, str], list[SheetRow]] = {}
        for product, machine, slot, part, designators in rows(SHEETS):
            row = slot, part, designators.split(" ")
            self.sheets.setdefault((product, machine), []).append(row)
        self.selected = dict(rows("SELECT machine, product FROM selected ORDER BY machine"))
        self.read_reels(rows)
        begun = sealed.begun_with(database, sealed.begun_from(database), "main")
        self.known = known(database, begun)
        self.unknown = 0  # older ones
        its = {name for name in names if not name.startswith("sqlite_")}
        self.of_others = sorted(its - {*TABLES, "version", "placement", "found", sealed.BOOK.table})

    def read_reels(self, rows: Callable[[str], list[Any]]) -> None:
        """Reels with pieces, where they are, spent ones, and boards in work."""
        found = rows(f"SELECT {COLUMNS} FROM reel WHERE remaining > 0 ORDER BY reel")
        self.reels = {row[0]: ReelRow(*row) for row in found}
        self.spent = {reel for (reel,) in rows("SELECT reel FROM reel WHERE remaining = 0")}
        self.tapes: dict[tuple[str, str], list[ReelRow]] = {}
        for machine, slot, reel in rows(MOUNTS):
            self.tapes.setdefault((machine, slot), []).append(self.reels[reel])
        self.in_work = rows("SELECT machine, board FROM board WHERE machine <> '' ORDER BY machine")


def known(database: sqlite3.Connection, begun: int) -> list[Known]:
    """The last UniqueIDs of each source, the newest first: their number, source and own minute.
    What the desk was begun with is left out, but not the UniqueIDs of its own archive that it was
    told then: those are older than the rest, the newest first.
    """
    ((first, source),) = database.execute(
        "SELECT max(uid), max(source) FROM accepted WHERE number = 1"
    ).fetchall()
    numbered = f"{first[:-1]}%" if begun else ""
    return database.execute(
        """
        WITH those AS (SELECT *, iif(number > ?1, number, -number) AS turn FROM accepted
            WHERE NOT (number <= ?1 AND source = ?2 AND uid LIKE ?3))
        SELECT number, uid, source, own FROM (SELECT *, row_number() OVER (PARTITION BY source ORDER BY turn DESC) AS place FROM those)
        WHERE place <= ?4 ORDER BY turn DESC""",
        [begun, source, numbered, KNOWN],
    ).fetchall()
