"""Lines that tools roll over and copy while they are served, and what databases have of them."""
from __future__ import annotations

import calendar
import os
import pathlib
import shutil
from typing import Sequence

from lab import small
from lab.databases import Database
from lab.line import Line
from lab.recalls import Asked
from lab.world import RUNNING
from tracedesk_ops import doubts, entries, untraced

PIECES = "line, file, board, designator, part, lot, reel, machine, slot, overdue, at"
TABLES = {
    "line": "name, refused",
    "file": "line, name, sha256, place, begun, commands, entries, rows, pieces, until, sealed",
    "known": "line, lot, part, reel",
    "doubt": "line, said, board, parts, reels, lots",
    "piece": PIECES,
}
# of the parts of a line's work the boards, each with its reel
WORK = [{"SN-1": "K-1", "SN-2": "K-2"}, {"SN-3": "K-1", "SN-4": "K-3"}, {"SN-5": "K-2"}]
TWICE = "SELECT line, board, designator FROM piece GROUP BY 1, 2, 3 HAVING count(*) > 1"

Rows = list[tuple[str, ...]]


def parts_of_work() -> list[bytes]:
    """The messages of each part of a line's work."""
    parts = [
        [message for name, reel in part.items() for message in small.board(reel, name)]
        for part in WORK
    ]
    parts[0] = [*small.set_up(), *parts[0]]
    return [b"\n".join(part) for part in parts]


class WorkedLine(Line):
    """A line whose desk is rolled over and sealed by the tools, while it is served. `kept` are
    mirrors of its folder, one behind each seal, of a day each.
    """

    def __init__(self, program: pathlib.Path, folder: pathlib.Path, name: str) -> None:
        super().__init__(program, folder, name)
        self.mirrors = folder.with_name(f"{folder.name}-mirrors")

    def work(self, parts: Sequence[bytes]) -> None:
        """Posts the parts of a shift. The desk is rolled over between two of them."""
        for number, part in enumerate(parts):
            if number:
                self.copy()
                self.rollover().expect()
            self.post(part.splitlines())
            self.decide()
        self.copy()

    def decide(self) -> None:
        """Somebody decides about all that was refused, so that it is in no answer's way."""
        for its in entries.told(self.get("/line/book?after=0")[1])[0]:
            if its.kind in untraced.REFUSALS:
                is_reel = its.kind == "handling"
                became = doubts.TAKEN_OFF if is_reel else untraced.SCRAPPED
                self.note("decisions", Of=its.n, Became=became)

    def copy(self, status: int = 0) -> pathlib.Path:
        """Seals the desk, and copies the folder to a new mirror; 4 says that senders have to send
        again.
        """
        self.seal().expect(status)
        number = len(self.kept()) + 1
        day = calendar.timegm((2026, 3, number, 6, 0, 0))
        os.utime(max(self.archive.glob("*.desk"), key=os.path.getmtime), (day, day))
        mirror = self.mirrors / f"{number}/{self.name}"
        shutil.copytree(self.folder, mirror, ignore=shutil.ignore_patterns("desk*"))
        return mirror

    def kept(self) -> list[pathlib.Path]:
        return sorted(self.mirrors.glob("*/*"))

    @property
    def last(self) -> pathlib.Path:
        return self.newest()

    @property
    def archived(self) -> list[pathlib.Path]:
        """The archives' files, oldest first."""
        return [archive.path for archive in self.archives()]

    def named_files(self) -> dict[str, pathlib.Path]:
        return {**{file.name: file for file in self.archived}, RUNNING: self.last}


def pieces(database: Database) -> Rows:
    return database.rows(f"SELECT {PIECES} FROM piece ORDER BY 1, 2, 3, 4")


def state(database: Database) -> list[Rows]:
    """All rows of all tables, but for the ids of files."""
    return [
        database.rows(f"SELECT {columns} FROM {name} ORDER BY ({columns})::text")
        for name, columns in TABLES.items()
    ]


def as_recalled(lines: Sequence[Asked], rows: list[dict[str, str]]) -> list[dict[str, str]]:
    """Rows of the tables, with the newest files named as a recall of running desks does it."""
    newest = {line.last.name: RUNNING for line in lines}
    return [row | {"file": newest.get(row["file"], row["file"])} for row in rows]


def expect_whole(database: Database, status: int = 0) -> None:
    """Looks whether no line has a place of a board twice, and what a recall ends with."""
    assert database.rows(TWICE) == []
    ((lot,),) = database.rows("SELECT min(lot) FROM reel")
    database.query("recall", status, lot=lot)
