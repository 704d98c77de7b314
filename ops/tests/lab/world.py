"""Two lines with archives, which work on some of the same boards.

A shift of line L1 is fed to four desks, each begun from the one before it, at moments at which a
board has passed one machine and not the other; an idle desk is between two of them. The second
archive is without the indexes by reel and by overdue. Line L2 goes over once. Both last desks are
served.
"""
import contextlib
import pathlib
import shutil
import sqlite3
from typing import Optional

from lab.desk import log_into_file, rows_of_archive
from lab.line import Line
from lab.messages import parts_of
from lab.tools import Word
from tracedesk_dev import begun, shift
from tracedesk_ops import catalogue, copies, sealed

RUNNING = catalogue.RUNNING
# indexes on placement that older programs made, and their columns
OLDER_LAYOUT = {"placement_reel": ["reel"], "placement_overdue": ["overdue"]}


class ArchivedLine(Line):
    """A line that is archived by hand, which no service has to be stopped for."""

    def __init__(self, program: pathlib.Path, folder: pathlib.Path, name: str) -> None:
        super().__init__(program, folder, name)
        self.archived: list[pathlib.Path] = []  # the archives' files, the oldest first
        self.last = (
            folder / "last"
        )  # a copy of the running desk's file, as it was when it was served
        self.older: Optional[pathlib.Path] = None  # the running desk's file at an earlier moment
        self.archive.mkdir(parents=True)

    def archive_it(self, has_indexes: bool = True, later: int = 0) -> None:
        """Archives the desk's file, with or without the indexes that older programs made, and
        begins the next one, so many minutes later."""
        with contextlib.closing(sqlite3.connect(self.file, isolation_level=None)) as database:
            for name, columns in OLDER_LAYOUT.items():
                database.execute(f"DROP INDEX IF EXISTS {name}")
                if has_indexes:
                    database.execute(f"CREATE INDEX {name} ON placement ({', '.join(columns)})")
        log_into_file(self.file)
        file = self.archive / sealed.name_of(sealed.digits_of(self.file))
        self.file.rename(file)
        ((last,),) = rows_of_archive(file, "SELECT max(effective) FROM accepted")
        self.feed(begun.messages_of(file, last + later if later else None), statuses=(0,))
        self.archived.append(file)

    def serve(self) -> None:
        shutil.copy(self.file, self.last)
        super().serve()

    def named_files(self) -> dict[str, pathlib.Path]:
        """Each file that holds pieces, by the name that tracedesk-recall has for it."""
        return {**{file.name: file for file in self.archived}, RUNNING: self.last}


class World:
    """The two lines, served."""

    def __init__(self, program: pathlib.Path, folder: pathlib.Path, boards: int = 24) -> None:
        self.program, self.folder = program, folder
        self.first = ArchivedLine(program, folder / "L1", "L1")
        self.second = ArchivedLine(program, folder / "L2", "L2")
        self.lines = [self.first, self.second]
        try:
            self.make(boards)
        except BaseException:
            self.end()
            raise

    def make(self, boards: int) -> None:
        self.make_first(parts_of(shift.Shift(7, boards, "L1").lines, 4))
        serials = [f"L1-{number:06}" for number in range(1, boards // 2)]
        serials += [f"L2-{number:06}" for number in range(1, 5)]
        second = shift.Shift(8, line="L2", day="2026-03-04", serials=serials)
        for number, part in enumerate(parts_of(second.lines, 2)):
            if number:
                self.second.archive_it()
            self.second.feed(part.splitlines())
        for line in self.lines:
            line.serve()
        query = "SELECT 1 FROM placement WHERE overdue"
        overdue = [rows_of_archive(file, query) for file in self.first.archived]
        assert any(overdue), "no archive has an overdue piece"

    def make_first(self, parts: list[bytes]) -> None:
        line = self.first
        for number, part in enumerate(parts):
            if number:
                line.archive_it(has_indexes=number != 2, later=int(number == 1))
            if number == 2:
                line.archive_it()  # an idle desk
            if number == 1:
                half = part.index(b"\n", len(part) // 2) + 1
                line.feed(part[:half].splitlines())
                line.older = self.folder / "older"
                copies.copy(line.file, line.older)
                log_into_file(line.older)
            line.feed(part.splitlines())

    def words(self) -> list[Word]:
        """What tracedesk-recall is told of the lines."""
        return [word for line in self.lines for word in line.recall_words()]

    def end(self) -> None:
        for line in self.lines:
            line.end()
