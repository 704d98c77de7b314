"""Folders of lines whose desks are tables alone, without the program."""
from __future__ import annotations

import contextlib
import itertools
import os
import pathlib
import shutil
import sqlite3
import sys
from collections.abc import Callable, Iterator, Sequence
from unittest import mock

from lab import files
from lab.killed import Killed, killed_at
from tracedesk_ops import copies, entries, plant, rollover, sealed, sealing
from tracedesk_ops.line import LineFolder

Path = pathlib.Path

# of the calls of a tool that change a file; what is unfinished by then doesn't count
CALLS = ("mkdir", "rmdir", "unlink", "chmod", "fsync", "replace")
BEHIND = "SELECT uid, command FROM accepted WHERE number > ? ORDER BY number"
ACCEPT = """INSERT INTO accepted
    SELECT count(*) + 1, ?, 'S', 0, count(*) + 1, ?, '' FROM accepted"""


NOTE = """
    INSERT INTO book SELECT count(*) + 1, (SELECT count(*) FROM accepted), ?, 'S', ?, '', '', '',
        '', '', ?, '' FROM book"""


def note(line: LineFolder, uid: str, kind: str = "work", of: int = 0) -> None:
    """The desk's book gets an entry."""
    with files.opened(line.desk) as database:
        database.execute(entries.CREATE)
        database.execute(NOTE, [kind, uid, of])


def audit(file: Path) -> plant.Lawful:
    """Stands for the program's, which these files without rows of state would fail."""
    with sealed.opened(file) as database:
        numbers = [number for (number,) in database.execute("SELECT number FROM accepted")]
        entries = sealed.size(database, sealed.BOOK)
    assert sorted(numbers) == list(range(1, len(numbers) + 1))
    return plant.Lawful(len(numbers), entries)


def line_of(folder: Path, *uids: str) -> LineFolder:
    """A line whose desk has accepted these."""
    folder.mkdir()
    line = LineFolder(folder)
    files.desk(line.desk, uids)
    return line


def seal(line: LineFolder, *uids: str) -> sealed.Sealed:
    """Seals the desk once it has accepted these too."""
    files.accept(line.desk, uids)
    return sealing.seal(line, audit)


def with_log(line: LineFolder, uid: str) -> None:
    """The desk accepts this, and has it in its log alone, as after SIGTERM."""
    between = [(Path(f"{line.desk}{tail}"), line.path / f"copy{tail}") for tail in ("", "-wal")]
    with contextlib.closing(sqlite3.connect(line.desk)) as database:
        database.execute("PRAGMA journal_mode = WAL")
        database.execute(ACCEPT, [uid, f"PartDefined\t{uid}"])
        database.commit()
        for path, copy in between:
            shutil.copyfile(path, copy)
    for path, copy in between:
        os.replace(copy, path)
    assert copies.log_of(line.desk)


def killed_at_each_call(
    folder: Path, begin: Callable[[LineFolder], Callable[[], object]]
) -> Iterator[LineFolder]:
    """Lines of which the call that `begin` returns was killed at its first change of a file, at
    the second, and so on; of the last one it wasn't.
    """
    for number in itertools.count(1):
        line = line_of(folder / f"L{number}", "a")
        call = begin(line)
        with killed_at(number, CALLS) as calls:
            call()
        yield line
        if len(calls) < number:
            assert number > 5
            return


# --- Roll-overs


class Senders:
    """A desk's service, and what its senders say while it runs."""

    def __init__(
        self, line: LineFolder, said: list[tuple[str, str]], notes: Sequence[str] = ()
    ) -> None:
        self.line, self.said, self.is_running, self.have_said = line, said, True, False
        self.notes = notes

    def stop(self) -> None:
        self.is_running, self.have_said = False, True
        with files.opened(self.line.desk) as database:
            for said in self.said:
                database.execute(ACCEPT, said)
        for uid in self.notes:
            note(self.line, uid)

    def start(self, pieces: int = 0) -> float:
        """A tool that was killed starts nothing."""
        self.is_running |= not isinstance(sys.exc_info()[1], Killed)
        return 0


class NewTables:
    """The desk that goes on from a sealed file. Of its book all refused work stands that nobody
    decided about.
    """

    def __init__(self, work: Path, is_low: bool) -> None:
        self.path = work / "new"
        self.book: entries.Carrying | None = None

    def begin(self, file: sealed.Sealed) -> None:
        files.desk(self.path, mark=file.digits)
        book = entries.of(file.path)
        decided = {its.of for its in book if its.kind == entries.DECISION}
        standing = {its.n for its in book if its.kind == "work"} - decided
        self.book = entries.Carrying(book, standing, {"File": file.path.name}, 1)
        entries.write(self.path, self.book.with_since([], {}))

    def take(self, file: sealed.Sealed, end: Path) -> None:
        with sealed.opened(end) as old:
            rows = copies.rows(old, BEHIND, file.commands)
        with files.opened(self.path) as database:
            for row in rows:
                database.execute(ACCEPT, row)
        if self.book:
            places = {file.commands + count: 1 + count for count in range(len(rows) + 1)}
            since = entries.of(end, file.entries)
            entries.write(self.path, self.book.with_since(since, places))


def rolled_over(line: LineFolder, *said: tuple[str, str], notes: Sequence[str] = ()) -> Senders:
    """Rolls a line over, whose desk accepts this meanwhile: its UniqueIDs and texts; then its book
    gets these entries.
    """
    service = Senders(line, [*said], notes)

    def made(work: Path) -> sealed.Sealed:
        sealing.copied(line.desk, work / "desk", audit)
        return sealing.put(line, work / "desk")

    with mock.patch.object(plant, "is_open", lambda _: bool(said)):
        rollover.roll_over(line, service, made, NewTables, False)
    return service
