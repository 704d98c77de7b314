"""A seal of a desk that goes on: the copy is one moment, with each acknowledged command."""
from __future__ import annotations

import contextlib
import pathlib
import sqlite3
import threading
from collections.abc import Iterator

import pytest

from lab import messages
from lab.desk import Desk
from lab.programs import auditor
from lab.waits import wait_for
from tracedesk_ops import copies, sealed, sealing
from tracedesk_ops.line import LineFolder

Path = pathlib.Path


class Writer(threading.Thread):
    """Writes rows to a file as a desk does, alone and with a log, until it is stopped."""

    def __init__(self, path: Path) -> None:
        super().__init__()
        self.path, self.going, self.written = path, True, 0

    def run(self) -> None:
        with contextlib.closing(sqlite3.connect(self.path, isolation_level=None)) as database:
            for word in (
                "locking_mode = EXCLUSIVE",
                "journal_mode = WAL",
                "wal_autocheckpoint = 8",
            ):
                database.execute(f"PRAGMA {word}")
            database.execute("CREATE TABLE a (n INTEGER PRIMARY KEY, text TEXT)")
            database.execute("CREATE TABLE b (n INTEGER PRIMARY KEY, text TEXT)")
            while self.going:
                number = self.written + 1
                database.execute("BEGIN")
                for table in "ab":
                    text = f"{number} " * 300
                    database.execute(f"INSERT INTO {table} VALUES (?, ?)", [number, text])
                database.execute("COMMIT")
                self.written = number


def test_a_copy_of_a_file_that_is_written_is_one_moment_of_it(tmp_path: Path) -> None:
    writer = Writer(tmp_path / "desk")
    writer.start()
    try:
        for number in range(20):
            wait_for("rows are written", lambda: writer.written > 10 * number)
            to, before = tmp_path / "copy", writer.written
            copies.copy(writer.path, to, is_gentle=number % 2 == 0)
            after = writer.written
            copies.fold(to)
            with sealed.opened(to) as database:
                ends = copies.rows(database, "SELECT max(n), count(*) FROM a")
                assert ends == copies.rows(database, "SELECT max(n), count(*) FROM b")
                assert before <= ends[0][0] == ends[0][1] <= after + 1
                assert copies.rows(database, "PRAGMA integrity_check") == [("ok",)]
    finally:
        writer.going = False
        writer.join()


def test_a_file_that_changes_at_each_try_gives_no_copy(
    tmp_path: Path, monkeypatch: pytest.MonkeyPatch
) -> None:
    (tmp_path / "desk").write_bytes(b"a desk")
    moments = iter(range(1_000))
    monkeypatch.setattr(copies, "state_of", lambda *_: next(moments))
    with pytest.raises(copies.Changing, match="30 times"):
        copies.copy(tmp_path / "desk", tmp_path / "copy")


class Sender(threading.Thread):
    """Sends parts as fast as they are answered, until it is stopped."""

    def __init__(self, desk: Desk) -> None:
        super().__init__()
        self.desk, self.going = desk, True
        self.numbers: dict[str, int] = {}

    def run(self) -> None:
        while self.going:
            name = f"P{len(self.numbers)}"
            (answer,) = self.desk.post([messages.part(name)])
            self.numbers[f"x-{name}"] = answer["Number"]


@pytest.fixture
def sender(program: Path, folder: Path) -> Iterator[Sender]:
    desk = Desk(program, folder / "L1" / "desk")
    desk.feed(messages.FIRST_LINE)
    desk.serve()
    made = Sender(desk)
    made.start()
    try:
        yield made
    finally:
        made.going = False
        made.join()
        desk.end()


def test_a_seal_under_load_has_what_was_acknowledged_before(sender: Sender) -> None:
    desk = sender.desk
    audit = auditor(desk.program, desk.file).audit
    wait_for("some messages are answered", lambda: len(sender.numbers) > 20)
    for _ in range(3):
        acknowledged = dict(sender.numbers)
        made = sealing.seal(LineFolder(desk.file.parent), audit)
        with sealed.opened(made.path) as database:
            there = dict(copies.rows(database, "SELECT uid, number FROM accepted"))
        assert acknowledged.items() <= there.items()
        assert made.commands == len(there)
