"""The subcommands that keep a line's files: what they do, what they say, and their statuses."""
from __future__ import annotations

import argparse
import contextlib
import os
import pathlib
import shutil
import signal
import sqlite3
import sys
from collections.abc import Callable, Iterator

import pytest

from lab import ROOT, files
from lab.desk import Desk
from lab.messages import FIRST_LINE, part
from tracedesk_ops import chains, cli, lineage, plant, sealed
from tracedesk_ops.line import LineFolder

Path = pathlib.Path
DAMAGED: dict[str, Callable[[bytes], bytes]] = {  # what becomes of a desk's bytes
    "no database": lambda text: b"no database" * 100,
    "a broken page": lambda text: text[:4096].replace(b"accepted", b"\xff" * 8) + bytes(40960),
    "empty": lambda text: b"",
}


@contextlib.contextmanager
def process_as_it_was() -> Iterator[None]:
    """Puts back what a tool changes of this process: its umask and its signals."""
    mask = os.umask(0o022)
    signals = {number: signal.getsignal(number) for number in (signal.SIGTERM, signal.SIGHUP)}
    try:
        yield
    finally:
        os.umask(mask)
        for number, handler in signals.items():
            signal.signal(number, handler)


class Called:
    """The command, in this process."""

    def __init__(self, line: LineFolder, patch: pytest.MonkeyPatch) -> None:
        self.line, self.patch = line, patch

    def ends(self, subcommand: str, *more: object) -> int:
        words = ["tracedesk-ops", subcommand, str(self.line.path), *map(str, more)]
        with process_as_it_was():
            self.patch.setattr(sys, "argv", words)
            return cli.main()

    def files(self) -> list[int]:
        return sorted(file.commands for file in lineage.of(self.line).files)


@pytest.fixture
def called(folder: Path, monkeypatch: pytest.MonkeyPatch) -> Called:
    """The same of a desk without rows of state, with a stand-in for the program."""

    def audit(_: plant.Program, file: Path) -> plant.Lawful:
        try:
            with sealed.opened(file) as database:
                return plant.Lawful(*(sealed.size(database, its) for its in sealed.LISTS))
        except sqlite3.Error as fault:
            raise plant.Fault(str(fault)) from fault

    monkeypatch.setattr(plant.Program, "audit", audit)
    monkeypatch.setattr(plant, "chain_of", lambda _: "chain")
    monkeypatch.setattr(plant, "line_of", lambda _: "line")
    monkeypatch.setattr(chains, "asked", lambda *_: None)
    monkeypatch.setenv("PROGRAM", "true")
    line = LineFolder(folder / "L1")
    line.path.mkdir()
    files.desk(line.desk, ["a"])
    return Called(line, monkeypatch)


@pytest.mark.parametrize("subcommand", [name for name in cli.SUBCOMMANDS if name != "make"])
def test_a_folder_without_a_line_stays_as_it_is(
    called: Called, subcommand: str, capsys: pytest.CaptureFixture[str]
) -> None:
    called.line.desk.unlink()
    theirs = called.line.path / "work/theirs"
    theirs.parent.mkdir()
    theirs.write_text("a year of it")
    assert called.ends(subcommand) == 3
    assert "is no line's folder" in capsys.readouterr().err
    assert sorted(called.line.path.rglob("*")) == [theirs.parent, theirs]


@pytest.mark.parametrize("name", ["", ".", "..", "~", "L 1"])
def test_what_is_no_name_names_no_line(name: str) -> None:
    """Least of all the folder above that of a line."""
    with pytest.raises(argparse.ArgumentTypeError):
        cli.line_named(name)


def test_seals_of_a_line_that_goes_on_end_with_0_and_three_are_kept(called: Called) -> None:
    for number in range(6):
        files.accept(called.line.desk, [f"b-{number}"])
        assert called.ends("seal") == 0
    assert called.files() == [5, 6, 7]
    assert called.ends("check") == 0


def test_what_a_restore_took_off_is_said_by_each_seal(
    called: Called, capsys: pytest.CaptureFixture[str]
) -> None:
    called.ends("seal")
    (older,) = lineage.of(called.line).files
    files.accept(called.line.desk, ["b", "c"])
    capsys.readouterr()
    assert called.ends("restore", "--dry-run") == 4
    planned = capsys.readouterr().out
    assert "2 commands of S have to be sent again, the first of 1970-01-01T00:02:00Z" in planned
    assert called.ends("restore", older.digits[:6]) == 4 and capsys.readouterr().out == planned
    (lost,) = called.line.lost.iterdir()
    for uid in ("d", "e", "b", "f", "g"):
        files.accept(called.line.desk, [uid])
        assert called.ends("seal") == 4
        assert f"{lost}, the first of" in capsys.readouterr().err
    assert called.ends("check") == 3
    files.accept(called.line.desk, ["c"])
    assert called.ends("seal") == 0 and called.ends("check") == 0


def goes_on(called: Called) -> None:
    files.accept(called.line.desk, ["c", "d"])


def is_taken_off(called: Called) -> None:
    goes_on(called)
    called.ends("restore")


def is_damaged(how: str) -> Callable[[Called], object]:
    return lambda called: called.line.desk.write_bytes(DAMAGED[how](called.line.desk.read_bytes()))


PAGE = (ROOT / "docs/line-folder.md").read_text(encoding="utf-8")
ROWS = {  # docs/line-folder.md, "Restore": by the first cell, the others
    row[0]: row[1:]
    for row in (line[2:-2].split(" | ") for line in PAGE.splitlines() if "| `restore L1" in line)
}
DESKS: list[tuple[str, Callable[[Called], object]]] = [
    ("was sealed, and accepted nothing since", lambda called: None),
    ("accepted 2 commands since it was sealed", goes_on),
    *(("can't be read", is_damaged(how)) for how in DAMAGED),
    ("isn't there", lambda called: called.line.desk.unlink()),
    ("accepted nothing since the restore that took 2 commands off", is_taken_off),
]


def test_the_page_predicts_five_restores() -> None:
    assert len(ROWS) == 5 and {desk for desk, _ in DESKS} == ROWS.keys()


@pytest.mark.parametrize("desk, happens", DESKS)
def test_a_restore_is_as_its_page_predicts(
    called: Called,
    desk: str,
    happens: Callable[[Called], object],
    capsys: pytest.CaptureFixture[str],
) -> None:
    """By the page alone; the dry run says so and changes nothing, and the restore does it."""
    call, file, is_kept, again, status = ROWS[desk]
    files.accept(called.line.desk, ["b"])
    assert called.ends("seal") == 0
    happens(called)
    lost = sorted(called.line.lost.iterdir())
    words = [it.stem[:6] for it in lost if "lost" in call]
    capsys.readouterr()
    before = {path: path.read_bytes() for path in called.line.path.rglob("*") if path.is_file()}
    assert called.ends("restore", *words, "--dry-run") == int(status)
    said = capsys.readouterr().out
    assert before == {it: it.read_bytes() for it in called.line.path.rglob("*") if it.is_file()}
    those = called.line.sealed if file == "the newest sealed file" else called.line.lost
    assert [f"{it} becomes" in said for it in those.iterdir()] == [True]
    assert ("the desk goes to lost/" in said) == (is_kept == "yes")
    assert ("can't be read" in said) == (again == "nobody knows")
    assert (f"{again} of S have to be sent again" in said) == (again[0].isdigit())
    assert called.ends("restore", *words) == int(status) and capsys.readouterr().out == said
    assert uids(called.line.desk) == ["a", "b", *(["c", "d"] if words else [])]
    assert called.line.desk.stat().st_mode & 0o777 == 0o600
    assert bool([*called.line.lost.glob("*.desk")]) == (is_kept == "yes")
    assert called.ends("seal") == int(status)


def uids(desk: Path) -> list[str]:
    with sealed.opened(desk) as database:
        return [uid for (uid,) in database.execute("SELECT uid FROM accepted ORDER BY number")]


def test_a_desk_that_was_set_back_is_said_and_nothing_goes(
    called: Called, capsys: pytest.CaptureFixture[str]
) -> None:
    kept = called.line.path.with_name("snapshot")
    shutil.copyfile(called.line.desk, kept)
    for number in range(3):
        files.accept(called.line.desk, [f"b-{number}"])
        called.ends("seal")
    shutil.copyfile(kept, called.line.desk)
    assert called.ends("seal") == 4
    assert "set back" in capsys.readouterr().err
    files.accept(called.line.desk, ["c"])
    assert called.ends("seal") == 4
    assert "two histories" in capsys.readouterr().err
    assert called.files() == [1, 2, 2, 3, 4]
    assert called.ends("check") == 3


def test_a_folder_that_another_tool_has_and_one_that_is_not_there(
    called: Called, capsys: pytest.CaptureFixture[str]
) -> None:
    called.ends("seal")
    with called.line.held():
        assert called.ends("seal") == 3 and called.ends("check") == 3
        assert "another tool works in" in capsys.readouterr().err
    shutil.move(called.line.path, called.line.path.with_name("L9"))
    with pytest.raises(SystemExit) as end:
        called.ends("seal")
    assert end.value.code == 2


def test_no_desk_and_one_that_is_none(called: Called, capsys: pytest.CaptureFixture[str]) -> None:
    called.ends("seal")
    called.line.desk.write_bytes(b"no database" * 100)
    assert called.ends("check") == 1
    assert "restore the newest sealed file" in capsys.readouterr().err
    assert called.ends("seal") == 3
    called.line.desk.unlink()
    assert called.ends("check") == 1
    assert "no file" in capsys.readouterr().err
    assert called.ends("seal") == 3
    assert called.files() == [1]


def test_without_room_nothing_is_begun(
    called: Called, capsys: pytest.CaptureFixture[str], monkeypatch: pytest.MonkeyPatch
) -> None:
    called.ends("seal")
    files.accept(called.line.desk, ["b"])
    usage = shutil.disk_usage(called.line.path)
    monkeypatch.setattr(shutil, "disk_usage", lambda _: usage._replace(free=10_000))
    assert called.ends("seal") == 3 and called.ends("restore") == 3
    said = capsys.readouterr().err
    assert said.count("10,000 bytes are free") == 2 and "make room" in said
    assert called.files() == [1] and not called.line.work.exists()


# --- The program


@pytest.fixture
def served(program: Path, folder: Path) -> Desk:
    desk = Desk(program, folder / "L1" / "desk")
    desk.feed(FIRST_LINE)
    desk.serve()
    return desk


def test_a_running_desk_is_sealed_and_checked(
    served: Desk, monkeypatch: pytest.MonkeyPatch
) -> None:
    monkeypatch.setenv("PROGRAM", str(served.program))
    called = Called(LineFolder(served.file.parent), monkeypatch)
    try:
        for number in range(4):
            served.accept(part(f"P{number}"))
            assert called.ends("seal") == 0
        assert len(called.files()) == 3
        assert called.ends("check") == 0
    finally:
        served.end()
    assert called.ends("seal") == 0 and called.ends("check") == 0


def test_a_desk_that_has_accepted_nothing_and_one_that_goes_on_as_it_was(
    program: Path, folder: Path, monkeypatch: pytest.MonkeyPatch
) -> None:
    monkeypatch.setenv("PROGRAM", str(program))
    desk = Desk(program, folder / "L1" / "desk")
    called = Called(LineFolder(desk.file.parent), monkeypatch)
    try:
        desk.feed([])
        desk.serve()
        assert called.ends("seal") == 3
        desk.accept(*FIRST_LINE)
        assert (called.ends("seal"), called.ends("seal")) == (0, 0)
        assert len(called.files()) == 1
    finally:
        desk.end()
