"""Restores: what they say beforehand, what they keep, and what is there after a kill."""
from __future__ import annotations

import contextlib
import os
import pathlib
import sqlite3
import subprocess
import sys
from collections.abc import Callable

import pytest

from lab import files
from lab.folders import audit, killed_at_each_call, line_of, note, rolled_over, seal, with_log
from tracedesk_ops import change, copies, lineage, plant, sealed
from tracedesk_ops.line import LineFolder, NotALine

Path = pathlib.Path

HOLDER = """
import fcntl, sys
file = open(sys.argv[1], "r+b")
fcntl.lockf(file, fcntl.LOCK_EX, 512, 1 << 30)
print("held", flush=True)
sys.stdin.read()
"""
OPEN = """
import fcntl, sys
file = open(sys.argv[1], "r+b")
try:
    fcntl.lockf(file, fcntl.LOCK_EX | fcntl.LOCK_NB, 512, 1 << 30)
except BlockingIOError:
    sys.exit(3)
"""


def restored(line: LineFolder, file: sealed.Sealed) -> change.RestorePlan:
    its = change.plan(line, file)
    change.restore(line, its, audit)
    return its


def test_the_whole_disk_is_no_line() -> None:
    with pytest.raises(NotALine), LineFolder(Path("/")).held(is_new=True):
        raise AssertionError("the disk was taken for a line's folder")


def uids(file: Path) -> list[str]:
    with contextlib.closing(sqlite3.connect(file)) as database:
        return [uid for (uid,) in database.execute("SELECT uid FROM accepted ORDER BY number")]


def test_the_log_of_the_desk_is_kept_and_never_next_to_another_one(folder: Path) -> None:
    line = line_of(folder / "L1", "a")
    older = seal(line)
    with_log(line, "b")
    its = restored(line, older)
    assert not copies.logs_of(line.desk) and uids(line.desk) == ["a"]
    assert uids(line.lost / its.taken_off) == ["a", "b"] and its.lacked[0].commands == 1


def test_a_desk_that_cant_be_read_is_kept_with_its_log_and_is_a_fault(folder: Path) -> None:
    line = line_of(folder / "L1", "a")
    older = seal(line)
    line.desk.write_bytes(b"no database" * 1000)
    log = b"no log" * 1000
    Path(f"{line.desk}-wal").write_bytes(log)
    its = restored(line, older)
    assert its.commands is None and "can't be read" in its.text()
    lost = line.lost / its.taken_off
    assert lost.read_bytes() == b"no database" * 1000
    assert Path(f"{lost}-wal").read_bytes() == log
    assert uids(line.desk) == ["a"] and not copies.logs_of(line.desk)
    seal(line, "b")
    assert any(str(lost) in fault for fault in lineage.of(line).faults)


def test_behind_a_restored_file_are_its_archives(folder: Path) -> None:
    line = line_of(folder / "L1", "a")
    rolled_over(line)
    newest = seal(line, "b")
    archive = lineage.of(line).chain[0]
    files.accept(line.desk, ["c"])
    its = restored(line, newest)
    assert [lacked.commands for lacked in its.lacked] == [1]
    archive.path.unlink()
    with pytest.raises(lineage.Missing, match=archive.digits):
        change.plan(line, newest)


@pytest.mark.parametrize("has_log", [True, False], ids=["with a log", "without"])
def test_a_restore_that_is_killed_at_any_call_loses_nothing(folder: Path, has_log: bool) -> None:
    """A kill before the rename leaves nothing that the next seal finds lost."""

    def begin(line: LineFolder) -> Callable[[], object]:
        older = seal(line)
        with_log(line, "b") if has_log else files.accept(line.desk, ["b"])
        its = change.plan(line, older)
        return lambda: change.restore(line, its, audit)

    for line in killed_at_each_call(folder, begin):
        older = next(file for file in lineage.of(line).files if file.commands == 1)
        there = uids(line.desk)
        assert there == ["a", "b"] or [uids(path) for path in lost_of(line)] == [["a", "b"]]
        assert there == ["a", "b"] or not copies.log_of(line.desk)
        if there == ["a", "b"] and not has_log:
            made = seal(line)
            found = lineage.of(line)
            assert found.chain == [made] and not found.faults and not found.lost
        restored(line, older)
        assert uids(line.desk) == ["a"] and not line.work.exists()
        seal(line, "c")
        found = lineage.of(line)
        assert [lacked.commands for lacked in found.lacked] == [1]
        seal(line, "b")
        assert not lineage.of(line).lacked


def lost_of(line: LineFolder) -> list[Path]:
    return sorted(line.lost.glob("*.desk"))


def test_the_desk_of_the_plan_is_taken_off_and_no_other(folder: Path) -> None:
    line = line_of(folder / "L1", "a")
    older = seal(line)
    its = change.plan(line, older)
    files.accept(line.desk, ["b"])
    with pytest.raises(change.NotChanged, match="planned for"):
        change.restore(line, its, audit)
    assert uids(line.desk) == ["a", "b"] and not [*line.lost.iterdir()]


@pytest.mark.parametrize("has_desk", [True, False], ids=["the desk is there", "no desk"])
def test_what_other_files_have_has_to_be_sent_again_too(folder: Path, has_desk: bool) -> None:
    """The desk was begun from a newer file, and has no command of its own; or there is none."""
    line = line_of(folder / "L1", "a")
    older = seal(line)
    files.accept(line.desk, ["b", "c"])
    rolled_over(line)
    if not has_desk:
        line.desk.unlink()
    its = restored(line, older)
    assert [(lacked.commands, lacked.source) for lacked in its.lacked] == [(2, "S")]
    assert not its.faults


def test_a_file_that_cant_be_read_may_have_what_has_to_be_sent_again(folder: Path) -> None:
    line = line_of(folder / "L1", "a")
    older, newer = seal(line), seal(line, "b")
    newer.path.write_bytes(b"no database")
    line.desk.unlink()
    its = change.plan(line, older)
    assert [str(newer.path) in fault for fault in its.faults] == [True]
    assert f"isn't known: {its.faults[0]}" in its.text()


def test_a_desk_that_a_service_makes_meanwhile_is_not_replaced(folder: Path) -> None:
    """The desk was gone, and systemd starts its service again and again: that makes a new one."""
    line = line_of(folder / "L1", "a")
    older = seal(line)
    line.desk.unlink()
    its = change.plan(line, older)

    def audited(file: Path) -> plant.Lawful:
        files.desk(line.desk, ["acknowledged"])
        return audit(file)

    with pytest.raises(change.NotChanged, match="is there by now"):
        change.restore(line, its, audited)
    assert uids(line.desk) == ["acknowledged"]
    restored(line, older)
    assert uids(line.desk) == ["a"] and [uids(it) for it in lost_of(line)] == [["acknowledged"]]


def test_entries_that_a_restore_takes_off_are_missing_until_they_are_there_again(
    folder: Path,
) -> None:
    line = line_of(folder / "L1", "a")
    note(line, "n")
    older = seal(line)
    note(line, "m")
    its = restored(line, older)
    assert f"1 entries of the book of {its.taken_off} are missing" in its.text()
    seal(line, "b")
    (lacked,) = lineage.of(line).lacked
    assert lacked.text().startswith(f"1 entries of the book are in {line.lost / its.taken_off}")
    note(line, "m")
    seal(line)
    assert not lineage.of(line).lacked


def test_a_desk_that_runs_is_not_restored(folder: Path) -> None:
    line = line_of(folder / "L1", "a")
    older = seal(line)
    files.accept(line.desk, ["b"])
    its = change.plan(line, older)
    words = [sys.executable, "-c", HOLDER, str(line.desk)]
    with subprocess.Popen(words, stdin=subprocess.PIPE, stdout=subprocess.PIPE) as run:
        assert run.stdout and run.stdout.readline()
        with pytest.raises(change.NotChanged, match="stop the line's service"):
            change.plan(line, older)
        with pytest.raises(plant.Fault, match="a run has"):
            change.restore(line, its, audit)
        run.communicate()
    assert uids(line.desk) == ["a", "b"] and not [*line.lost.iterdir()]


@pytest.mark.parametrize("changed", [restored, lambda line, _: rolled_over(line)])
def test_no_run_opens_a_desk_that_is_taken_off(
    folder: Path, monkeypatch: pytest.MonkeyPatch, changed: Callable[..., object]
) -> None:
    """At the rename another process can't have the range that SQLite locks."""
    line, statuses, replace = line_of(folder / "L1", "a"), [], os.replace
    older = seal(line)
    files.accept(line.desk, ["b"])

    def renamed(path: Path, to: Path) -> None:
        if to == line.desk:
            run = subprocess.run([sys.executable, "-c", OPEN, str(line.desk)])
            statuses.append(run.returncode)
        replace(path, to)

    monkeypatch.setattr(os, "replace", renamed)
    changed(line, older)
    assert statuses == [3]


def test_a_file_that_the_audit_refuses_is_not_restored(folder: Path) -> None:
    line = line_of(folder / "L1", "a")
    its = change.plan(line, seal(line))
    with pytest.raises(change.NotChanged, match="take another file"):
        change.restore(line, its, lambda file: plant.Lawful(7, 0))
    with pytest.raises(plant.Fault, match="no audit"):
        change.restore(line, its, refused)
    assert uids(line.desk) == ["a"] and not line.work.exists()


def refused(file: Path) -> plant.Lawful:
    raise plant.Fault("no audit")


def test_a_name_that_several_files_have_is_no_choice(folder: Path) -> None:
    line = line_of(folder / "L1", "a")
    made = [seal(line), *(seal(line, f"b-{number}") for number in range(16))]
    with pytest.raises(change.NotChanged, match="0 files"):
        change.chosen(line, "no-such")
    twice = next(it.digits[0] for it in made if sum(it.digits[0] == o.digits[0] for o in made) > 1)
    with pytest.raises(change.NotChanged, match="name one of them"):
        change.chosen(line, twice)
    assert change.chosen(line, str(made[3].path)) == made[3]


# --- A folder of 1.0.0


def old_folder(folder: Path) -> Path:
    """An older line that was rolled over twice and restored once: b is in no file of its chain."""
    aside = folder / "archive/aside/2026-11-25T061203Z"
    aside.mkdir(parents=True)
    files.desk(folder / "desk", ["a"])
    first = archived(folder)
    files.desk(aside / "desk", ["b"], mark=first)
    files.desk(folder / "desk", ["c"], mark=first)
    files.desk(folder / "new", ["d"], mark=archived(folder))
    (folder / "new").rename(folder / "desk")
    return folder


def archived(folder: Path) -> str:
    """Puts the desk into the archive, by the name that 1.0.0 gave it; its digits."""
    digits = sealed.digits_of(folder / "desk")
    name = f"L1-19700101T0001Z-19700101T0002Z-{digits}"
    (folder / "desk").rename(folder / "archive" / name)
    return digits


def test_a_folder_of_an_older_release_is_taken_over(folder: Path) -> None:
    old = old_folder(folder / "old")
    before = {path: path.read_bytes() for path in old.rglob("*") if path.is_file()}
    (folder / "L1").mkdir()
    line = LineFolder(folder / "L1")
    made = change.take_over(line, old, audit)
    assert before == {path: path.read_bytes() for path in old.rglob("*") if path.is_file()}
    found = lineage.of(line)
    assert not found.faults and found.chain[-1] == made and len(found.chain) == 3
    assert [lacked.commands for lacked in found.lacked] == [1] and len(found.lost) == 1
    assert line.desk.read_bytes() == made.path.read_bytes() and not line.work.exists()
    with pytest.raises(change.NotChanged, match="has a desk"):
        change.take_over(line, old, audit)
    seal(line, "b")
    assert not lineage.of(line).lacked


def test_without_an_archive_nothing_is_taken_over_until_it_is_back(folder: Path) -> None:
    old = old_folder(folder / "old")
    (folder / "L1").mkdir()
    line = LineFolder(folder / "L1")
    archive = next(path for path in sorted((old / "archive").iterdir()) if path.is_file())
    archive.rename(folder / "away")
    with pytest.raises(change.NotChanged, match="is missing"):
        change.take_over(line, old, audit)
    assert not line.desk.exists()
    (folder / "away").rename(archive)
    change.take_over(line, old, audit)
    assert not lineage.of(line).faults


def test_a_take_over_that_is_killed_at_any_call_is_called_again(folder: Path) -> None:
    old = old_folder(folder / "old")

    def begin(line: LineFolder) -> Callable[[], object]:
        line.desk.unlink()
        return lambda: change.take_over(line, old, audit)

    for line in killed_at_each_call(folder, begin):
        if not line.desk.exists():
            change.take_over(line, old, audit)
        found = lineage.of(line)
        assert not found.faults and len(found.chain) == 3 and len(found.lacked) == 1
