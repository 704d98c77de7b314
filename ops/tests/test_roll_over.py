"""Roll-overs of a folder whose desks are tables: what is there after a kill at each call, and what
refuses one.
"""
from __future__ import annotations

import contextlib
import pathlib
import shutil
import sqlite3
from collections.abc import Callable, Sequence
from typing import Any

import pytest

from lab import files
from lab.folders import audit, killed_at_each_call, line_of, note, rolled_over, seal
from tracedesk_ops import entries, lineage, plant, rollover, sealed, sealing
from tracedesk_ops.line import LineFolder

Path = pathlib.Path

MEANWHILE = (("c", "PartDefined\tc"), ("d", "PartDefined\td"))


def uids(file: Path) -> list[str]:
    query = "SELECT uid FROM accepted WHERE uid NOT LIKE 'begin-%' ORDER BY number"
    with contextlib.closing(sqlite3.connect(file)) as database:
        return [uid for (uid,) in database.execute(query)]


def begun_from(file: Path) -> str:
    with sealed.opened(file) as database:
        return sealed.begun_from(database)


def expect_once(line: LineFolder, *those: str) -> None:
    """Each command is in one file of the line's history, and nothing is wrong with its files."""
    seal(line)
    found = lineage.of(line)
    assert not found.faults and not found.lacked
    there = [uid for file in found.chain for uid in uids(file.path)]
    assert sorted(there) == sorted(those)


def test_what_was_taken_meanwhile_is_in_the_new_desk_alone(folder: Path) -> None:
    line = line_of(folder / "L1", "a", "b")
    service = rolled_over(line, *MEANWHILE)
    (file,) = lineage.of(line).chain
    assert service.is_running and uids(file.path) == ["a", "b"] and uids(line.desk) == ["c", "d"]
    assert line.desk.stat().st_mode & 0o777 == 0o600 and not line.work.exists()
    assert begun_from(line.desk) == file.digits
    expect_once(line, "a", "b", "c", "d")
    rolled_over(line, ("e", "PartDefined\te"))
    expect_once(line, "a", "b", "c", "d", "e")


@pytest.mark.parametrize("said", [(), MEANWHILE], ids=["in the stop", "beside senders"])
def test_one_that_is_killed_at_any_call_changes_all_or_nothing(
    folder: Path, said: Sequence[tuple[str, str]]
) -> None:
    placed = 0

    def begin(line: LineFolder) -> Callable[[], object]:
        for uid in ("n", "closed"):
            note(line, uid)
        note(line, "", "decision", 2)
        return lambda: rolled_over(line, *said)

    for line in killed_at_each_call(folder, begin):
        placed += rollover.was_placed(line)
        if rollover.was_placed(line) or not begun_from(line.desk):
            are_there = begun_from(line.desk) or "c" in uids(line.desk)
            assert rolled_over(line, *(() if are_there else said)).is_running
            assert not line.work.exists()
        assert begun_from(line.desk)
        expect_once(line, "a", *(uid for uid, _ in said))
        assert len(lineage.of(line).chain) == 2
        assert [(its.uid, its.of) for its in entries.of(line.desk)] == [("", 0), ("n", 1)]
    assert placed > 1


def test_entries_that_came_meanwhile_are_placed_as_they_were(folder: Path) -> None:
    line = line_of(folder / "L1", "a", "b")
    note(line, "n")
    rolled_over(line, *MEANWHILE, notes=["m"])
    its = entries.of(line.desk)
    assert [(it.uid, it.of, it.after) for it in its] == [("", 0, 1), ("n", 1, 1), ("m", 0, 3)]
    expect_once(line, "a", "b", "c", "d")


def test_an_entry_that_was_carried_otherwise_is_named(folder: Path) -> None:
    line = line_of(folder / "L1", "a")
    note(line, "n")
    rolled_over(line)
    with files.opened(line.desk) as database:
        database.execute("UPDATE book SET reel = 'K' WHERE n = 2")
    seal(line, "b")
    (fault,) = lineage.of(line).faults
    assert "carries entry 2 of its book" in fault


def test_one_that_fails_before_the_rename_leaves_the_old_desk_and_a_seal(
    folder: Path, monkeypatch: pytest.MonkeyPatch
) -> None:
    line = line_of(folder / "L1", "a")

    def refused(*_: object, **__: object) -> None:
        raise plant.Fault("not alike")

    with monkeypatch.context() as patch:
        patch.setattr(files, "desk", refused)
        with pytest.raises(plant.Fault, match="not alike"):
            rolled_over(line)
    assert uids(line.desk) == ["a"] and not line.work.exists()
    expect_once(line, "a")
    assert len(lineage.of(line).files) == 1


def test_a_desk_that_was_set_back_and_one_without_its_archive_go_on(folder: Path) -> None:
    line = line_of(folder / "L1", "a")
    kept = shutil.copyfile(line.desk, line.path / "snapshot")
    newest = seal(line, "b")
    shutil.copyfile(kept, line.desk)
    with pytest.raises(rollover.NotRolledOver, match="set back"):
        rolled_over(line)
    assert uids(line.desk) == ["a"]
    shutil.copyfile(newest.path, line.desk)
    rolled_over(line)
    files.accept(line.desk, ["c"])
    archive = lineage.of(line).chain[0]
    archive.path.rename(folder / "away")
    with pytest.raises(rollover.NotRolledOver, match=f"{archive.digits}.* is missing"):
        rolled_over(line)


def test_another_desk_than_the_one_that_was_sealed_is_not_replaced(
    folder: Path, monkeypatch: pytest.MonkeyPatch
) -> None:
    line = line_of(folder / "L1", "a", "b")
    other = files.desk(folder / "other", ["x", "y", "z"])
    before = rollover.put_in_place

    def exchanged(line: LineFolder, *words: Any) -> None:
        shutil.copyfile(other, line.desk)
        before(line, *words)

    monkeypatch.setattr(rollover, "put_in_place", exchanged)
    with pytest.raises(rollover.NotRolledOver, match="another desk"):
        rolled_over(line)
    assert uids(line.desk) == ["x", "y", "z"]


def test_a_desk_with_nothing_new_or_a_board_in_work_is_not_left(folder: Path) -> None:
    line = line_of(folder / "L1", "a")
    rolled_over(line)
    with pytest.raises(rollover.NotRolledOver, match="has taken no command"):
        rollover.can_be_left(line.desk, False)
    files.accept(line.desk, ["b"])
    with files.opened(line.desk) as database:
        database.execute("INSERT INTO board VALUES ('B', 'P', 'M')")
    with pytest.raises(rollover.BoardInWork, match="B on M"):
        rollover.can_be_left(line.desk, False)
    rollover.can_be_left(line.desk, True)


def test_a_board_in_work_is_waited_for(folder: Path, monkeypatch: pytest.MonkeyPatch) -> None:
    monkeypatch.setattr(rollover, "PAUSE", 0)
    line = line_of(folder / "L1", "a")
    left = [rollover.BoardInWork("B on M")] * 3

    def made(work: Path) -> sealed.Sealed:
        if left:
            raise left.pop()
        sealing.copied(line.desk, work / "desk", audit)
        return sealing.put(line, work / "desk")

    with line.changed() as work:
        with pytest.raises(rollover.NotRolledOver, match="B on M"):
            rollover.waited_for(made, work, 0)
        assert rollover.waited_for(made, work, 60).commands == 1


def test_when_one_is_due(folder: Path) -> None:
    line = line_of(folder / "L1", "a")
    assert not rollover.due(line.desk, 1).is_due
    with files.opened(line.desk) as database:
        database.execute("INSERT INTO reel VALUES ('K', 'P', 'L', '1', 0, 9, 5, 0, 4, 0, -1, 0)")
    its = rollover.due(line.desk, 5)
    assert its.is_due and its.words.startswith("5 placed pieces and 1 commands")
    assert not rollover.due(line.desk, 6).is_due
    with files.opened(line.desk) as database:
        database.execute("UPDATE version SET greatest = 1")
    assert rollover.due(line.desk, 6).is_due
