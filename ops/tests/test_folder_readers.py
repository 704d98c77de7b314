"""What recalls and the watch read of a line that is a folder."""
from __future__ import annotations

import os
import pathlib
import shutil
import time

import pytest

from lab import files
from lab.desk import rows_of
from lab.folders import audit, line_of, rolled_over, seal
from tracedesk_ops import around, change, plant, sealed_watch
from tracedesk_ops.line import LineFolder

Path = pathlib.Path


@pytest.fixture
def line(folder: Path) -> LineFolder:
    """A line that was rolled over and set back: c is in lost/ alone."""
    line = line_of(folder / "L1", "a")
    seal(line)
    files.accept(line.desk, ["a2"])
    rolled_over(line)
    older = seal(line, "b")
    files.accept(line.desk, ["c"])
    change.restore(line, change.plan(line, older), audit)
    seal(line, "d")
    return line


def test_an_archive_that_is_missing_is_named_and_the_others_are_asked(line: LineFolder) -> None:
    rolled_over(line)
    first, second = around.survey(line).archives
    (line.sealed / first.file).unlink()
    found = around.survey(line)
    assert found.archives == [second]
    assert any(f"{first.file} is missing" in fault for fault in found.faults)


def test_a_file_before_a_gap_is_asked(line: LineFolder, folder: Path) -> None:
    """No file that is there was begun from it, and the running desk doesn't have it."""
    rolled_over(line)
    first, second = around.survey(line).archives
    for path in {*line.sealed.iterdir()} - {line.sealed / first.file}:
        path.unlink()
    found = around.survey(line, room=folder)
    assert [file.file for file in found.archives] == [first.file]
    assert any(f"{second.file} is missing" in fault for fault in found.faults)


def test_without_a_desk_the_newest_file_stands_for_it(line: LineFolder) -> None:
    """A mirror has no desk."""
    files.accept(line.desk, ["c"])
    newest = seal(line)
    line.desk.unlink()
    found = around.survey(line)
    assert found.last and found.last.file == newest.path.name and not found.faults


def test_desks_that_changed_places_are_named(folder: Path) -> None:
    """Each has the same first message, as one that was sent to both lines."""
    both = [line_of(folder / name, "to both", f"of {name}") for name in ("L1", "L2")]
    for line in both:
        seal(line)
    first, second = (line.desk for line in both)
    first.rename(folder / "between")
    second.rename(first)
    (folder / "between").rename(second)
    for line in both:
        assert any("1 commands of S are in" in fault for fault in around.survey(line).faults)


def test_a_desk_that_was_set_back_is_named(folder: Path) -> None:
    """As by a snapshot of its disk: the newest sealed file has a command that the desk lacks."""
    line = line_of(folder / "L1", "a")
    kept = shutil.copyfile(line.desk, folder / "snapshot")
    newest = seal(line, "b")
    shutil.copyfile(kept, line.desk)
    (fault,) = around.survey(line).faults
    assert "1 commands of S are in" in fault and newest.path.name in fault


# --- The watch


def has_all(_: str) -> bool:
    return True


def test_a_newer_file_of_another_desk_says_nothing_of_the_age(line: LineFolder) -> None:
    """As one of a trial restore on another machine, or of another line."""
    ours = [uid for (uid,) in rows_of(line.desk, "SELECT uid FROM accepted")]
    other = line_of(line.path.with_name("L2"), *ours[:1], "x")
    shutil.copy(seal(other).path, line.sealed)
    with pytest.raises(plant.Fault, match="isn't the running desk's"):
        [*sealed_watch.newest(line.sealed, ours.__contains__)]


def test_the_watch_knows_the_newest_seal(line: LineFolder) -> None:
    for path in line.sealed.iterdir():
        os.utime(path, (1_000_000, 1_000_000))
    before = time.time()
    newest = seal(line, "e")
    samples = {name: value for name, value, _ in sealed_watch.newest(line.sealed, has_all)}
    assert before - 1 <= samples["backup_timestamp_seconds"] <= time.time()
    assert samples["backup_commands"] == newest.commands and samples["backup_pieces"] == 0
    os.utime(newest.path, (time.time() + 3600,) * 2)
    with pytest.raises(plant.Fault, match="in the future"):
        [*sealed_watch.newest(line.sealed, has_all)]
