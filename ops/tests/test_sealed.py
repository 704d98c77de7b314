"""Sealed files: their order, what they lack, and how a desk that is stopped gets one."""
from __future__ import annotations

import hashlib
import os
import pathlib
import re
import resource
import shutil
from collections.abc import Callable

import pytest

from lab import files
from lab.folders import audit, killed_at_each_call, line_of, rolled_over, seal, with_log
from tracedesk_ops import around, change, copies, doubts, lineage, plant, sealed, sealing
from tracedesk_ops.line import LineFolder

Path = pathlib.Path

FILES, DESCRIPTORS = 600, 256


def restored(line: LineFolder, file: sealed.Sealed) -> Path:
    """Where the desk is after a restore that took it off."""
    its = change.plan(line, file)
    change.restore(line, its, audit)
    return line.lost / its.taken_off


def said(line: LineFolder) -> str:
    return "; ".join(lineage.of(line).faults)


# --- A seal


def test_a_seal_is_named_by_its_content_and_nobody_writes_it(folder: Path) -> None:
    line = line_of(folder / "L1", "a", "b")
    made = seal(line)
    assert made.path == line.sealed / f"{made.digits}.desk"
    assert hashlib.sha256(made.path.read_bytes()).hexdigest().startswith(made.digits)
    assert (made.commands, made.entries, made.begun) == (2, 0, "")
    assert made.path.stat().st_mode & 0o777 == 0o400
    assert not line.work.exists()
    assert seal(line) == made, "the same desk is the same file"


def test_the_log_of_a_stopped_desk_is_sealed_with_it(folder: Path) -> None:
    line = line_of(folder / "L1", "a")
    with_log(line, "b")
    assert sealing.seal(line, audit).commands == 2
    assert copies.log_of(line.desk), "the desk stays as it was"


def refused(_: Path) -> plant.Lawful:
    raise plant.Fault("the audit says TableDiffers")


@pytest.mark.parametrize(
    "judge, why",
    [
        (lambda _: plant.Lawful(0, 0), "has 2 commands and 0 entries"),
        (lambda _: plant.Lawful(3, 0), "says 3 and 0"),
        (lambda _: plant.Lawful(2, 1), "says 2 and 1"),
        (refused, "TableDiffers"),
    ],
)
def test_a_copy_that_the_audit_refuses_or_finds_otherwise_is_not_kept(
    folder: Path, judge: sealing.Audit, why: str
) -> None:
    line = line_of(folder / "L1", "a", "b")
    with pytest.raises(sealing.NotSealed, match=why):
        sealing.seal(line, judge)
    assert not [*line.sealed.iterdir()] and not line.work.exists()


def test_a_seal_that_is_killed_at_any_call_leaves_a_whole_file_or_none(folder: Path) -> None:
    def begin(line: LineFolder) -> Callable[[], object]:
        seal(line)
        files.accept(line.desk, ["b"])
        return lambda: sealing.seal(line, audit)

    for line in killed_at_each_call(folder, begin):
        found = lineage.of(line)
        assert not found.faults
        assert sorted(file.commands for file in found.files) in ([1], [1, 2])
        assert seal(line).commands == 2 and not line.work.exists()


# --- Order


def test_a_history_continues_another_only_row_by_row(folder: Path) -> None:
    """The last row, or any sample, says nothing: one command is another, in the middle."""
    one, other = (line_of(folder / name, "a", name, "c", "d") for name in ("L1", "L2"))
    files.accept(other.desk, ["e"])
    older, newer = seal(one), seal(other)
    assert not sealed.continues(newer, older)
    assert sealed.lacked(newer, older) == sealed.RowPlace("accepted", 2)
    assert sealed.lacked(older, newer) == sealed.RowPlace("accepted", 2)
    assert sealed.continues(seal(one, "e"), older) and not sealed.continues(older, seal(one))


def test_a_host_that_went_on_by_itself_is_a_fork_and_nothing_is_superfluous(folder: Path) -> None:
    line, rig = line_of(folder / "L1", "first"), line_of(folder / "rig")
    seal(line)
    shutil.copyfile(line.desk, rig.desk)
    for number in range(4):
        seal(line, f"own-{number}")
    made = seal(rig, "test-1")
    assert not lineage.of(line).faults
    assert len(lineage.superfluous(lineage.of(line).files)) == 2
    shutil.copyfile(made.path, line.sealed / made.path.name)
    found = lineage.of(line)
    assert found.chain == [] and "command 2, since 1970-01-01T00:02:00Z" in said(line)
    assert str(line.sealed / made.path.name) in said(line)
    assert not lineage.superfluous(found.files)


@pytest.mark.parametrize(
    "first, second, said_of",
    [
        (["setup", "a"], ["setup", "b"], "two histories .* command 2"),
        (["a"], ["b"], "two histories .* of two desks"),
    ],
    ids=["the same first message", "no common command"],
)
def test_files_of_two_desks_are_no_one_line(
    folder: Path, first: list[str], second: list[str], said_of: str
) -> None:
    line, other = line_of(folder / "L1", *first), line_of(folder / "L2", *second)
    seal(line)
    shutil.copy(seal(other).path, line.sealed)
    assert re.search(said_of, said(line))


# --- What is lacking


def test_one_command_that_was_not_sent_again_is_lacking(folder: Path) -> None:
    """What is sent again, and a message of the clock, give the last command its old number."""
    line = line_of(folder / "L1", "a")
    older = seal(line)
    files.accept(line.desk, ["lost", "b", "c"])
    lost = restored(line, older)
    with files.opened(line.desk) as database:
        database.execute(files.INSERT, [2, "epoch-1", "tracedesk", 2, "ClockSet"])
        for number, uid in ((3, "b"), (4, "c")):
            database.execute(files.INSERT, [number, uid, "S", number, f"PartDefined\t{uid}"])
    sealing.seal(line, audit)
    found = lineage.of(line)
    assert not found.faults and found.lacked == [lineage.Lacked(lost, "S", 1, 2)]
    seal(line, "lost")
    assert lineage.of(line).lacked == []


def test_work_of_any_source_is_lacking_and_the_same_name_with_another_text_too(
    folder: Path,
) -> None:
    line = line_of(folder / "L1", "a")
    older = seal(line)
    with files.opened(line.desk) as database:
        database.execute(files.INSERT, [2, "x", "tracedesk", 2, "PartDefined\tx"])
        database.execute(files.INSERT, [3, "y", "S", 3, "PartDefined\told"])
        database.execute(files.INSERT, [4, "t", "S", 4, "ClockSet"])
    lost = restored(line, older)
    seal(line, "y")
    lacked = lineage.of(line).lacked
    assert lacked == [lineage.Lacked(lost, "S", 1, 3), lineage.Lacked(lost, "tracedesk", 1, 2)]


def test_a_uniqueid_of_the_beginning_hides_no_command_before_it(folder: Path) -> None:
    """Any sender may give it to a message of its own, also with the beginning's source."""
    line = line_of(folder / "L1", "a")
    rolled_over(line)
    older = seal(line, "b")
    files.accept(line.desk, ["lost"])
    with files.opened(line.desk) as database:
        forged = [4, f"begin-{older.begun}-4", "begin", 4, "PartDefined\tF"]
        database.execute(files.INSERT, forged)
    restored(line, older)
    seal(line, "c")
    assert sum(its.commands for its in lineage.of(line).lacked) == 2


# --- Damage


@pytest.mark.parametrize("what", ["a bit", "its end", "all of it", "another's", "its name"])
def test_a_changed_file_is_named(folder: Path, what: str) -> None:
    line = line_of(folder / "L1", "a")
    first, made = seal(line), seal(line, "b")
    content = made.path.read_bytes()
    other = bytes([content[0] ^ 1]) + content[1:]
    texts = {"a bit": other, "its end": content[:-1], "all of it": b""}
    made.path.unlink()
    if what == "its name":
        made = sealed.Sealed(line.sealed / "desk.desk", "", "", 0, 0)
    made.path.write_bytes(texts.get(what, first.path.read_bytes()))
    assert str(made.path) in said(line)


def test_the_newest_file_by_another_name_is_named_and_no_older_one_restored(folder: Path) -> None:
    """As somebody keeps it aside, who then finds that the desk is gone."""
    line = line_of(folder / "L1", "a")
    seal(line)
    newest = seal(line, "b").path
    aside = newest.rename(newest.with_suffix(".desk.bak"))
    line.desk.unlink()
    assert str(aside) in said(line)
    with pytest.raises(change.NotChanged, match="another file's name"):
        change.chosen(line, "")
    aside.rename(newest)
    assert change.chosen(line, "").path == newest


def test_a_log_next_to_a_sealed_file_is_refused_and_nothing_is_written(folder: Path) -> None:
    line = line_of(folder / "L1", "a")
    made = seal(line)
    log = Path(f"{made.path}-wal")
    log.write_bytes(b"x" * 5000)
    content = made.path.read_bytes()
    assert log.name in said(line)
    assert made.path.read_bytes() == content and log.stat().st_size == 5000


def test_a_folder_that_is_gone_is_a_fault(folder: Path) -> None:
    line = line_of(folder / "L1", "a")
    seal(line)
    shutil.rmtree(line.lost)
    assert str(line.lost) in said(line)
    shutil.rmtree(line.sealed)
    assert str(line.sealed) in said(line)


# --- Many


def test_superfluous_are_those_that_a_newer_one_continues_but_the_newest(folder: Path) -> None:
    line = line_of(folder / "L1", "a")
    made = [seal(line, f"b-{number}") for number in range(5)]
    found = lineage.of(line)
    assert found.chain == made[-1:]
    assert lineage.superfluous(found.files) == made[:-3]
    rolled_over(line)
    seal(line, "c")
    gone = lineage.superfluous(lineage.of(line).files)
    assert made[-1] not in gone and {file.commands for file in gone} == {2, 3, 4}


def test_six_hundred_files_want_few_descriptors(folder: Path) -> None:
    line = line_of(folder / "L1", "a")
    line.sealed.mkdir()
    line.lost.mkdir()
    digits = ""
    for number in range(FILES):
        path = folder / "made"
        files.desk(path, [f"c-{number}"], mark=digits)
        digits = sealed.digits_of(path)
        os.rename(path, line.sealed / sealed.name_of(digits))
    was = resource.getrlimit(resource.RLIMIT_NOFILE)
    resource.setrlimit(resource.RLIMIT_NOFILE, (DESCRIPTORS, was[1]))
    try:
        found = lineage.of(line)
        lacked = lineage.lacking(found.chain, found.files)
        line.desk.unlink()
        asked = around.survey(line)
        known = doubts.look(line.path, [it.path for it in asked.archives])
    finally:
        resource.setrlimit(resource.RLIMIT_NOFILE, was)
    assert len(found.chain) == FILES and not found.faults and not lacked
    assert len(asked.archives) == FILES - 1 and not asked.faults and not known.faults
