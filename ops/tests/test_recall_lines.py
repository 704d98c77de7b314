"""Recalls of young lines."""
import pathlib
import shutil
import time
from typing import Iterator

import pytest
from lab import messages
from lab.desk import rows_of_archive
from lab.line import table
from lab.recalls import Rows, files_of, key_in, last_minute, recall, recalled, signers_of
from lab.tools import Word, run_tool
from lab.world import RUNNING, ArchivedLine
from tracedesk_dev import shift
from tracedesk_ops import catalogue
from tracedesk_ops.recalls.surveyed import Surveyed

pytestmark = [pytest.mark.xdist_group("recall_lines")]


# a lot with few pieces, and a reel of it that is on a machine
MOUNTED = """SELECT lot, reel, machine FROM mount JOIN reel USING (reel)
    WHERE lot IN (SELECT lot FROM reel WHERE placed > 0) ORDER BY placed, reel LIMIT 1"""


class Young:
    """A line that was never rolled over, and the second half of its shift."""

    def __init__(self, program: pathlib.Path, folder: pathlib.Path) -> None:
        self.line = ArchivedLine(program, folder / "young", "L1")
        first, second = messages.parts_of(shift.Shift(9, 16, "L1").lines, 2)
        self.later = second.splitlines()
        self.line.feed(first.splitlines())
        self.line.serve()
        ((self.lot, self.reel, self.machine),) = rows_of_archive(self.line.last, MOUNTED)

    def recalled(self, show: str, status: int = 0) -> Rows:
        """What the line has of the lot."""
        words: list[Word] = ["lot", self.lot, *self.line.recall_words(), "--show", show]
        young = [] if self.line.archived else ["L1: no archives yet"]
        return table(recall(*words).expect(status, *young).out)

    def roll_over(self) -> None:
        self.line.end()
        self.line.archive_it(has_indexes=False)
        self.line.feed(self.later)
        self.line.serve()


@pytest.fixture
def young(program: pathlib.Path, folder: pathlib.Path) -> Iterator[Young]:
    made = Young(program, folder)
    yield made
    made.line.end()


@pytest.mark.parametrize("has_folder", [True, False], ids=["an empty folder", "no folder"])
def test_a_line_without_archives_has_its_running_desk(young: Young, has_folder: bool) -> None:
    if not has_folder:
        young.line.archive.rmdir()
    assert files_of(young.recalled("pieces")) == {RUNNING}
    reels = young.recalled("reels")
    assert [row["machine"] for row in reels if row["reel"] == young.reel] == [young.machine]


def test_the_same_words_serve_after_the_first_roll_over(young: Young) -> None:
    young.line.archive.rmdir()
    young.recalled("pieces")
    young.line.archive.mkdir()
    young.roll_over()
    files, archive = files_of(young.recalled("pieces")), young.line.archived[0].name
    assert archive in files and files <= {archive, RUNNING}


def test_a_reel_that_no_archive_names_is_found(young: Young) -> None:
    young.roll_over()
    ((part, *_), *_) = rows_of_archive(young.line.archived[0], "SELECT part FROM reel")
    body = {"Reel": "new", "PartNumber": part, "Lot": young.lot, "Level": "1", "Quantity": 7}
    now = last_minute(young.line.last)
    young.line.accept(messages.message("ReelReceived", "new", now, **body))
    reels = young.recalled("reels")
    assert [row["remaining"] for row in reels if row["reel"] == "new"] == ["7"]


def test_without_the_desks_file_the_newest_archive_says_what_is_left(
    young: Young, folder: pathlib.Path
) -> None:
    young.roll_over()
    away = shutil.copytree(young.line.archive, folder / "away/sealed").parent
    words = ["lot", young.lot, "--line", "L1", away, "--show", "reels"]
    recall(*words).expect(3, "has no desk")
    left = "SELECT reel FROM reel WHERE lot = ? AND remaining > 0"
    wanted = {reel for (reel,) in rows_of_archive(young.line.archived[0], left, young.lot)}
    assert {row["reel"] for row in recalled(*words, status=3)} == wanted


def test_a_mirror_is_complete_until_its_newest_file_ends(
    young: Young, folder: pathlib.Path
) -> None:
    young.roll_over()
    away, file = folder / "away", young.line.archived[0]
    shutil.copytree(young.line.archive, away / "sealed")
    until, key = last_minute(file), key_in(folder, "plant")
    words: list[Word] = ["lot", young.lot, "--line", "L1", away, "--show", "pieces", "--as-of"]
    signed: list[Word] = ["--key", key, "--evidence", folder / "to"]
    done = recall(*words, until, *signed).expect(0, "has no desk", f"after {file.name}, {until}")
    assert files_of(table(done.out)) == {file.name}
    said = run_tool("verify", folder / "to", "--signers", signers_of(key)).expect().err
    assert f"Complete as of {until}: " in said
    later = catalogue.spelled(catalogue.minute_of(until) + 1)
    recall(*words, later).expect(3, "pull a newer mirror")
    recall(*words, "yesterday").expect(2)


def test_no_answer_is_as_of_a_time_to_come(folder: pathlib.Path) -> None:
    """A mirror's desk may be ahead of the others."""
    assert (Surveyed([], folder, 1 << 40).as_of or 0) <= time.time() / 60


def test_a_folder_that_may_not_be_mounted_is_named(young: Young) -> None:
    done = recall("lot", young.lot, "--line", "L1", young.line.folder / "no")
    done.expect(3, "there is no such folder")
