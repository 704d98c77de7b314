"""What a recall writes, whole or not at all; and the words that it doesn't take."""
import contextlib
import os
import pathlib
import subprocess
import threading
from typing import Iterator

import pytest
from lab.line import table
from lab.recalls import lot_of, recall
from lab.tools import Ended, Word, run, run_changed, run_tool, strings, tool
from lab.world import World

pytestmark = [pytest.mark.xdist_group("recall_written")]

SHIPPED = """board,customer,date,note
L1-000001,Customer A,2026-03-05,
L1-000001,Customer B,2026-04-01,again
"""
EVIDENCE = """SHA256SUMS boards.csv
    certificate.json doubtful.csv pieces.csv reels.csv shipped.csv untraced.csv""".split()
FAILS = "from tracedesk_ops import doubts; doubts.look = lambda *_: 1 / 0"


class Written:
    """A recall over both lines, whose evidence is written into a folder."""

    def __init__(self, world: World, folder: pathlib.Path) -> None:
        self.world, self.folder, self.lot = world, folder, lot_of(world)
        self.evidence = folder / "evidence"
        self.shipped = folder / "shipped.csv"
        self.shipped.write_text(SHIPPED)

    def recall(self, *more: Word) -> Ended:
        return recall("lot", self.lot, *self.world.words(), "--shipped", self.shipped, *more)


@pytest.fixture
def written(world: World, folder: pathlib.Path) -> Written:
    return Written(world, folder)


def test_nothing_but_the_evidence_is_written(written: Written) -> None:
    before = set(written.folder.iterdir())
    written.recall("--evidence", written.evidence).expect()
    assert set(written.folder.iterdir()) - before == {written.evidence}


def test_boards_have_their_customers(written: Written) -> None:
    """Also by a pipe, as of a shell's <(..)."""
    written.shipped.unlink()
    os.mkfifo(written.shipped)
    threading.Thread(target=written.shipped.write_text, args=[SHIPPED]).start()
    boards = table(written.recall().expect().out)
    shipped = {row["board"]: (row["customer"], row["date"]) for row in boards}
    wanted = {"L1-000001": ("Customer A; Customer B", "2026-03-05; 2026-04-01")}
    assert shipped == dict.fromkeys(shipped, ("", "")) | wanted


def test_the_evidence_is_whole(written: Written) -> None:
    boards = table(written.recall("--evidence", written.evidence).expect().out)
    run(
        ["sha256sum", "--check", "--strict", "--quiet", "SHA256SUMS"], cwd=written.evidence
    ).expect()
    assert sorted(file.name for file in written.evidence.iterdir()) == sorted(EVIDENCE)
    assert written.evidence.stat().st_mode & 0o777 == 0o700
    assert table((written.evidence / "boards.csv").read_text()) == boards
    assert (written.evidence / "shipped.csv").read_text() == SHIPPED
    listed = (written.evidence / "certificate.json").read_text()
    assert all(file.name in listed for file in written.world.first.archived)


def test_nothing_is_overwritten(written: Written) -> None:
    written.recall("--evidence", written.evidence).expect()
    kept = {file: file.read_bytes() for file in written.evidence.iterdir()}
    written.recall("--evidence", written.evidence).expect(4)
    assert {file: file.read_bytes() for file in written.evidence.iterdir()} == kept


# --- Where nothing can be written


@pytest.fixture
def words(world: World) -> list[str]:
    """A recall over the first line."""
    return strings([tool("recall"), "lot", lot_of(world), *world.first.recall_words()])


def test_without_standard_output_it_says_so(words: list[str]) -> None:
    run(["sh", "-c", '"$@" >&-', "sh", *words]).expect(4, "standard output is closed")


def test_with_a_full_standard_output_the_evidence_is_written(
    words: list[str], folder: pathlib.Path
) -> None:
    with open("/dev/full", "w", encoding="ascii") as full:
        done = run([*words, "--evidence", folder / "full"], out=full)
    done.expect(4, "standard output: No space left")
    assert (folder / "full").exists()


@contextlib.contextmanager
def full_disk(at: pathlib.Path) -> Iterator[None]:
    """A disk of 4 kB, all taken by a file."""
    at.mkdir()
    subprocess.run(["mount", "-t", "tmpfs", "-o", "size=4k", "small", at], check=True)
    try:
        (at / "filler").write_bytes(bytes(4096))
        yield
    finally:
        subprocess.run(["umount", at], check=True)


@pytest.mark.root
@pytest.mark.gate
def test_a_full_disk_gets_nothing(words: list[str], folder: pathlib.Path) -> None:
    with full_disk(folder / "disk"):
        run([*words, "--evidence", folder / "disk/it"]).expect(4)
        assert [file.name for file in (folder / "disk").iterdir()] == ["filler"]


def test_a_name_that_is_too_long_is_refused(world: World, folder: pathlib.Path) -> None:
    to = folder / ("x" * 300)
    recall("lot", "X", *world.first.recall_words(), "--evidence", to).expect(4)


# --- Names and words


@pytest.mark.parametrize("kind", ["lot", "reel", "board"])
def test_a_name_that_nobody_knows(world: World, kind: str) -> None:
    done = recall(kind, "nowhere & never", *world.first.recall_words())
    assert not table(done.expect(1, "NOT FOUND: none of these lines knows").out)


# files that are no tables of shipped boards
FILES = {
    "bad.csv": b"board\nB\n",
    "nobody.csv": b"board,customer,date\nB,,2026-03-09\n",
}
# `@` is a folder with these files, `:` the words of the first line, ARCHIVED a file, EMPTY no text
BAD_WORDS = (
    "lot X --line L1 EMPTY",
    "lot X : :",
    "part X :",
    "lot X : --shipped @/none.csv",
    "lot X : --shipped @/bad.csv",
    "lot X : --shipped @/nobody.csv",
    f"lot X --line L1 @/{'x' * 300}",
    "lot X --line L1 ARCHIVED",
)


@pytest.mark.parametrize("text", BAD_WORDS, ids=range(len(BAD_WORDS)))
def test_words_that_are_not_taken(world: World, folder: pathlib.Path, text: str) -> None:
    for name, content in FILES.items():
        (folder / name).write_bytes(content)
    own = " ".join(strings(world.first.recall_words()))
    for name, value in (
        (" :", f" {own}"),
        ("@", folder),
        ("ARCHIVED", world.first.archived[0]),
    ):
        text = text.replace(name, str(value))
    recall(*(word.replace("EMPTY", "") for word in text.split())).expect(2)


def test_a_name_with_a_space_before_it_is_not_taken(world: World) -> None:
    recall("lot", " X", *world.first.recall_words()).expect(2)


def test_without_a_line_nothing_is_asked(folder: pathlib.Path) -> None:
    run_tool("recall", "lot", "X", env={"TRACEDESK_SET_UP": str(folder)}).expect(2)


def test_a_failure_that_nobody_foresaw_has_a_status_of_its_own(world: World) -> None:
    done = run_changed("recall", ["lot", lot_of(world), *world.first.recall_words()], FAILS)
    assert done.expect(9).out == ""
