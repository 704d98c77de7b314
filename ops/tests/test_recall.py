"""A recall over two lines: what tracedesk-chain may answer, and what may change meanwhile. That it
is what the program reports of each file is shown in test_three_ways.py.
"""
import itertools
import os
import pathlib
import shutil
from typing import Any, Callable

import pytest
from lab.recalls import Asking, lot_of, recall, state_of
from lab.world import World
from tracedesk_ops import catalogue, chains
from tracedesk_ops.firstlook import Piece
from tracedesk_ops.recalls.recall import twice

pytestmark = [pytest.mark.xdist_group("recall")]

CHANGED = "its files were changed meanwhile, as by a roll-over or a restore: ask again"
# a tracedesk-chain that ends otherwise: how, and what a recall says then
ENDS = {
    "exit 1": ("differs minute 1 2", "its files are no chain: L1-1: differs minute 1 2"),
    "exit 3": ("Unavailable", "gives no answer: L1-1: Unavailable"),
    "exit 4": ("NotWritten", "gives no answer: L1-1: NotWritten"),
    "exit 5": ("begun from 0123", "its files are no chain: L1-1: begun from 0123"),
    "kill -9 $$": ("gone", "gives no answer: L1-1: gone"),
    "echo board,file": ("odd", "it is another version"),
}


@pytest.fixture(scope="module")
def asking(world: World, tmp_path_factory: pytest.TempPathFactory) -> Asking:
    return Asking(world.lines, tmp_path_factory.mktemp("copies"))


@pytest.mark.parametrize("column", ["file", "line"])
def test_a_board_lies_in_two(asking: Asking, world: World, column: str) -> None:
    names = {"file": [its.name for its in world.first.archived[:2]], "line": ["L1", "L2"]}[column]
    boards = (asking.tables("board", name)["boards"][0] for name in asking.names("board"))
    assert any({*names} <= {*board[column].split("; ")} for board in boards)


@pytest.mark.parametrize("end", ENDS)
def test_each_end_of_the_chain_program_has_its_answer(
    world: World, folder: pathlib.Path, monkeypatch: pytest.MonkeyPatch, end: str
) -> None:
    """Without an answer no piece is printed."""
    said, told = ENDS[end]
    stub = folder / "tracedesk-chain"
    stub.write_text(f"#!/bin/sh\necho 'tracedesk-chain: L1-1: {said}' >&2\n{end}\n")
    stub.chmod(0o755)
    monkeypatch.setenv("CHAIN", str(stub))
    words = ["lot", lot_of(world), *world.first.recall_words()]
    done = recall(*words).expect(3, told, "NOT COMPLETE")
    assert done.out.count("\n") == 1


def test_without_the_chain_program_a_recall_says_so(
    world: World, folder: pathlib.Path, monkeypatch: pytest.MonkeyPatch
) -> None:
    monkeypatch.setenv("CHAIN", str(folder / "none"))
    words = ["lot", lot_of(world), *world.first.recall_words()]
    recall(*words).expect(3, "there is no tracedesk-chain")


def test_archives_stay_as_they_are(world: World, folder: pathlib.Path) -> None:
    before = state_of(world)
    recall("lot", lot_of(world), *world.words(), "--evidence", folder / "evidence").expect()
    assert state_of(world) == before


@pytest.mark.parametrize(
    "others, is_twice",
    [
        ({"line": "L2"}, True),  # as of a desk that is a copy
        ({"reel": "K-2"}, True),  # a board's name came again
        ({"line": "L2", "reel": "K-2"}, False),
        ({"designator": "C2"}, False),
    ],
)
def test_a_piece_that_is_placed_twice_is_named(others: dict[str, Any], is_twice: bool) -> None:
    piece = Piece("B1", "C1", "P", "L", "K", "M", "1", "no", 5, "L1", catalogue.RUNNING)
    assert len([*twice([piece, piece._replace(**others)])]) == is_twice


# --- What changes while it is asked


@pytest.fixture
def faults(asking: Asking, world: World) -> Callable[..., list[str]]:
    """The faults of a recall over the first line, during which something happens."""

    def of(meanwhile: Callable[[], Any] = lambda: None) -> list[str]:
        return list(asking.begun("lot", lot_of(world), 1, meanwhile).faults)

    return of


def test_nothing_changes_meanwhile(faults: Callable[..., list[str]]) -> None:
    assert faults() == []


def test_a_desk_that_is_put_aside_meanwhile_is_named(
    faults: Callable[..., list[str]], world: World
) -> None:
    lost = world.first.folder / "lost"

    def put_aside() -> None:
        lost.mkdir(exist_ok=True)
        (lost / f"{'0' * 24}.desk").touch()

    try:
        assert faults(put_aside) == [f"{world.first.folder}: {CHANGED}"]
    finally:
        shutil.rmtree(lost)


def test_an_archive_that_changes_meanwhile_is_named(
    faults: Callable[..., list[str]], world: World, monkeypatch: pytest.MonkeyPatch
) -> None:
    file, run_to = world.first.archived[0], chains.run_to
    kept, times = os.stat(file), itertools.count(1)

    def touched(*words: Any) -> Any:
        at = next(times)
        os.utime(file, (at, at))
        return run_to(*words)

    monkeypatch.setattr(chains, "run_to", touched)
    try:
        assert any(f"{file}: it was changed while it was asked" in fault for fault in faults())
    finally:
        os.utime(file, ns=(kept.st_atime_ns, kept.st_mtime_ns))
