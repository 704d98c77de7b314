"""Recalls of what really happened at simulated lines.

At the end of a batch, of each lot: every board that holds a piece of it is listed by
tracedesk-recall, or named as untraced or doubtful with a status that is not 0; and no piece is
listed that isn't of the lot, unless it is named so too. Some labels lie by one piece, and recalls
are asked with `--within 1`. Reels are changed without a scan too: where the machine names its
reels, a recall of either lot names each board.

    /usr/bin/python3 -m pytest ops/tests/test_truth.py -m whole -n 4 --seed 41
    /usr/bin/python3 -m pytest ops/tests/test_truth.py -k "batch_of_runs and [7]"      one batch

A batch that fails prints the files of each failed run, its refusals, and what really happened.
"""
import pathlib
import tempfile
from typing import Iterator
from unittest import mock

import pytest
from tracedesk_dev.trial import in_memory

from truth import run
from truth.batch import Batch
from truth.world import simulated

BATCHES, RUNS = 100, 100  # of the whole test
RUNS_PLANTED, BATCHES_PLANTED = 60, 5  # until a fault of the rules at the line is found


@pytest.fixture
def room() -> Iterator[pathlib.Path]:
    with tempfile.TemporaryDirectory(prefix="truth-", dir=in_memory()) as name:
        yield pathlib.Path(name)


def faults_of(batch: Batch) -> list[str]:
    """The faults of a batch, after it was made."""
    with simulated():
        batch.whole()
    print(", ".join(f"{count:,} {name}" for name, count in sorted(batch.counts.items())))
    return batch.faults


def test_recalls_say_what_happened(program: pathlib.Path, room: pathlib.Path, seed: int) -> None:
    assert not faults_of(Batch(program, room, seed, 0, runs=20))


def test_planted_fault_is_found(program: pathlib.Path, room: pathlib.Path, seed: int) -> None:
    """Refused reports of work are sent again unchanged."""
    assert faults_of(Batch(program, room, seed, 0, runs=10, planted=True))


def test_a_label_that_lies_is_found(program: pathlib.Path, room: pathlib.Path, seed: int) -> None:
    """If recalls are not told by how many pieces labels may be wrong. Where a machine names its
    reels, the line's book has most of these pieces in doubt.
    """

    def is_found(number: int) -> bool:
        (folder := room / str(number)).mkdir()
        return bool(faults_of(Batch(program, folder, seed, number, RUNS_PLANTED, within=0)))

    assert any(map(is_found, range(BATCHES_PLANTED)))


def test_a_witness_that_is_not_heard_is_found(
    program: pathlib.Path, room: pathlib.Path, seed: int
) -> None:
    """Nobody reads the reels that a machine names."""
    with mock.patch.object(run, "NAMED", "Unread"):
        assert faults_of(Batch(program, room, seed, 0, runs=RUNS_PLANTED))


@pytest.mark.whole
@pytest.mark.parametrize("number", range(BATCHES))
def test_batch_of_runs(program: pathlib.Path, room: pathlib.Path, seed: int, number: int) -> None:
    assert not faults_of(Batch(program, room, seed, number, runs=RUNS))
