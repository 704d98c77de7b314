"""`tracedesk-line serve` against a plain model of its two lists, over random streams of messages,
decisions, holds, restarts and kills: after each step each state, the book, the counts and the
answer are the model's.

    /usr/bin/python3 -m pytest dev/tests/test_line_model.py -n 4     2,000 streams
    /usr/bin/python3 -m pytest dev/tests/test_line_model.py -m gate  40 of them

A difference is told with the shortest stream that shows it. --seed N makes other streams.
"""
import pathlib

import pytest
from tracedesk_dev import line_trial
from tracedesk_dev.line_streams import stream

BLOCK, BLOCKS, IN_GATE = 10, 200, 4  # streams of a test, and tests


@pytest.mark.parametrize(
    "block",
    [
        *range(IN_GATE),
        *(pytest.param(it, marks=pytest.mark.whole) for it in range(IN_GATE, BLOCKS)),
    ],
)
def test_a_line_is_its_two_lists(
    block: int, program: pathlib.Path, line_program: pathlib.Path, seed: int
) -> None:
    programs = str(program), str(line_program)
    for number in range(block * BLOCK, (block + 1) * BLOCK):
        steps = stream(f"{seed} {number}")
        if found := line_trial.difference(programs, steps):
            pytest.fail(f"stream {seed} {number}\n{line_trial.shortest(programs, steps, found)}")
