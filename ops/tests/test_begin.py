"""What a roll-over carries over, on desks of random messages: the new desk answers as the old one.

Of each seed random messages are fed to a desk, some of them refused, and a new one is begun from
it.

    /usr/bin/python3 -m pytest ops/tests/test_begin.py -m whole -n 4
"""
from __future__ import annotations

import pathlib

import pytest

from lab.desk import Desk
from lab.floor import MACHINES, OLD_BOARDS, Floor, say, texts
from lab.tools import run
from tracedesk_dev import begun
from tracedesk_ops import plant

IN_GATE = 3
SEEDS = [
    *range(1, IN_GATE + 1),
    *(pytest.param(seed, marks=pytest.mark.whole) for seed in range(IN_GATE + 1, 201)),
]
LATER = 5_000  # minutes


def old_desk(desk: Desk, seed: int) -> None:
    """Feeds it random messages; in the end no board is in work."""
    floor = Floor(seed)
    messages = [*floor.set_up(), *floor.many(floor.random.randrange(20, 400), "o", OLD_BOARDS)]
    messages.append(floor.envelope("ClockSet", "o", {}))  # so that none of these is too far ahead
    for machine in MACHINES:
        for board in OLD_BOARDS:
            body = {"Machine": machine, "Board": board}
            messages.append(floor.envelope("WorkCompleted", "o", body))
    desk.feed(texts(messages))


def expect_alike(old: Desk, new: Desk, at: int | None = None) -> None:
    """Begins a desk, which accepts all messages; by proof it answers as the old one."""
    lines = begun.messages_of(old.file, at)
    for line, answer in zip(lines, new.feed(lines), strict=True):
        assert answer["Answer"] == "Accepted", f"{line[:300]!r} is answered {answer}"
    if at is not None:
        old.feed(texts([say("ClockSet", "on", at)]))
    chain = plant.chain_of(str(old.program))
    run([str(chain), "alike", old.file, new.file]).expect(0, "alike ")


@pytest.mark.parametrize("seed", SEEDS)
def test_new_desk_answers_as_the_old_one(
    program: pathlib.Path, folder: pathlib.Path, seed: int
) -> None:
    """Also one that is begun later, once the old one has taken a ClockSet of that minute."""
    old = Desk(program, folder / "old")
    old_desk(old, seed)
    expect_alike(old, Desk(program, folder / "new"))
    ((minute,),) = old.rows("SELECT max(effective) FROM accepted")
    expect_alike(old, Desk(program, folder / "later"), minute + LATER)
