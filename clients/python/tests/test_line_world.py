"""Machines that obey the interlock place no piece against a refusal, and people get them out of
each stop.

    /usr/bin/python3 -m pytest clients/python/tests/test_line_world.py --walks 10000
"""
from __future__ import annotations

import pathlib
import shutil
import tempfile
from typing import Any, Dict, Type
from unittest import mock

import pytest
from line_lab import Line
from line_world import Placed, World
from tracedesk import interlock
from tracedesk_dev.trial import in_memory

STEPS = 60  # of a walk
PLANTED_WALKS = 30  # until a planted fault is found


def walk(
    program: pathlib.Path,
    furnished: pathlib.Path,
    seed: int,
    kind: Type[World] = World,
    **more: Any,
) -> World:
    """A walk in a room of its own, and at its end the way to `go`."""
    room = pathlib.Path(tempfile.mkdtemp(dir=in_memory()))
    line = Line(program, room, furnished)
    try:
        made = kind(line, seed, **more)
        with made.lives():
            for _ in range(STEPS):
                made.step()
            assert not made.mend(), "more scans than the page names"
        return made
    finally:
        line.end()
        shutil.rmtree(room)


def test_no_piece_is_placed_against_a_refusal(
    line_program: pathlib.Path, furnished: pathlib.Path, request: pytest.FixtureRequest, seed: int
) -> None:
    """--walks N random walks, the first one of --seed N."""
    walks, pieces = request.config.getoption("--walks"), 0
    for number in range(seed, seed + walks):
        try:
            pieces += walk(line_program, furnished, number).pieces
        except Exception as fault:
            raise AssertionError(f"seed {number}: {fault}") from fault
    print(f"{walks} walks, {pieces} pieces")
    assert pieces


def test_right_work_causes_no_stop(
    line_program: pathlib.Path, furnished: pathlib.Path, seed: int
) -> None:
    made = walk(line_program, furnished, seed, errs=0.0)
    stops = {it for it in made.words if it.startswith("stop")} - {"stop NoWork"}
    assert made.pieces and not stops


class NoBoard(World):
    """The gate leaves the board out. Its machine is heard late, and ends boards early."""

    def is_permitted(self, word: str) -> bool:
        return word.startswith("go ")

    def says(self, word: str, **body: Any) -> None:
        self.unheard.append(self.line.message(word, Machine="M1", **body))

    def complete(self) -> None:
        self.left = []
        super().complete()


class OtherSlot(World):
    """An accepted scan of one slot closes the faults of all."""

    def scan(self, word: str, slot: str, reel: str = "") -> bool:
        is_accepted = super().scan(word, slot, reel)
        if is_accepted:
            for entry in self.open.values():
                self.line.decide(entry)
        return is_accepted


PLANTED: Dict[str, Any] = {
    "no lease": (World, 0.3, lambda _: ""),
    "the board left out": (NoBoard, 0.0, interlock.Interlock.unheard),
    "a fault closed by another slot": (OtherSlot, 0.3, interlock.Interlock.unheard),
}


@pytest.mark.parametrize("name", PLANTED)
def test_a_planted_fault_is_found(
    line_program: pathlib.Path, furnished: pathlib.Path, seed: int, name: str
) -> None:
    kind, errs, unheard = PLANTED[name]
    with mock.patch.object(interlock.Interlock, "unheard", unheard), pytest.raises(Placed):
        for number in range(seed, seed + PLANTED_WALKS):
            walk(line_program, furnished, number, kind, errs=errs)
