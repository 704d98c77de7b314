"""Pieces near splices. On tapes whose labels are wrong the truth test asks recalls for them."""
from __future__ import annotations

import contextlib
import sqlite3
from typing import Iterator

import pytest
from lab import files
from tracedesk_ops import splices
from tracedesk_ops.tapes import DoubtfulPiece, Tapes


class Floor:
    """A machine with one slot, and a file of its desk."""

    def __init__(self, file: sqlite3.Connection) -> None:
        self.file, self.number = file, 0
        file.executescript(files.TABLES)

    def say(self, *words: str) -> None:
        self.number += 1
        row = self.number, f"u{self.number}", "s", 1, 1, "\t".join(words), ""
        self.file.execute("INSERT INTO accepted VALUES (?, ?, ?, ?, ?, ?, ?)", row)

    def receive(self, reel: str, left: int = 0) -> None:
        row = reel, f"L-{reel}", left, left
        its = "INSERT INTO reel VALUES (?, 'P', ?, '1', 0, ?, 0, 0, ?, 0, -1, 0)"
        self.file.execute(its, row)

    def place(self, *pieces: str) -> list[str]:
        """Pieces of these reels; the board of each."""
        boards = [str(self.number + count) for count in range(len(pieces))]
        for board, reel in zip(boards, pieces):
            self.say("MaterialsInstalled", "M", board, "C1")
            piece = "INSERT INTO placement VALUES (?, 1, ?, 'C1', 'M', '1', ?, 0)"
            self.file.execute(piece, (self.number, board, reel))
        return boards

    def near(self, asked: str, within: int) -> list[DoubtfulPiece]:
        tapes = Tapes()
        tapes.read("desk", self.file)
        tapes.judge([], [])
        opened = {"desk": lambda: contextlib.nullcontext(self.file)}
        return [*splices.near(tapes, opened, {asked}, within)]


@pytest.fixture
def floor() -> Iterator[Floor]:
    with contextlib.closing(sqlite3.connect(":memory:")) as file:
        yield Floor(file)


def test_the_last_pieces_and_the_first_of_the_neighbour_are_in_doubt(floor: Floor) -> None:
    for reel in ("A", "B", "C"):
        floor.receive(reel)
    floor.say("MaterialsLoaded", "M", "1", "A")
    floor.say("MaterialsSpliced", "M", "1", "B")
    boards = floor.place(*"AAAAABBBBB")
    floor.say("MaterialsSpliced", "M", "1", "C")
    boards += floor.place(*"BBCCCCC")
    got = {it.board: (it.reel, it.other_reels) for it in floor.near("A", 1)}
    first = {boards[4]: ("A", ("B",)), boards[5]: ("B", ("A",))}
    later = {boards[at]: ("B", ("C",)) for at in (10, 11)}
    assert got == first | later | {boards[at]: ("C", ("B",)) for at in (12, 13)}
    assert floor.near("X", 1) == []


def test_a_splice_that_is_near_is_in_doubt_before_the_desk_reaches_it(floor: Floor) -> None:
    floor.receive("A", left=2)
    floor.receive("B", left=9)
    floor.say("MaterialsLoaded", "M", "1", "A")
    floor.say("MaterialsSpliced", "M", "1", "B")
    boards = floor.place(*"AAAA")
    assert floor.near("B", 2) == []
    got = {it.board: it.other_reels for it in floor.near("B", 3)}
    assert got == dict.fromkeys(boards[1:], ("B",))
