"""Pieces near splices: they may be of the neighbour on the tape, since no reel has exactly the
pieces of its label.

Each label may be wrong by some pieces. So the first splice of a tape was so many pieces earlier or
later than the desk has it; the next one by those of two labels, and so on. A reel that was taken
off carries the error of its count to the next slot.

    splices.near(tapes, files, {"K-1"}, 10)
"""
from __future__ import annotations

import collections
import contextlib
import dataclasses
import sqlite3
from collections.abc import Callable, Iterator, Mapping

from tracedesk_ops import copies
from tracedesk_ops.tapes import DoubtfulPiece, Tape, Tapes, Where

LEFT = "SELECT remaining FROM reel WHERE reel = ?"
Opener = Callable[[], contextlib.AbstractContextManager[sqlite3.Connection]]
Errors = dict[str, int]  # by reel: how many pieces its count may be wrong by


@dataclasses.dataclass
class Passed:
    """A piece that a tape has placed, and the other reels that it may be of."""

    where: Where
    reel: str
    file: str
    others: set[str]


@dataclasses.dataclass
class Passing:
    """The pieces of a tape, as they come: `recent` are those that the next splice may reach, and
    `before` the reels before each splice, with the piece up to which one may still be of it.
    """

    tape: Tape
    errors: Errors
    count: int = 0
    reel: str = ""
    left: int = 0  # of that reel, at the end of the file
    recent: collections.deque[Passed] = dataclasses.field(default_factory=collections.deque)
    before: list[tuple[str, int]] = dataclasses.field(default_factory=list)

    def take(self, it: Passed) -> Iterator[Passed]:
        """Takes the next piece; yields those in doubt that no later splice reaches."""
        if self.reel and it.reel != self.reel:
            for its in self.recent:
                its.others.add(it.reel)
            self.before.append((self.reel, self.count + self.errors[self.reel]))
            self.errors[it.reel] += self.errors[self.reel]
        self.reel = it.reel
        self.before = [(reel, until) for reel, until in self.before if self.count < until]
        it.others |= {reel for reel, _ in self.before}
        self.recent.append(it)
        self.count += 1
        while len(self.recent) > self.errors[self.reel]:
            yield from (its for its in [self.recent.popleft()] if its.others)

    def waiting(self) -> list[str]:
        """The reels behind the one that the desk has in front."""
        reels = [*self.tape.reels]
        return reels[reels.index(self.reel) + 1 :] if self.reel in reels else []

    def take_off(self) -> None:
        """The tape ended, maybe behind a splice that the desk didn't reach: the reels behind that
        may have been used.
        """
        error = self.errors[self.reel]
        for reel in self.waiting():
            self.errors[reel] += error
            error = self.errors[reel]

    def end(self) -> Iterator[Passed]:
        """Yields the last ones in doubt."""
        for it in self.recent if self.left < self.errors[self.reel] else ():
            it.others |= {*self.waiting()}
        yield from (it for it in self.recent if it.others)


def near(
    tapes: Tapes, files: Mapping[str, Opener], asked: set[str], within: int
) -> Iterator[DoubtfulPiece]:
    """The pieces near splices of tapes that have one of these reels, if each label is wrong by so
    many pieces at most.
    """
    errors: Errors = collections.defaultdict(lambda: within)
    passing = [Passing(it, errors) for it in sharing(tapes, asked)]
    ended = sorted(passing, key=lambda it: it.tape.last, reverse=True)
    found: list[Passed] = []
    for place, (name, opened) in enumerate(files.items()):
        with opened() as database:
            those = [(it.tape, -1) for it in passing]
            for at, where, reel in tapes.placed(place, database, those):
                while ended and ended[-1].tape.last <= passing[at].tape.first:
                    ended.pop().take_off()
                found += passing[at].take(Passed(where, reel, name, set()))
            for it in passing:
                ((it.left,),) = copies.rows(database, LEFT, it.reel) or [(it.left,)]
    found += (one for it in passing for one in it.end())
    for one in found:
        why = f"within {within} of a splice"
        piece = tapes.piece(one.where, one.reel, one.others, why, one.file)
        yield piece._replace(parts=frozenset())


def sharing(tapes: Tapes, asked: set[str]) -> list[Tape]:
    """The tapes that have one of these reels, or share one with such a tape."""
    those = [tape for its in tapes.slots.values() for tape in its if tape.is_spliced]
    reels: set[str] = set()
    while asked - reels:
        reels |= asked
        asked = {it for tape in those if reels & tape.reels.keys() for it in tape.reels}
    return [tape for tape in those if reels & tape.reels.keys()]
