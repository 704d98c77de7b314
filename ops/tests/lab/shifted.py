"""A shift of a line, and what one desk makes of it that is never rolled over."""
import collections
import json
import pathlib
import shutil

from lab import Answer
from lab.desk import TAILS, Desk
from lab.line import Line
from lab.messages import MORNING, InWork
from tracedesk_dev import shift


def without_number(answer: Answer) -> Answer:
    return {name: value for name, value in answer.items() if name != "Number"}


class Shifted:
    """The messages of a shift, their answers, and a desk's file that has them all. `upto` is a
    place without a board in work, and `half` a line that has taken what is before it; the newest
    commands of that are in its log."""

    def __init__(self, program: pathlib.Path, folder: pathlib.Path, boards: int = 12) -> None:
        self.program = program
        # A repeat must not come after a roll-over, so that each message comes once.
        self.lines = [line.text for line in shift.Shift(1, boards).lines if line.wanted != "Repeat"]
        self.told = [json.loads(line) for line in self.lines]
        self.one = Desk(program, folder / "one/desk")
        self.answers = self.one.feed(self.lines)
        self.quiet = list(self.quiet_places())
        work = [n for n, it in enumerate(self.told) if it["MessageName"].endswith("WorkStarted")]
        self.first, self.last = work[0], work[-1]
        (self.upto,) = self.cuts(1)
        self.half = Line(program, folder / "half")
        self.half.feed([])
        self.half.serve()
        self.half.post(self.lines[: self.upto])
        self.half.end()

    def quiet_places(self) -> "collections.abc.Iterator[int]":
        """Behind which lines no board is in work."""
        work = InWork()
        for place, (told, answer) in enumerate(zip(self.told, self.answers), 1):
            if answer["Answer"] == "Accepted":
                work.see(told)
            if not work.boards:
                yield place

    def cuts(self, number: int) -> list[int]:
        """So many places without a board in work, spread over the part of the shift in which boards
        are made."""
        length = self.last - self.first
        wanted = [self.first + length * (n + 1) // (number + 1) for n in range(number)]
        return [min(self.quiet, key=lambda place: abs(place - it)) for it in wanted]

    def accepted(self, upto: "int | None" = None) -> set[str]:
        """The UniqueIDs of the accepted messages before this place."""
        return {it["UniqueID"] for it in self.answers[:upto] if it["Answer"] == "Accepted"}

    def names(self, field: str) -> list[str]:
        """All names that the messages have in this field, as `Board`."""
        return sorted({it["MessageBody"][field] for it in self.told if field in it["MessageBody"]})

    def copy(self, folder: pathlib.Path, name: str = "L1") -> Line:
        """A line as `half`, which isn't served."""
        line = Line(self.program, folder, name)
        line.time = MORNING
        for tail in TAILS:
            shutil.copyfile(f"{self.half.file}{tail}", f"{line.file}{tail}")
        return line

    def post(self, line: Line, start: int, end: "int | None" = None) -> None:
        """Posts messages, whose answers have to be those of one desk."""
        lines = self.lines[start:end]
        for text, got, wanted in zip(lines, line.post(lines), self.answers[start:end]):
            assert without_number(got) == without_number(wanted), f"{text[:300]!r}"

    def expect_rolled_over(self, line: Line, *more: str) -> None:
        """One archive and the new desk have every command once, these parts too; the rest of the
        shift is answered as on one desk."""
        line.expect_tidy()
        assert len(line.archives()) == 1
        self.post(line, self.upto)
        line.end()
        own = self.accepted() | {f"x-{name}" for name in more}
        assert line.uids() == dict.fromkeys(own, 1)

    def expect_unchanged(self, line: Line) -> None:
        """There is no archive, and the desk has what it had."""
        line.expect_tidy()
        assert not line.archives()
        line.end()
        assert line.uids() == dict.fromkeys(self.accepted(self.upto), 1)
