"""The clock of a batch, the kills of its senders, and its desk."""
import contextlib
import os
import pathlib
from typing import Any, Callable, Iterator, Optional
from unittest import mock

from lab.line import Line
from tracedesk import desk as desks
from tracedesk import records, spool
from tracedesk_ops import catalogue

BEGIN = 1_775_000_000 // 60  # the minute when a batch begins
WRITES = ("rename", "write", "fsync")  # of os: a sender may be killed before one of these


class Killed(BaseException):
    """A sender was killed."""


class Killer:
    """Ends a sender before one of its next writes."""

    left: Optional[int] = None  # so many writes from now on; None: never

    @classmethod
    def counted(cls, call: Callable[..., Any]) -> Callable[..., Any]:
        def counting(*words: Any, **more: Any) -> Any:
            if cls.left is not None:
                cls.left -= 1
                if cls.left < 0:
                    cls.left = None
                    raise Killed
            return call(*words, **more)

        return counting


class Clock:
    """The minute of a batch."""

    minute = BEGIN

    @classmethod
    def text(cls, _: Optional[float] = None) -> str:
        return str(catalogue.spelled(cls.minute))


@contextlib.contextmanager
def nothing(*_: object) -> Iterator[None]:
    yield


@contextlib.contextmanager
def simulated() -> Iterator[None]:
    """The package's senders go by the clock of the batch, and are killed by the Killer."""
    with contextlib.ExitStack() as held:
        for name in WRITES:
            counted = Killer.counted(getattr(os, name))
            held.enter_context(mock.patch.object(os, name, counted))
        for owner, name, its in (
            (records, "utc", Clock.text),
            # Nothing hangs here, so no thread looks at each request.
            (desks.Desk, "within", nothing),
            (spool.Spool, "whole", Killer.counted(spool.Spool.whole)),
        ):
            held.enter_context(mock.patch.object(owner, name, its))
        yield


class Place(Line):
    """The line whose desk the runs share, with the folders of its senders."""

    def __init__(self, program: pathlib.Path, folder: pathlib.Path) -> None:
        super().__init__(program, folder)
        self.spools = folder / "spools"
        for path in (self.archive, self.spools):
            path.mkdir()

    def begin(self, messages: list[bytes]) -> None:
        """Makes the desk, of these messages, and starts it."""
        answers = [answer["Answer"] for answer in self.feed(messages)]
        assert answers == ["Accepted"] * len(messages)
        self.serve()

    def kill(self) -> None:
        self.end()
        self.serve()
