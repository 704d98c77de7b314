"""Sends what waits in a spool, one message at a time and in order, and takes in what comes
meanwhile.
"""
from __future__ import annotations

import contextlib
import os
import pathlib
import threading
import time
from typing import Any, BinaryIO, Callable, Dict, Iterator, Optional, Tuple

from . import answers, forms, records, words
from .console import NEWS_OF_A_FAULT, patiently
from .desk import Desk
from .command import Command
from .interlock import Interlock
from .disk import files_in, lines_of, lock_alone
from .spool import MOST_READ, Spool
from .status import Status

LOOK = 0.2  # seconds between two looks at a folder
FOLLOWER = "the sender's own source"  # the name of its lease

IS_REPORT = (
    ". It is a report of work, and isn't sent again: a person decides about its entry in the line's"
    " book"
)
JUDGED = ("WorkStarted", "WorkCompleted")  # after which a machine's state is another


def contradicts(told: Dict[str, Any], answer: answers.Answer) -> bool:
    """Whether a machine names another reel for a piece than the desk, or one that can't be
    compared: then the line may have stopped it.
    """
    named = answers.body_of(told).get("MachineReels")
    if not isinstance(answer, answers.Accepted) or named is None:
        return False
    if not isinstance(named, list) or len(named) != len(answer.reels):
        return True
    return any(its not in (None, desk) for its, desk in zip(named, answer.reels))


class Sender:
    """The one sender of a spool. A message that is not taken is set aside; a report of work is
    never sent again.
    """

    def __init__(
        self,
        spool: Spool,
        desk: Desk,
        tell: Callable[[str], None] = lambda line: None,
        interlock: Optional[Interlock] = None,
        command: Optional[Command] = None,
        status: Optional[Status] = None,
    ) -> None:
        self.spool, self.desk, self.tell = spool, desk, tell
        self.interlock, self.command = interlock or Interlock(spool, []), command
        self.status = status
        self.aside = 0
        self.news, self.dropped, self.next_news = threading.Event(), 0, 0.0

    def answer_to(self, name: str) -> Tuple[answers.Answer, Dict[str, Any]]:
        """The answer to a message, and the message. One that is too long for any desk has its
        answer at once.
        """
        text = patiently(lambda: self.spool.text(name), self.tell)
        told = records.as_read(text if len(text) <= MOST_READ else b"")
        if len(text) > forms.LONGEST_MESSAGE:
            if records.may_be_kept(told):
                why = words.FAULTS["LineTooLong"]
                self.desk.send(records.unread(text, told, why))
            return answers.LINE_TOO_LONG, told
        _, is_tried = patiently(lambda: self.spool.take(name), self.tell)
        try:
            return self.desk.send(text, is_tried), told
        except Exception:
            if not self.desk.is_unanswered:
                self.spool.untried(name)
            raise

    def send_waiting(self) -> int:
        """Sends each message that waits; how many they were."""
        names = patiently(self.spool.names, self.tell)
        for name in names:
            self.interlock.ask(self.desk)
            answer, told = self.answer_to(name)
            is_said = records.is_unread(told)
            is_taken = is_said or answers.is_taken(answer)
            if answers.word_of(told) in JUDGED or contradicts(told, answer) or not is_taken:
                self.interlock.forget(told)  # until the answer is kept its message waits
                self.interlock.ask(self.desk)
            if not is_taken:
                self.aside += 1
                self.tell(
                    f"message {name} is {answers.why(answer)}. It is set aside in {self.spool.path}"
                    + (IS_REPORT if records.is_report(told) else "")
                )
            patiently(lambda: self.spool.done(name, answer, is_said), self.tell)
            self.look_at_what_is_kept()
        return len(names)

    def look_at_what_is_kept(self) -> None:
        """Once a minute forgets what was sent long ago, or is too much. Reports messages that were
        deleted before their days were over.
        """
        if time.monotonic() < self.next_news:
            return
        self.next_news = time.monotonic() + NEWS_OF_A_FAULT
        patiently(self.spool.forget, self.tell)
        if self.spool.dropped_early > self.dropped:
            self.dropped = self.spool.dropped_early
            self.tell(
                f"{self.spool.path} has more than --keep-mib of sent messages: {self.dropped} of"
                " less than --keep-days were deleted there, and can't be sent again"
            )

    def run(self, follower: Optional["Follower"] = None, stays: bool = False) -> None:
        """Sends until nothing waits; with a follower until that has ended; or for good."""
        with contextlib.ExitStack() as held:
            held.enter_context(self.spool.sending())
            if self.status:
                held.callback(self.status.put)
                self.status.begin()
            if self.command:
                held.enter_context(self.interlock.held(self.command.command))
                held.callback(self.command.end)
                self.command.begin()
            if follower:
                held.enter_context(follower.held())
                follower.begin(self.news)
            else:
                self.spool.release(FOLLOWER)
            while True:
                is_ended = follower is None or follower.is_ended
                if self.send_waiting():
                    continue
                if is_ended and not stays:
                    break
                self.news.clear()
                self.interlock.ask(self.desk)
                if not self.spool.names() and not self.news.wait(LOOK):
                    self.desk.close()
            if follower and follower.fault:
                raise follower.fault


class Follower:
    """Takes messages into a spool as they come, in a thread of its own: a desk that is away stops
    no machine.
    """

    def __init__(self, spool: Spool, tell: Callable[[str], None] = lambda line: None) -> None:
        self.spool, self.tell, self.is_ended = spool, tell, False
        self.fault: Optional[OSError] = None

    def begin(self, news: threading.Event) -> None:
        self.news = news
        self.spool.renew(FOLLOWER)
        threading.Thread(target=self.run, daemon=True).start()

    def held(self) -> "contextlib.AbstractContextManager[None]":
        """Held while it follows."""
        return contextlib.nullcontext()

    def run(self) -> None:
        """Takes in what comes, to its end. No fault ends it: `patiently` reports and waits."""


class Lines(Follower):
    """Follows a stream of lines. Once a line is on disk its name in the spool goes to
    `acknowledge`.
    """

    def __init__(
        self,
        spool: Spool,
        stream: BinaryIO,
        acknowledge: Callable[[str], None] = lambda name: None,
        tell: Callable[[str], None] = lambda line: None,
    ) -> None:
        super().__init__(spool, tell)
        self.stream, self.acknowledge = stream, acknowledge

    def begin(self, news: threading.Event) -> None:
        super().begin(news)
        threading.Thread(target=self.live, daemon=True).start()

    def live(self) -> None:
        """The stream is open: somebody has its other end, also while he says nothing."""
        while not self.is_ended:
            self.spool.renew(FOLLOWER)
            time.sleep(LOOK)

    def run(self) -> None:
        try:
            for line in lines_of(self.stream):
                name = patiently(lambda: self.spool.put(line), self.tell)
                self.news.set()
                self.acknowledge(name)
        except OSError as fault:
            self.fault = fault
        except MemoryError:
            self.fault = OSError("a line of standard input doesn't fit into memory")
        self.is_ended = True
        self.news.set()


class Folder(Follower):
    """Follows a folder: the files *.json and *.jsonl that are renamed into it, in the order of
    their names. Each gets a name of its own first, so that a machine may use a name again, and is
    deleted once its lines are in the spool.
    """

    def __init__(
        self, spool: Spool, folder: pathlib.Path, tell: Callable[[str], None] = lambda line: None
    ) -> None:
        super().__init__(spool, tell)
        self.folder, self.begun = (
            folder,
            folder / f".tracedesk-send.{spool.identity()}.taking",
        )  # two senders of a folder take what each has got

    @contextlib.contextmanager
    def held(self) -> Iterator[None]:
        handle = os.open(self.folder, os.O_RDONLY | os.O_DIRECTORY)
        try:
            with contextlib.suppress(OSError):  # some network folders know no locks
                why = "another sender follows this folder: end that one, or name another folder"
                lock_alone(handle, f"{self.folder}: {why}")
            yield
        finally:
            os.close(handle)

    def run(self) -> None:
        while True:
            patiently(self.look, self.tell)
            self.spool.renew(FOLLOWER)
            time.sleep(LOOK)

    def look(self) -> None:
        """Takes in what was begun before, and then each file that is there."""
        if self.begun.exists():
            self.spool.take_file(self.begun)
        self.spool.forget_file(self.begun)
        for path in files_in(self.folder):
            with contextlib.suppress(FileNotFoundError):
                os.rename(path, self.begun)
                self.spool.take_file(self.begun)
                self.news.set()
