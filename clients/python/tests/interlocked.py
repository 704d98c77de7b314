"""A sender with an interlock, as a process of its own, and what it is tried by: a machine, its
line, and a plant's command that writes each call with its time.
"""
from __future__ import annotations

import json
import pathlib
import random
import signal
import subprocess
import sys
import time
from typing import Any, Callable, Dict, Iterator, Optional, Tuple, TypeVar

import at_port
from at_port import PATIENCE, SENDER
from line_lab import Served
from tracedesk_dev import processes

YOUNG = 0.5  # seconds that a call permits for
Found = TypeVar("Found")


class Passing(at_port.Answering):
    """Passes requests on, each on a connection of its own, as a proxy does: a sender that hangs
    holds no line.
    """

    def do_GET(self) -> None:
        self.passed(None)

    def do_POST(self) -> None:
        self.passed(json.loads(self.body()))

    def passed(self, body: Any) -> None:
        line: Served = self.server.line  # type: ignore[attr-defined]  # set by Plant
        status, text = line.asked(self.path, body)
        self.reply(status, text.encode())


class Locked:
    """A sender of machine M1, the file that its machine writes to, and the calls of the plant's
    command.
    """

    def __init__(self, room: pathlib.Path, url: str, *who: Any) -> None:
        self.room, self.out, self.log, self.number = room, room / "out", room / "calls", 0
        self.out.mkdir()
        self.log.touch()
        command = room / "permit"
        command.write_text(f'#!/bin/sh\necho "$(date +%s.%N) $2" >> {self.log}\n')
        command.chmod(0o755)
        where = ["--url", url, *map(str, who), "--spool", str(room / "spool")]
        lock = ["--interlock", str(command), "--machine", "M1"]
        often = ["--every", "0.1", "--silence", "3"]
        follow = ["--follow", str(self.out)]
        self.words = [sys.executable, str(SENDER), *where, *follow, *lock, *often]

    def start(self) -> None:
        self.sender = subprocess.Popen(
            self.words, stderr=subprocess.DEVNULL, start_new_session=True
        )

    def kill(self) -> None:
        """Kills the sender, and waits for a call of its command that goes on: it is a session of
        its own.
        """
        self.sender.kill()
        self.sender.wait()
        end = time.monotonic() + PATIENCE
        while processes.that_have(str(self.room / "permit")) and time.monotonic() < end:
            time.sleep(0.01)

    def end(self) -> None:
        if hasattr(self, "sender"):
            self.kill()

    def say(self, *messages: Dict[str, Any]) -> None:
        """The machine writes messages."""
        self.number += 1
        (self.out / "x.tmp").write_text("".join(json.dumps(it) + "\n" for it in messages))
        (self.out / "x.tmp").rename(self.out / f"{self.number:09}.jsonl")

    def calls(self) -> Iterator[Tuple[float, str, str]]:
        """Each call of the command: when, the state, and the reason."""
        for line in self.log.read_text().splitlines():
            at, state, *reason = line.split(" ", 2)
            yield float(at), state, " ".join(reason)

    def wait_for(self, found: Callable[[], Optional[Found]]) -> Found:
        end = time.monotonic() + PATIENCE
        while not (it := found()):
            ended = self.sender.poll()
            if ended is not None or time.monotonic() > end:
                raise AssertionError(f"it doesn't come: {list(self.calls())[-3:]}, sender: {ended}")
            time.sleep(0.01)
        return it

    def wait_for_word(self, word: str) -> None:
        """Waits until the last call's word begins so."""

        def last() -> str:
            return (self.log.read_text().splitlines() or [""])[-1].partition(" ")[2]

        self.wait_for(lambda: last().startswith(word))


class Plant(Locked):
    """The machine takes `go` only while the last call says so and is younger than half a second. A
    killed sender calls nothing more, so that the machine stops. A tablet talks to the line alone.
    """

    def __init__(self, program: pathlib.Path, room: pathlib.Path) -> None:
        self.board = ""
        self.line = Served(program, room)
        self.line.furnished(1_000_000)
        self.line.begin()
        proxy = at_port.Server(Passing)
        proxy.line = self.line  # type: ignore[attr-defined]  # for Passing
        super().__init__(room, proxy.url)

    def end(self) -> None:
        super().end()
        self.line.process.send_signal(signal.SIGCONT)
        self.line.end()

    def message(self, word: str, **body: Any) -> Dict[str, Any]:
        return self.line.message(word, Machine="M1", **body)

    def begin_board(self) -> None:
        """The machine completes its board, and starts the next one."""
        done = [self.message("WorkCompleted", Board=self.board)] if self.board else []
        self.board = f"B{self.number}"
        self.say(*done, self.message("WorkStarted", Board=self.board))

    def is_idle(self) -> bool:
        """Whether nothing of the machine waits for an answer."""
        return not any(self.out.iterdir()) and not at_port.texts_in(self.room / "spool", "waiting")

    def is_permitted(self) -> bool:
        last = list(self.calls())[-1:]
        is_young = bool(last) and time.time() - last[0][0] < YOUNG
        return is_young and last[0][1:] == ("go", self.board)

    def works(self) -> None:
        """Waits until the machine works on its board."""
        self.wait_for(self.is_permitted)

    def goes_on(self) -> None:
        """The next board, of which alone the calls are looked at from now on."""
        self.wait_for(self.is_idle)
        self.log.write_text("")
        self.begin_board()

    def refusal(self, from_tablet: bool) -> float:
        """Seconds from the answer that refuses to the last moment in which the machine might work.
        Then it stands until somebody decides. What the machine says is refused once the sender has
        sent it: the moment before that counts.
        """
        self.goes_on()
        self.works()
        if from_tablet:
            assert self.line.scan("MaterialsSpliced", "1", "WRONG")
        else:
            self.say(self.message("MaterialsInstalled", Board=self.board, Designators=["9"]))
        refused = time.time()
        self.wait_for(lambda: any(at > refused and "Open" in why for at, _, why in self.calls()))
        took = self.permitted_until(refused) - refused
        self.line.decide(len(self.line.book()))
        return took

    def permitted_until(self, since: float) -> float:
        """Until when the machine might work after a moment: a call permits until the next one, and
        not for long.
        """
        end, until = since, -float("inf")
        for at, state, _ in self.calls():
            end = max(end, min(until, at))
            until = at + YOUNG if state == "go" else -float("inf")
        return end

    def is_stopped_by_a_kill(self, chance: random.Random) -> bool:
        """Kills the sender around a start, one of five while it hangs; whether the machine stops,
        and then goes on with the board in work alone.
        """
        self.goes_on()
        if chance.random() < 0.7:
            self.works()
        time.sleep(chance.uniform(0, 0.15))
        if chance.random() < 0.2:
            self.sender.send_signal(signal.SIGSTOP)
            self.wait_for(lambda: not self.is_permitted())
        self.kill()
        end = time.time()
        time.sleep(YOUNG + 0.1)
        if self.is_permitted():
            return False
        self.start()
        self.works()
        its = [why for at, state, why in self.calls() if at > end + YOUNG and state == "go"]
        return set(its) == {self.board}
