"""Which machines may work. Permission is the line's answer to `GET /line/state`, asked again and
again. The sender adds what the line can't know: whether messages wait here, when it was answered
last, and whether the machine is heard.
"""
from __future__ import annotations

import contextlib
import hashlib
import socket
import sqlite3
import urllib.parse
from typing import Any, Dict, Iterator, List, NamedTuple, Optional

from . import answers, records, words
from .desk import Desk
from .disk import SpoolError
from .spool import Spool
from .spool import clock as clock  # by which tests let time pass

EVERY = 0.5  # seconds between two questions about a machine, and two calls with the same state
SILENCE = 10.0  # seconds without an answer, or without a sign of life, that stop a machine
LATE = 1.0  # seconds in which what waited before must have its answer
MOST_CAUSES = 5  # that a word names
NEVER = -float("inf")
OLD_DESK = "the desk has no /line/state: run tracedesk-line serve, of this version"
ODD = "that is no answer of a line"


class State(NamedTuple):
    """What the line said of a machine, to a question that was begun then."""

    begun: float = NEVER
    at: Optional[str] = None
    board: Optional[str] = None
    why: str = "waiting: the line wasn't asked yet"  # empty if the machine may work


def text_of(cause: Dict[str, Any]) -> str:
    """A cause of the line in a few words: what it is, where, and what the desk said."""
    slot, reel, entry = (cause.get(it) for it in ("Slot", "Reel", "Entry"))
    what = cause.get("Refusal") or cause.get("Kind")
    its = [f"slot {slot}" if slot else "", reel, what, f"entry {entry}" if entry else ""]
    said = ", ".join(str(it) for it in its if it)
    return f"{cause.get('Cause')}{f' ({said})' if said else ''}"


def read(machine: str, status: int, body: bytes, begun: float) -> Optional[State]:
    """What an answer says of a machine; none if it is no answer, and the next one may be one."""
    told, at = answers.read_object(body), records.utc()
    if status in words.AGAIN or status >= 500:
        return None
    if status == 404 and told.get("Kind") == "Machine":
        return State(begun, at, None, "NoSheet: no sheet names this machine")
    if status == 404:
        return State(begun, at, None, f"fault: {OLD_DESK}")
    board, causes, word = (told.get(it) for it in ("Board", "Causes", "State"))
    if status != 200 or told.get("Machine") != machine or not isinstance(causes, list):
        return State(begun, at, None, f"fault: status {status}: {words.STOPS.get(status, ODD)}")
    if word == "go" and isinstance(board, str) and not causes:
        return State(begun, at, board, "")
    if word != "stop" or not causes:
        return State(begun, at, None, f"fault: {ODD}")
    named = [text_of(it) for it in causes[:MOST_CAUSES]]
    more = [f"{len(causes) - MOST_CAUSES} more"] if len(causes) > MOST_CAUSES else []
    return State(begun, at, board, "; ".join(named + more))


class Interlock:
    """The states of machines. The sender asks, threads look: what one of them sets is one value, so
    none waits for another.
    """

    def __init__(
        self,
        spool: Spool,
        machines: List[str],
        silence: float = SILENCE,
        every: float = EVERY,
    ) -> None:
        self.spool, self.silence, self.every = spool, silence, min(every, silence / 2)
        self.states = {name: State() for name in machines}
        self.faults: Dict[str, str] = {}  # of the plant's command, by machine
        self.ended, self.own, self.looked = "", "", NEVER
        self.resumed = NEVER  # when a suspend was over: what was asked before says nothing
        self.mark, self.marked = spool.waits()[1], NEVER  # what waited last, and when

    @contextlib.contextmanager
    def held(self, command: str) -> Iterator[None]:
        """Holds a name for each machine of a command, which the system gives to one process at a
        time.
        """
        with contextlib.ExitStack() as stack:
            for machine in self.states:
                name = hashlib.sha256(f"{command}\0{machine}".encode()).hexdigest()
                its = stack.enter_context(socket.socket(socket.AF_UNIX, socket.SOCK_STREAM))
                try:
                    its.bind(f"\0tracedesk-send {name}".encode())
                except OSError:
                    raise SpoolError(
                        f"machine {machine}: another sender has its interlock by this command: "
                        "end that one, or name another machine"
                    ) from None
            yield

    # --- What the line says

    def ask(self, desk: Desk) -> None:
        """Asks about each machine whose turn it is. Without an answer in time nothing is known, and
        the machines stop by themselves.
        """
        with contextlib.suppress(Exception):
            for machine, state in self.states.items():
                if clock() - state.begun >= self.every:
                    begun = clock()
                    target = "/line/state?" + urllib.parse.urlencode({"machine": machine})
                    found = read(machine, *desk.got(target, self.silence / 2), begun)
                    self.states[machine] = found or state

    def forget(self, told: Dict[str, Any]) -> None:
        """What the line said before this message was answered says nothing of now. A message
        without a machine may be about any.
        """
        name = answers.body_of(told).get("Machine")
        for machine in self.states:
            if machine == name or not isinstance(name, str):
                self.states[machine] = State()

    # --- What the sender knows

    def look(self) -> None:
        """Looks at the spool: what waits there, and who feeds it."""
        try:
            self.own = self.waits() or self.unheard()
        except sqlite3.Error as fault:
            self.own = f"fault: the spool can't be read: {fault}"
        self.looked = clock()

    def waits(self) -> str:
        """Says that a start of work waits, or that other messages wait for too long."""
        oldest, newest, has_start = self.spool.waits()
        if has_start:
            return "waiting: a start of work waits for its answer"
        if oldest > self.mark:  # what waited then has its answer
            self.mark, self.marked = newest, clock()
        late = clock() - self.marked > LATE
        return "waiting: messages wait, and aren't answered in time" if late else ""

    def unheard(self) -> str:
        """Says who feeds the spool and doesn't live: the machine isn't heard then."""
        feeders = self.spool.feeders()
        if not feeders:
            return "silent: nobody feeds the spool: start the machine's bridge or program"
        name = min(feeders, key=lambda it: feeders[it])
        if clock() - feeders[name] <= self.silence:
            return ""
        return f"silent: {name} doesn't run, so the machine isn't heard. Start it, or --release it"

    def why(self, machine: str) -> str:
        """Why a machine must not work now; empty if it may."""
        state = self.states[machine]
        if why := self.ended or self.faults.get(machine, "") or self.own or state.why:
            return why
        if clock() - self.looked > LATE:
            return "fault: the spool wasn't looked at"
        if state.begun < self.resumed:
            return "silent: the sender was suspended, and the line wasn't asked since"
        if clock() - state.begun > self.silence:
            return f"silent: no answer for {self.silence:g} seconds"
        return ""

    def word(self, machine: str) -> str:
        """What the plant's command gets: `go BOARD`, or `stop CAUSE`."""
        why, state = self.why(machine), self.states[machine]
        return f"stop {why}" if why or state.why else f"go {state.board}"

    def told(self) -> Dict[str, Any]:
        """The machines, as the status has them."""
        return {
            name: {
                "State": self.word(name).partition(" ")[0],
                "AskedAt": state.at,
                "Board": state.board,
                "Reason": self.why(name),
            }
            for name, state in self.states.items()
        }
