"""A machine, people who err, and a bridge that may be dead, before a line that is served. The
machine obeys the interlock: it places a piece only at the word `go` of the board that it has.
"""
from __future__ import annotations

import contextlib
import json
import random
from typing import Any, Callable, Dict, Iterator, List, Set
from unittest import mock

from line_lab import SLOTS, Line
from tracedesk import interlock, spool

STEP, LONG = 0.6, 6.0  # seconds of a word, before which the line is asked; and between two deeds
BRIDGE = "the bridge"


class Placed(Exception):
    """A piece was placed that must not have been."""


class World:
    """What really happens. `errs` is how often people and the bridge do wrong."""

    def __init__(self, line: Line, seed: int, errs: float = 0.3) -> None:
        self.line, self.chance, self.errs = line, random.Random(seed), errs
        self.now, self.boards, self.reels = interlock.clock(), 0, 10
        self.board, self.left = "", []  # type: str, List[str]
        self.accepted: Set[str] = set()  # boards whose start was accepted
        self.unheard: List[Dict[str, Any]] = []  # what the machine said and no bridge has heard yet
        self.open: Dict[str, int] = {}  # slots with a refused scan, and its entry
        self.died: float = 0  # when the bridge did, while it is dead
        self.product, self.words, self.pieces = "PR", [], 0  # type: str, List[str], int

    def is_permitted(self, word: str) -> bool:
        """The gate at the machine."""
        return word == f"go {self.board}"

    @contextlib.contextmanager
    def lives(self) -> Iterator[None]:
        """Its time passes in steps, however long they take a machine that is busy."""
        with contextlib.ExitStack() as held:
            for owner, name in ((interlock, "clock"), (spool, "clock")):
                held.enter_context(mock.patch.object(owner, name, lambda: self.now))
            held.enter_context(mock.patch.object(spool, "ahead", lambda: 0.0))
            yield

    # --- The machine and its bridge

    def says(self, word: str, **body: Any) -> None:
        self.unheard.append(self.line.message(word, Machine="M1", **body))
        if self.chance.random() > self.errs:
            self.hear()

    def hear(self) -> None:
        """The bridge hands on what the machine said, and the sender sends it."""
        if self.died:
            return
        self.line.spool.renew(BRIDGE)
        for told in self.unheard:
            self.line.spool.put(json.dumps(told).encode())
        self.unheard = []
        self.line.sender.send_waiting()
        self.line.desk.close()
        sent = map(self.line.spool.message, self.line.spool.names("sent"))
        starts = (it for it in sent if it["MessageName"] == "TraceDesk.WorkStarted")
        self.accepted = {it["MessageBody"]["Board"] for it in starts}

    def word(self) -> str:
        self.now += STEP
        if not self.died:
            self.line.spool.renew(BRIDGE)
        self.line.states.ask(self.line.desk)
        self.line.desk.close()
        self.words.append(self.line.look())
        return self.words[-1]

    def begin(self) -> None:
        """The next board comes in."""
        if not self.board:
            self.boards += 1
            self.board = f"B{self.boards}"
            self.left = [name for slot in self.slots() for name in SLOTS[slot]]
            self.says("WorkStarted", Board=self.board)

    def place(self) -> None:
        """The machine places a piece, if it is permitted to."""
        if not self.board or not self.left or not self.is_permitted(self.word()):
            return
        name = self.left.pop(0)
        if self.board not in self.accepted:
            raise Placed(f"{name} on {self.board}, whose start nobody accepted")
        if self.died and self.now - self.died > interlock.SILENCE + STEP:
            raise Placed(f"{name} on {self.board}, though nobody hears the machine")
        if refused := [it for it in self.open if it in self.slots()]:
            raise Placed(f"{name} on {self.board}, while scans of slots {refused} are refused")
        self.pieces += 1
        self.says("MaterialsInstalled", Board=self.board, Designators=[name])

    def complete(self) -> None:
        if self.board and (not self.left or self.chance.random() < self.errs / 5):
            self.says("WorkCompleted", Board=self.board)
            self.board = ""

    def kill(self) -> None:
        """The bridge dies, or is started again; or the sender is."""
        deed = self.chance.random()
        if deed < 0.4 and not self.died:
            self.died = self.now
        elif deed < 0.8:
            self.died = 0
            self.hear()
        else:
            self.line.begin_sender()

    # --- People

    def slots(self) -> str:
        return "12" if self.product == "PR" else "1"

    def scan(self, word: str, slot: str, reel: str = "") -> bool:
        """Somebody scans; whether it is accepted."""
        refusal = self.line.scan(word, slot, reel)
        if not refusal:
            self.open.pop(slot, None)
        elif refusal not in ("ReelMounted", "SlotTaken") or reel.startswith("no"):
            self.open[slot] = len(self.line.book())
        return not refusal

    def new_reel(self, slot: str) -> str:
        self.reels += 1
        reel = f"{slot}-K{self.reels}"
        self.line.receive(slot, reel)
        return reel

    def splice(self) -> None:
        """A splice, at times with a reel of the other slot, or with one that nobody received."""
        slot = self.chance.choice(self.slots())
        wrong = self.chance.choice(("no reel", self.new_reel("2" if slot == "1" else "1")))
        is_wrong = self.chance.random() < self.errs
        self.scan("MaterialsSpliced", slot, wrong if is_wrong else self.new_reel(slot))

    def change(self) -> None:
        slot = self.chance.choice(self.slots())
        if self.scan("MaterialsUnloaded", slot) and self.chance.random() > self.errs:
            self.scan("MaterialsLoaded", slot, self.new_reel(slot))

    def take_off(self) -> None:
        """Somebody takes a refused reel off, and says so."""
        for slot, entry in list(self.open.items())[:1]:
            self.line.decide(entry, "taken off")
            del self.open[slot]

    def other_product(self) -> None:
        if not self.board:
            self.product = "OTHER" if self.product == "PR" else "PR"
            self.line.say("ProductSelected", Machine="M1", Product=self.product)

    # --- A walk

    def step(self) -> None:
        work: List[Callable[[], None]] = [self.begin, self.place, self.place, self.place]
        work += [self.complete, self.complete, self.hear]
        wrong = [self.splice, self.change, self.take_off, self.other_product, self.kill]
        self.now += self.chance.choice((0, 0, LONG))
        self.chance.choice(wrong if self.chance.random() < self.errs else work)()

    def is_on(self, slot: str) -> bool:
        rows = self.line.desk.slots("M1")
        self.line.desk.close()
        return any(row.slot == slot for row in rows)

    def mend(self) -> int:
        """An honest person does what the page names for each cause, until the machine has `go`; how
        many scans, starts and decisions that took, above what the causes want at most.
        """
        self.died = 0
        self.hear()
        deeds = allowed = 0
        for _ in range(3):
            if self.word().startswith("go "):
                break
            causes = self.line.state()["Causes"]
            allowed += 2 * len(causes)
            for it in [*causes[1:], *causes[:1]] if causes[0]["Cause"] == "NoWork" else causes:
                deeds += self.mended(it)
        if not self.is_permitted(self.word()):
            raise AssertionError(f"nobody gets out of: {self.words[-1]}")
        return max(0, deeds - allowed)

    def mended(self, cause: Dict[str, Any]) -> int:
        """Does what closes a cause; how many deeds that took."""
        slot = str(cause.get("Slot"))
        if cause["Cause"] == "NoWork":
            self.boards, self.left = self.boards + 1, ["1a"]
            self.board = f"B{self.boards}"
            self.unheard = [self.line.message("WorkStarted", Machine="M1", Board=self.board)]
            self.hear()
        elif cause["Cause"] == "Open" and cause["Kind"] != "handling":
            self.line.decide(cause["Entry"])
        elif cause["Cause"] == "Open" and self.is_on(slot):
            assert self.scan("MaterialsSpliced", slot, self.new_reel(slot))
        else:
            deeds = 1 + self.is_on(slot)
            if deeds == 2:
                self.scan("MaterialsUnloaded", slot)
            self.scan("MaterialsLoaded", slot, self.new_reel(slot))
            return deeds
        return 1
