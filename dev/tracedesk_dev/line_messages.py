"""The messages of a random stream: a line that can work, reels, and what is said to be where."""
from __future__ import annotations

import datetime
import json
import random
from typing import Any, NamedTuple

from tracedesk_dev.line_entries import ATTRIBUTES, LOADS, Body

MACHINES = ("M", "N")
SLOTS = {"A": {"1": "P", "2": "Q"}, "B": {"1": "Q", "3": "P"}}  # parts, by product
DESIGNATORS = {"1": ["R1", "R2"], "2": ["C1"], "3": ["D1", "D2"]}
REELS = {"P": ("P1", "P2", "P3", "P4"), "Q": ("Q1", "Q2", "Q3"), "T": ("T1",)}
LOTS = {"P1": "L1", "P2": "L1", "Q1": "L1"}  # the other reels are of L2
BOARDS = ("B1", "B2", "B3")
FIRST = datetime.datetime(2026, 3, 2, 6, 0)
LEVELS = ("1", "1", "1", "5a", "6")
MORE: tuple[Any, ...] = ("ü", 'a,b\t"c"', [1, None], "=1+1")  # a member that no message has
VALUES = (  # of attributes
    *("2614", 'Acme, "x"', "\\x41", "=1+1", "ü" * 200, "😀" * 200, "\x85"),
    *("x" * 201, "", 7, None, "a\tb", "\x7f", ["x"]),
)
SKIPPED: Body = {  # what a body may have beside the members of its kind
    **{"Reel": "P2", "Slot": "1", "Board": "B3", "Machine": "N", "Quantity": 1},
    **{"Designators": ["C1"], "Product": "B", "Rows": []},
}


class Step(NamedTuple):
    """What happens. `tell` is a request after which nothing else is asked. `share` says when a
    server is killed within a request: after this share of the time that requests take.
    """

    what: str  # ask, tell, restart, kill, killed
    target: str = ""
    body: bytes | None = None
    share: float = 0.0

    def __str__(self) -> str:
        if self.what not in ("ask", "tell", "killed"):
            return self.what
        share = f"killed after {self.share:.2f} of its time: " if self.what == "killed" else ""
        body = "" if self.body is None else " " + self.body.decode("utf-8", "backslashreplace")
        return f"{share}{'GET' if self.body is None else 'POST'} {self.target}{body}"


class LineMessages:
    """The steps of a stream so far, and what its next messages may name."""

    def __init__(self, seed: object) -> None:
        self.chance = random.Random(f"line {seed}")
        self.steps: list[Step] = []
        self.messages: list[bytes] = []
        self.reels: dict[tuple[str, str], list[str]] = {}  # that were said to be on a slot
        self.boards: dict[str, list[str]] = {it: [*BOARDS] for it in MACHINES}  # said to be started
        self.minute, self.count, self.is_set_up = 0, 0, False
        self.setup()
        self.is_set_up = True

    # --- Messages

    def message(self, word: str, body: Body, uid: str = "") -> bytes:
        """A message, mostly a little later than the one before."""
        self.count += 1
        self.minute += self.chance.choice((0, 0, 0, 1, 1, 7)) if self.chance.random() < 0.9 else 700
        at = self.minute
        if self.is_set_up:
            at += self.chance.choices((0, -9, 30_000), (92, 6, 2))[0]
        told: Body = {
            "MessageName": f"TraceDesk.{word}",
            "UniqueID": uid or f"u{self.count}",
            "Source": self.chance.choice(("S", 's, of "M"')),
            "TimeStamp": (FIRST + datetime.timedelta(minutes=at)).isoformat() + "Z",
            "MessageBody": body,
        }
        if self.chance.random() < 0.1:
            told["More"] = self.chance.choice(MORE)
        if self.chance.random() < 0.1:
            told["MessageBody"] = SKIPPED | body
        spaced = self.chance.random() < 0.1
        return json.dumps(told, ensure_ascii=spaced, indent=1 if spaced else None).encode()

    def ask(self, target: str, body: bytes | None = None) -> None:
        """A request, in which the server is killed now and then."""
        if self.chance.random() < 0.05:
            share = self.chance.uniform(0, 1.4)
            self.steps.append(Step("killed", target, body, share))
        else:
            self.steps.append(Step("ask", target, body))

    def send(self, message: bytes) -> None:
        self.messages.append(message)
        self.ask("/messages", message)

    def say(self, word: str, **body: Any) -> None:
        """A good message, unless the desk refuses it."""
        if word in LOADS:
            self.reels.setdefault((body["Machine"], body["Slot"]), []).append(body["Reel"])
        elif word == "WorkStarted":
            self.boards.setdefault(body["Machine"], []).append(body["Board"])
        self.send(self.message(word, body))

    def complete(self, machine: str) -> None:
        """The board in work, mostly."""
        for board in dict.fromkeys(self.boards.get(machine, BOARDS)[-2:]):
            self.say("WorkCompleted", Machine=machine, Board=board)

    def setup(self) -> None:
        """A line that can work, but for what is left out."""
        for part in "PQT":
            self.say("PartDefined", PartNumber=part)
        for product, machine in (("A", "M"), ("B", "M"), ("A", "N")):
            self.sheet(product, machine)
        for machine in MACHINES:
            self.say("ProductSelected", Machine=machine, Product="A")
        for part, reels in REELS.items():
            for reel in reels:
                self.receive(part, reel)
        for number, machine in enumerate(MACHINES, 1):
            for slot, part in SLOTS["A"].items():
                self.say("MaterialsLoaded", Machine=machine, Slot=slot, Reel=f"{part}{number}")
            self.say("WorkStarted", Machine=machine, Board=f"B{number}")
        left_out = self.chance.sample(range(len(self.steps)), self.chance.choice((0, 0, 1, 2, 7)))
        its = [
            it._replace(what="tell") if it.what == "ask" else it
            for at, it in enumerate(self.steps)
            if at not in left_out
        ]
        self.steps = its

    def sheet(self, product: str, machine: str) -> None:
        rows = [
            {"Slot": slot, "PartNumber": part, "Designators": DESIGNATORS[slot]}
            for slot, part in SLOTS[product].items()
        ]
        self.say("SheetDefined", Product=product, Machine=machine, Rows=rows)

    def receive(self, part: str, reel: str) -> None:
        level = self.chance.choice(LEVELS)
        label = {"LabelMinutes": 900} if level == "6" else {}
        its = {"Reel": reel, "PartNumber": part, "Lot": LOTS.get(reel, "L2"), "Level": level}
        quantity = self.chance.choice((1, 4, 50))
        self.say("ReelReceived", **its, Quantity=quantity, **label, **self.attributes())
        if level == "6" and self.chance.random() < 0.7:
            self.say("ReelBaked", Reel=reel)

    def attributes(self) -> Body:
        """Those of a reel, now and then."""
        if self.chance.random() < 0.8:
            return {}
        some = self.chance.sample(ATTRIBUTES, self.chance.randint(1, 4))
        return {it: self.chance.choice(VALUES) for it in some}

    def reel(self, slot: str) -> str:
        """A reel, mostly of the part that the slot has in product A."""
        part = SLOTS["A"].get(slot, "P")
        if self.chance.random() < 0.2:
            part = self.chance.choice("PQT")
        return "X9" if self.chance.random() < 0.07 else self.chance.choice(REELS[part])

    def slot(self) -> str:
        return self.chance.choices(("1", "2", "3", "4"), (5, 5, 2, 1))[0]

    def machine(self) -> str:
        return self.chance.choices(("M", "N", "O"), (12, 4, 1))[0]

    def fresh(self, slot: str) -> str:
        """A new reel for a slot of product A."""
        part = SLOTS["A"][slot]
        its = {"Reel": f"{part}{self.count}", "PartNumber": part, "Level": "1"}
        its |= {"Lot": self.chance.choice(("L1", "L2"))}
        quantity = self.chance.choice((1, 2, 50))
        self.say("ReelReceived", **its, Quantity=quantity, **self.attributes())
        return its["Reel"]
