"""Random streams of what happens to a line: messages of all kinds, good, refused, faulty and sent
again, reels as machines name them, decisions, holds, releases, files, restarts and kills. The same
seed gives the same stream.
"""
from __future__ import annotations

import datetime
import json
from typing import Any, Callable

from tracedesk_dev.line_entries import Body
from tracedesk_dev.line_messages import (
    BOARDS,
    DESIGNATORS,
    FIRST,
    MACHINES,
    SLOTS,
    LineMessages,
    Step,
)
from tracedesk_dev.line_model import TOLD

GETS = ("/overdue", "/slots?machine=M", "/reel?reel=P1", "/none")
GETS_OF_LINE = ("/line/state", "/line/book", "/line/none")
DEEP = b"[" * 126 + b"]" * 126  # in a body, one more than a message may nest


class Stream(LineMessages):
    """A stream, step by step."""

    def __init__(self, seed: object, length: int) -> None:
        super().__init__(seed)
        weights = {name: weight for name, (weight, _) in KINDS.items()}
        for name in self.chance.choices(list(weights), list(weights.values()), k=length):
            KINDS[name][1](self)

    def handling(self) -> None:
        slot = self.slot()
        word = self.chance.choices(("Loaded", "Spliced", "Unloaded"), (5, 3, 3))[0]
        reel = {} if word == "Unloaded" else {"Reel": self.reel(slot)}
        self.say(f"Materials{word}", Machine=self.machine(), Slot=slot, **reel)

    def change(self) -> None:
        """A slot is unloaded, and loaded."""
        slot, machine = self.slot(), self.machine()
        self.say("MaterialsUnloaded", Machine=machine, Slot=slot)
        self.say("MaterialsLoaded", Machine=machine, Slot=slot, Reel=self.reel(slot))

    def ready(self) -> tuple[str, str]:
        """All that a machine needs to work, and a board on it."""
        machine = self.machine()
        self.complete(machine)
        for slot in SLOTS["A"]:
            reel = self.fresh(slot)
            self.say("MaterialsUnloaded", Machine=machine, Slot=slot)
            self.say("MaterialsLoaded", Machine=machine, Slot=slot, Reel=reel)
        board = f"B{self.count}"
        self.say("WorkStarted", Machine=machine, Board=board)
        return machine, board

    def compare(self) -> None:
        """A board for whose pieces the machine names reels."""
        machine, board = self.ready()
        for slot in self.chance.sample(["1", "1", "2"], self.chance.randint(0, 2)):
            self.say("MaterialsSpliced", Machine=machine, Slot=slot, Reel=self.fresh(slot))
        names = self.chance.sample(["R1", "R2", "C1"], 3)
        parts = self.chance.choice(([names], [names[:1], names[1:]], [names[:2], names[2:]]))
        for some in parts:
            its = {"Machine": machine, "Board": board, "Designators": some}
            self.say("MaterialsInstalled", **its, MachineReels=self.named(machine, some))
            if self.chance.random() < 0.3:
                self.decide()
            if self.chance.random() < 0.3:
                slot = self.slot()
                self.say("MaterialsSpliced", Machine=machine, Slot=slot, Reel=self.reel(slot))

    def named(self, machine: str, names: list[str]) -> Any:
        """The reels that a machine names for these designators, mostly some that were on their
        slots.
        """
        slots = {name: slot for slot, its in DESIGNATORS.items() for name in its}
        last = {
            slot: self.chance.choice(self.reels.get((machine, slot), ["P1"])[-3:])
            for slot in DESIGNATORS
        }
        reels: list[Any] = [last[slots[it]] for it in names]
        if self.chance.random() < 0.3:
            reels[-1] = self.chance.choice((None, "X9", "P2"))
        bad: tuple[Any, ...] = (7, "", " x", "x" * 65, "ü", [], True)
        wrong: tuple[Any, ...] = (
            None,
            "P1",
            {},
            7,
            [],
            reels[1:],
            [*reels, "P1"],
            *([it, *reels[1:]] for it in bad),
        )
        return self.chance.choice(wrong) if self.chance.random() < 0.2 else reels

    def work(self) -> None:
        word = self.chance.choice(("WorkStarted", "WorkCompleted"))
        self.say(word, Machine=self.machine(), Board=self.chance.choice(BOARDS))

    def install(self) -> None:
        names = [name for slot in DESIGNATORS.values() for name in slot]
        some = self.chance.sample(names[:3], self.chance.choice((1, 1, 2)))
        some = self.chance.sample(names, 3) if self.chance.random() < 0.1 else some
        board = self.chance.choice(BOARDS)
        self.say("MaterialsInstalled", Machine=self.machine(), Board=board, Designators=some)

    def scrap(self) -> None:
        its = {"Machine": self.machine(), "Slot": self.slot()}
        self.say("MaterialsScrapped", **its, Quantity=self.chance.choice((1, 2, 5)))

    def other(self) -> None:
        """A message that makes no entry, whatever its answer is."""
        reel = self.reel(self.slot())
        word = self.chance.choice(("Opened", "Sealed", "Baked", "count", "clock", "part", "none"))
        if word == "count":
            counts = [{"Reel": reel, "Quantity": self.chance.choice((0, 2, 8))}]
            self.say("CountsTaken", Counts=counts)
        elif word == "clock":
            self.minute += self.chance.choice((1, 600, 1500, 9000))
            self.say("ClockSet")
        elif word == "part":
            self.say("AlternateAllowed", **dict(zip(("PartNumber", "Alternate"), "PQ")))
        elif word == "none":
            self.say("PartsDefined", PartNumber="P")
        else:
            self.say(f"Reel{word}", Reel=reel)

    def product(self) -> None:
        machine, product = self.machine(), self.chance.choice("AB")
        if self.chance.random() < 0.2:
            self.sheet(product, machine)
        self.say("ProductSelected", Machine=machine, Product=product)

    def away(self) -> None:
        """Another product for a while. What is open at a slot that its sheet doesn't have stops
        nothing until the first product is back.
        """
        machine = self.chance.choice(MACHINES)
        self.say("MaterialsLoaded", Machine=machine, Slot=self.slot(), Reel="X9")
        self.complete(machine)
        self.say("ProductSelected", Machine=machine, Product="B")
        if self.chance.random() < 0.5:
            self.handling()
        self.say("ProductSelected", Machine=machine, Product="A")

    def again(self) -> None:
        """A message once more: the same bytes, its command under another UniqueID, or another
        command under its UniqueID.
        """
        first = self.chance.choice(self.messages[-12:])
        try:
            told = json.loads(first.decode())
            word, body = told["MessageName"].removeprefix("TraceDesk."), dict(told["MessageBody"])
        except (ValueError, TypeError, LookupError, AttributeError):
            return self.send(first)
        kind = self.chance.choices(("bytes", "command", "uid"), (5, 5, 1))[0]
        if kind == "bytes":
            self.send(first)
        elif kind == "command":
            self.send(self.message(word, body))
        else:
            its = {"Machine": "M", "Slot": "1", "Reel": "P1"}
            self.send(self.message("MaterialsLoaded", its, str(told.get("UniqueID"))))

    def faulty(self) -> None:
        """A message with a fault."""
        its = {"Machine": "M", "Slot": self.slot(), "Reel": "P1", "Board": "B1", "Quantity": 1}
        word = self.chance.choice(
            ("MaterialsLoaded", "WorkStarted", "MaterialsScrapped", "ReelOpened")
        )
        good = self.message(word, its)
        told = json.loads(good)
        changes: tuple[Body, ...] = (
            *({name: 7} for name in told),
            *({name: " x"} for name in told),
            {"MessageBody": {**its, self.chance.choice(list(its)): 2.5}},
            {"MessageBody": {**its, "Quantity": 10**8}},
        )
        bad = (
            *(good[:-1], b"\\" + good, good.replace(b"P1", b"\0")),
            *(good.replace(b'"S', b'"' + it) for it in (b"\xff", b"\xed\xa0\x80")),
            *(good.replace(b"1}", it + b"}") for it in (b"1e999", b"NaN", DEEP)),
            *(b"[1,\n2]", b"", b" \r\n", b"7", b"{}"),
        )
        changed = json.dumps({**told, **self.chance.choice(changes)}).encode()
        self.send(self.chance.choice(bad) if self.chance.random() < 0.6 else changed)

    def decide(self) -> None:
        last = max(2, (len(self.steps) - 20) * 3 // 5)  # there are about so many entries
        of = self.chance.randint(self.chance.choice((1, last // 2, last // 2)), last + 2)
        became = self.chance.choice(("scrapped", 'looked at, and "good"', "x" * 1000, "gut für M"))
        self.ask("/line/decisions", self.spelled({"Of": of, "Became": became}))

    def hold(self) -> None:
        what = self.chance.choice(("holds", "releases"))
        kind = self.chance.choice(("reel", "lot"))
        name = self.chance.choice(("P1", "P2", "Q1") if kind == "reel" else ("L1", "L2"))
        word = "Hold" if what == "holds" else "Release"
        self.ask(f"/line/{what}", self.spelled({word: kind, "Name": name}))

    def spelled(self, its: Body) -> bytes:
        its = its | {"By": "A. Person", "Reason": self.chance.choice(("because", "a\\b"))}
        if self.chance.random() < 0.3:
            its["More"] = [7]
            its = dict(self.chance.sample(list(its.items()), len(its)))
        return json.dumps(its, ensure_ascii=self.chance.random() < 0.5).encode()

    def misspelled(self) -> None:
        """A decision, a hold or a release with a fault."""
        its = {"Of": 1, "Became": "x", "Hold": "lot", "Release": "reel", "Name": "P1"}
        its |= {"By": "b", "Reason": "r"}
        values: tuple[Any, ...] = (
            None,
            *(0, -1, 7, 2**64, 1.0),
            "",
            " x",
            "x\n",
            "\x7f",
            "ü" * 501,
            "x" * 1001,
            "lots",
            {},
            True,
        )
        its[self.chance.choice(list(its))] = self.chance.choice(values)
        if self.chance.random() < 0.3:
            del its[self.chance.choice(list(its))]
        bad = (b"", b"{", b"7", b"[]", b'{"Of":1,"By":"\xff"}')
        body = self.chance.choice(bad) if self.chance.random() < 0.2 else json.dumps(its).encode()
        self.ask(f"/line/{self.chance.choice(list(TOLD))}", body)

    def file(self) -> None:
        """A count file, or a setup file."""
        self.count += 1
        at = (FIRST + datetime.timedelta(minutes=self.minute)).isoformat()
        options = f"id=f{self.count}&source=S&time={at}Z"
        if self.chance.random() < 0.5:
            counted = f"reel,quantity\n{self.reel('1')},{self.chance.choice((0, 2, 8))}\n"
            self.ask(f"/imports/counts?{options}", counted.encode())
        else:
            rows = "1,P,R1 R2\n2,Q,C1\n" + ("4,T,E1\n" if self.chance.random() < 0.5 else "")
            target = f"/imports/setup?{options}&product=A&machine={self.machine()}"
            self.ask(target, ("slot,part,designators\n" + rows).encode())

    def get(self) -> None:
        self.ask(self.chance.choice((*GETS, *GETS_OF_LINE)))

    def restart(self) -> None:
        self.steps.append(Step(self.chance.choice(("restart", "kill"))))


KINDS: dict[str, tuple[int, Callable[[Stream], object]]] = {
    **{"handling": (18, Stream.handling), "change": (5, Stream.change), "work": (12, Stream.work)},
    **{"install": (8, Stream.install), "scrap": (4, Stream.scrap), "other": (7, Stream.other)},
    **{"product": (5, Stream.product), "again": (12, Stream.again), "faulty": (6, Stream.faulty)},
    **{"decide": (9, Stream.decide), "hold": (7, Stream.hold), "file": (2, Stream.file)},
    **{
        "misspelled": (3, Stream.misspelled),
        "get": (1, Stream.get),
        "compare": (6, Stream.compare),
    },
    **{"restart": (4, Stream.restart), "ready": (4, Stream.ready), "away": (3, Stream.away)},
}


def stream(seed: object, length: int = 24) -> list[Step]:
    return Stream(seed, length).steps
