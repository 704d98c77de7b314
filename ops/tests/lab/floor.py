"""Random messages of a small shop floor, so that many are accepted and many are not."""
import json
import random
from typing import Any, Callable, Iterable, Iterator

from lab.messages import Message
from tracedesk_ops import catalogue

LEVELS = ("1", "2", "2a", "3", "4", "5", "5a", "6")
MACHINES, PRODUCTS, SLOTS = ("M 1", "M2"), ("PR", "P&S"), ("1", "2", "3+")
PARTS = ("A", "B", "C", "D,E")
OLD_BOARDS = tuple(f"B{n}" for n in range(4))
STEPS = (0, 0, 0, 1, 5, 60, 400, 1_400, 5_000)  # minutes between two messages
WEIGHTS = {  # a few words come often, as they do on a line
    "ReelReceived": 4,
    "ReelOpened": 4,
    "ReelSealed": 5,
    "ReelBaked": 3,
    "MaterialsLoaded": 12,
    "MaterialsSpliced": 12,
    "MaterialsUnloaded": 1,
    "MaterialsScrapped": 2,
    "WorkStarted": 4,
    "MaterialsInstalled": 6,
    "WorkCompleted": 4,
    "CountsTaken": 2,
    "AlternateAllowed": 1,
    "SheetDefined": 1,
    "ProductSelected": 1,
    "ClockSet": 1,
}


def texts(messages: Iterable[Message]) -> list[bytes]:
    """The messages as lines."""
    return [json.dumps(message).encode() for message in messages]


def say(word: str, uid: str, minute: int, **body: Any) -> Message:
    """A message of its own, next to those of a floor."""
    return {
        "MessageName": f"TraceDesk.{word}",
        "UniqueID": uid,
        "Source": "T",
        "TimeStamp": catalogue.spelled(minute),
        "MessageBody": body,
    }


class Floor:
    """A floor goes on with each message. `reels` are those that a message may name."""

    def __init__(self, seed: int) -> None:
        self.random = random.Random(seed)
        self.minute, self.said = 28_000_000 + self.random.randrange(1000), 0
        self.reels: list[str] = []

    def envelope(self, word: str, prefix: str, body: dict[str, Any]) -> Message:
        self.said += 1
        is_clock = word == "ClockSet"
        self.minute += self.random.choice((0, 30_000, 300_000) if is_clock else STEPS)
        late = 0 if is_clock else self.random.choice((0, 0, 0, 0, 700))
        return {
            "MessageName": f"TraceDesk.{word}",
            "UniqueID": f"{prefix}{self.said}",
            "Source": "S",
            "TimeStamp": catalogue.spelled(self.minute - late),
            "MessageBody": body,
        }

    def any(self, prefix: str, boards: "tuple[str, ...]") -> Message:
        """A random message."""
        (word,) = self.random.choices(list(WEIGHTS), list(WEIGHTS.values()))
        return self.envelope(word, prefix, self.body(word, prefix, boards))

    def many(self, count: int, prefix: str, boards: "tuple[str, ...]") -> list[Message]:
        return [self.any(prefix, boards) for _ in range(count)]

    def set_up(self) -> Iterator[Message]:
        for part in PARTS:
            yield self.envelope("PartDefined", "o", {"PartNumber": part})
        for product in PRODUCTS:
            for machine in MACHINES:
                body = {"Product": product, "Machine": machine, "Rows": self.sheet()}
                yield self.envelope("SheetDefined", "o", body)
        for machine in MACHINES:
            body = {"Machine": machine, "Product": self.random.choice(PRODUCTS)}
            yield self.envelope("ProductSelected", "o", body)

    # --- Bodies

    def body(self, word: str, prefix: str, boards: "tuple[str, ...]") -> dict[str, Any]:
        choice, number = self.random.choice, self.random.randint
        bodies: dict[str, Callable[[], dict[str, Any]]] = {
            "ReelReceived": lambda: self.received(prefix),
            "ReelOpened": self.reel,
            "ReelSealed": self.reel,
            "ReelBaked": self.reel,
            "MaterialsLoaded": lambda: {**self.slot(), **self.reel()},
            "MaterialsSpliced": lambda: {**self.slot(), **self.reel()},
            "MaterialsUnloaded": self.slot,
            "MaterialsScrapped": lambda: {**self.slot(), "Quantity": number(1, 6)},
            "WorkStarted": lambda: self.work(boards),
            "MaterialsInstalled": lambda: {
                **self.work(boards),
                "Designators": [f"R{number(0, 2)}{number(0, 3)}"],
            },
            "WorkCompleted": lambda: self.work(boards),
            "CountsTaken": lambda: {"Counts": [{**self.reel(), "Quantity": choice((0, 1, 7, 50))}]},
            "AlternateAllowed": lambda: {"PartNumber": choice(PARTS), "Alternate": choice(PARTS)},
            "SheetDefined": lambda: {**self.product(), "Rows": self.sheet()},
            "ProductSelected": self.product,
            "ClockSet": dict,
        }
        return bodies[word]()

    def reel(self) -> dict[str, Any]:
        return {"Reel": self.random.choice(self.reels) if self.reels else "none"}

    def slot(self) -> dict[str, Any]:
        return {"Machine": self.random.choice(MACHINES), "Slot": self.random.choice(SLOTS)}

    def work(self, boards: "tuple[str, ...]") -> dict[str, Any]:
        return {"Machine": self.random.choice(MACHINES), "Board": self.random.choice(boards)}

    def product(self) -> dict[str, Any]:
        return {"Machine": self.random.choice(MACHINES), "Product": self.random.choice(PRODUCTS)}

    def received(self, prefix: str) -> dict[str, Any]:
        self.reels.append(f"K{prefix}{len(self.reels)}")
        choice = self.random.choice
        return {
            "Reel": self.reels[-1],
            "PartNumber": choice(PARTS),
            "Lot": choice("LM"),
            "Level": choice(LEVELS),
            "Quantity": choice((1, 2, 5, 100, 10_000_000)),
            "LabelMinutes": choice((1, 60, 2_880, 525_600)),
        }

    def sheet(self) -> list[dict[str, Any]]:
        slots = self.random.sample(SLOTS, self.random.randint(1, len(SLOTS)))
        return [
            {
                "Slot": slot,
                "PartNumber": self.random.choice(PARTS),
                "Designators": [f"R{n}{k}" for k in range(self.random.randint(1, 4))],
            }
            for n, slot in enumerate(slots)
        ]
