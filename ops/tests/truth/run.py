"""What happens at a machine and its tablet, and what their senders say of it."""
import json
import random
from typing import Any, Optional

from tracedesk import desk as desks
from tracedesk_ops import doubts, entries, untraced
from truth.sources import Source
from truth.world import BEGIN, Clock, Place

ROUNDS, SETTLE = 26, 3  # minutes of a run, and at its end those in which no reel is changed
SLOTS = {"1": ("C1", "C2", "C3"), "2": ("D1", "D2")}
DESIGNATORS = {name: slot for slot, names in SLOTS.items() for name in names}
NAMED = "MachineReels"  # the member by which a machine names its reels
MANY_LABELS = (10, 500, 500, 500)
LIES = (-1, 0, 0, 0, 1)  # by how many pieces a label is wrong


class Run:
    """A machine with a tablet."""

    def __init__(self, name: str, place: Place, desk: desks.Desk, seed: str) -> None:
        self.name, self.random = name, random.Random(seed)
        self.numbers = self.boards = self.traced = self.of_lots = self.besides = 0
        self.reels: dict[str, list[Any]] = {}  # of each its lot, and the pieces that are left
        self.truth: list[tuple[str, str, str]] = []  # board, designator, reel
        # The reels on each slot, the one in front first.
        self.slots: dict[str, list[str]] = {slot: [] for slot in SLOTS}
        self.names_reels = self.random.random() < 0.5  # the machine, in its installs
        self.swaps = 0
        self.completed: Optional[tuple[str, bytes]] = None  # the last board, and its start
        self.desk = desk
        self.worked: dict[str, int] = {}  # the minute of each board
        self.scrapped: set[str] = set()  # boards that nobody has any more
        self.sources = {
            its: Source(place.spools / f"{name}-{its}", f"{name}-{its}", desk)
            for its in ("machine", "tablet")
        }
        self.is_out = {its: False for its in self.sources}
        self.told: list[tuple[Any, ...]] = []  # for who looks at a failed run

    def message(self, word: str, **body: Any) -> bytes:
        self.numbers += 1
        envelope = {
            "MessageName": f"TraceDesk.{word}",
            "UniqueID": f"{self.name}-{self.numbers}",
            "Source": self.name,
            "TimeStamp": Clock.text(),
            "MessageBody": body,
        }
        return json.dumps(envelope).encode()

    def setup(self) -> list[bytes]:
        """What the desk is told before the first minute."""
        rows = [
            {"Slot": slot, "PartNumber": "P", "Designators": list(names)}
            for slot, names in SLOTS.items()
        ]
        said = [
            self.message("SheetDefined", Product="A", Machine=self.name, Rows=rows),
            self.message("ProductSelected", Machine=self.name, Product="A"),
        ]
        for number in range(self.random.randint(6, 9)):
            said += self.received(number)
        return said

    def received(self, number: int) -> list[bytes]:
        """A reel that is there. Some are of another part, and some nobody said to the desk, or
        baked."""
        reel, pieces = f"{self.name}-K{number}", self.random.choice((5, 9, 20, 60))
        part = "Q" if self.random.random() < 0.05 else "P"
        label = self.random.choice(MANY_LABELS)
        lot = f"{self.name}-{part}{number % 3}"
        self.reels[reel] = [lot, pieces]
        if self.random.random() >= 0.97:
            return []
        label_says = pieces + self.random.choice(LIES)
        body = {"Reel": reel, "PartNumber": part, "Lot": lot, "Level": "6", "Quantity": label_says}
        said = [self.message("ReelReceived", **body, LabelMinutes=label)]
        if self.random.random() < 0.97:
            said.append(self.message("ReelBaked", Reel=reel))
        return said

    # --- Senders

    def say(self, source: str, *messages: bytes) -> None:
        """Keeps messages in a spool, and sends what is there unless it is out."""
        for message in messages:
            self.sources[source].put(message)
        self.send(source)

    def send(self, source: str) -> None:
        if self.is_out[source]:
            return
        if self.random.random() < 0.05:
            self.sources[source].end()
        kill_after = self.random.randint(0, 60) if self.random.random() < 0.03 else None
        self.sources[source].send(kill_after)

    def in_any_order(self) -> list[str]:
        return sorted(self.sources, key=lambda _: self.random.random())

    # --- A minute of it

    def minute(self, is_quiet: bool) -> None:
        if self.random.random() < (0.4 if any(self.is_out.values()) else 0.06):
            source = self.random.choice(tuple(self.sources))
            self.is_out[source] = not self.is_out[source]
            self.send(source)
        deed = self.random.random()
        if deed < 0.25 and not is_quiet:
            self.change(self.any_slot())
        elif deed < 0.35 and not is_quiet:
            self.handle("MaterialsSpliced", self.any_slot())
        elif deed < 0.40:
            self.scrap(self.any_slot())
        elif deed < 0.50 and self.names_reels and not is_quiet:
            self.swap(self.any_slot())
        elif deed < 0.95:
            self.board()
        if self.random.random() < 0.05:
            self.decide()

    def any_slot(self) -> str:
        return self.random.choice(tuple(SLOTS))

    def swap(self, slot: str) -> None:
        """A reel is changed, and nobody scans anything. Only a machine that names its reels can
        tell.
        """
        if free := self.free():
            self.slots[slot] = [self.random.choice(free)]
            self.swaps += 1
            self.told.append((Clock.minute - BEGIN, "swapped", slot, *self.slots.items()))

    def free(self) -> list[str]:
        mounted = {reel for reels in self.slots.values() for reel in reels}
        return [reel for reel, (_, left) in self.reels.items() if left and reel not in mounted]

    def handle(self, word: str, slot: str) -> None:
        """A reel is put on a slot and scanned. What is refused is taken off again, or stays."""
        if not (free := self.free()):
            return
        reel, before = self.random.choice(free), list(self.slots[slot])
        self.told.append((Clock.minute - BEGIN, word, slot, reel, *self.slots.items()))
        self.slots[slot] = [*(before if word == "MaterialsSpliced" else []), reel]
        self.say("tablet", self.message(word, Machine=self.name, Slot=slot, Reel=reel))
        is_known_refused = not self.is_out["tablet"] and not self.sources["tablet"].accepted()
        if is_known_refused and self.random.random() < 0.7:
            self.slots[slot] = before
            if self.random.random() < 0.5:
                self.taken_off()

    def taken_off(self) -> None:
        """Somebody decides of the refused reel that it was taken off."""
        kept = self.sources["tablet"].spool
        if names := kept.names("aside"):
            self.decided(self.entries_of(kept.message(names[-1]))[-1:], doubts.TAKEN_OFF)

    def book(self) -> list[entries.BookEntry]:
        """What the line's book has of this machine."""
        _, body, _ = self.desk.once("GET", "/line/book?after=0", None, {})
        return [its for its in entries.told(body.decode())[0] if its.machine == self.name]

    def entries_of(self, message: dict[str, Any]) -> list[int]:
        """The entries of a refused message; one that is like an open one has none of its own."""
        body = message["MessageBody"]
        names = [body.get(name, "") for name in ("Board", "Slot", "Reel")]
        return [
            its.n
            for its in self.book()
            if its.kind in untraced.REFUSALS
            and (its.uid == message["UniqueID"] or [its.board, its.slot, its.reel] == names)
        ]

    def decided(self, numbers: list[int], became: str) -> None:
        """A person decides about entries of the book."""
        for of in numbers:
            said = {"Of": of, "Became": became, "By": "A. Person", "Reason": "saw it"}
            self.desk.once("POST", "/line/decisions", json.dumps(said).encode(), {})

    def change(self, slot: str) -> None:
        """A reel is taken off a slot, and another one put there. Some forget to scan what they take
        off."""
        if self.random.random() < 0.95:
            self.slots[slot] = []
            self.say("tablet", self.message("MaterialsUnloaded", Machine=self.name, Slot=slot))
        self.handle("MaterialsLoaded", slot)

    def take(self, slot: str) -> Optional[str]:
        """The piece that comes off a slot, by its reel; none where it is empty."""
        for reel in self.slots[slot]:
            if self.reels[reel][1]:
                self.reels[reel][1] -= 1
                return reel
        return None

    def board(self) -> None:
        """A board is worked, in two parts."""
        self.boards += 1
        self.worked[f"{self.name}-B{self.boards}"] = Clock.minute
        board, machine = f"{self.name}-B{self.boards}", self.sources["machine"]
        at = {"Machine": self.name, "Board": board}
        self.begin_anew()
        start = self.message("WorkStarted", **at)
        self.say("machine", start)
        half = self.random.randint(0, len(DESIGNATORS))
        for names in (tuple(DESIGNATORS)[:half], tuple(DESIGNATORS)[half:]):
            placed = [name for name in names if self.place_one(board, name)]
            if placed:
                body: dict[str, Any] = {**at, "Designators": placed}
                if self.names_reels:
                    body[NAMED] = [reel for _, _, reel in self.truth[-len(placed) :]]
                self.say("machine", self.message("MaterialsInstalled", **body))
            if self.random.random() < 0.1:  # the machine was switched off, and says where it was
                self.say("machine", start)
        self.say("machine", self.message("WorkCompleted", **at))
        is_done = not self.is_out["machine"] and machine.accepted()
        self.completed = (board, start) if is_done else None

    def begin_anew(self) -> None:
        """A machine that was switched off says its last start again, though the board is completed:
        the desk repeats its answer. Not where a restored desk has refused that start since: then it
        is a new one."""
        board, start = self.completed or ("", b"")
        is_known = bool(board) and bool(self.sources["machine"].start_of(board))
        if is_known and not self.is_out["machine"] and self.random.random() < 0.1:
            self.say("machine", start)

    def place_one(self, board: str, designator: str) -> Optional[str]:
        reel = self.take(DESIGNATORS[designator])
        if reel:
            self.truth.append((board, designator, reel))
            self.told.append((Clock.minute - BEGIN, board, designator, reel))
        return reel

    def scrap(self, slot: str) -> None:
        many = sum(self.take(slot) is not None for _ in range(self.random.randint(1, 3)))
        if many:
            at = {"Machine": self.name, "Slot": slot}
            self.say("machine", self.message("MaterialsScrapped", **at, Quantity=many))

    # --- Persons

    def decide(self) -> None:
        """A person decides about what was refused: what became of a board; that a request is sent
        again."""
        machine = self.sources["machine"].spool
        if names := [name for name in machine.names("aside") if machine.is_report(name)]:
            self.decided(self.entries_of(machine.message(names[-1]))[-1:], "reworked")
        if self.random.random() < 0.3:
            self.send_request_again()

    def send_request_again(self) -> None:
        """The slot has to be as the request says."""
        tablet = self.sources["tablet"].spool
        if names := tablet.names("aside"):
            body = tablet.message(names[-1])["MessageBody"]
            if body.get("Reel") in self.slots.get(body.get("Slot"), ()):
                tablet.again(names[-1:])
                self.send("tablet")

    def begin_again(self, minute: int) -> None:
        """Entries of the book since this minute are missing, by which boards were in doubt: all of
        these are scrapped, and each reel is taken off and scanned anew.
        """
        self.scrapped |= {board for board, at in self.worked.items() if at >= minute}
        for slot in SLOTS:
            self.slots[slot] = []
            self.say("tablet", self.message("MaterialsUnloaded", Machine=self.name, Slot=slot))

    def settle(self) -> None:
        for source in self.in_any_order():
            self.is_out[source] = False
            self.send(source)
        for its in self.sources.values():
            its.end()
