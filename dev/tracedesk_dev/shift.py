"""A shift of a surface-mount line as the messages that its machines, its store, its oven and its
host send.

Used by dev/day, dev/faults/run damage, dev/bench/run day and tests. The same words give the same
bytes.

A line has a chip shooter of 40 slots and a second machine of 38, and makes two products with one
changeover. The day before, the host tells parts and sheets and the store receives reels. From 05:40
on reels are baked and loaded, and from 06:00 on boards go through both machines, one board behind
the other. On the way it happens what happens: reels are spliced before a tape runs out, a wrong
reel is scanned, a reel is scanned twice, pieces are scrapped, a shelf is counted, a message comes
late and some come twice, and the floor life of a reel ends while it is on its slot.

Beside each message stands the answer that it has to get, byte for byte: this file keeps books of
its own on the pieces and the floor life of each reel, which are much simpler than a desk's, since
it knows what it will do next.
"""
import collections
import dataclasses
import datetime
import random
from typing import Any

from tracedesk_dev.messages import Messages, Said

__all__ = ["MINUTES", "RECALLED", "Reel", "Said", "Shift"]
Row = tuple[str, str, list[str]]  # of a sheet: slot, part, designators

MINUTES = {"1": None, "2a": 40_320, "3": 10_080, "5a": 1_440, "6": 2_880}
CAPACITORS = "100N 10N 1N 1U 4U7 10U 22P 100P 220P 2N2 47N 470P".split()
RESISTORS = "10K 1K 4K7 100R 22R 0R 47K 100K 2K2 330R 1M 56R".split()
PASSIVES = [
    f"{kind}-{value}-{size}"
    for kind, values in (("CAP", CAPACITORS), ("RES", RESISTORS))
    for value in values
    for size in ("0402", "0603")
]
ACTIVES = [
    f"{kind}-{number}"
    for kind, first, last in (
        ("IC", 101, 118),
        ("DIO", 201, 210),
        ("IND", 301, 308),
        ("CON", 401, 412),
    )
    for number in range(first, last + 1)
]
ALTERNATES = {"CAP-100N-0402": "CAP-100N-0603", "RES-10K-0603": "RES-10K-0402"}
LETTERS = {"CAP": "C", "RES": "R", "IND": "L", "DIO": "D", "CON": "J", "IC-": "U"}
EXPIRING, BAKED = "IC-104", "IC-107"  # the part whose reel expires on its slot, and that of level 6
RECALLED = "LOT-C7731"
PLAN = (  # what happens besides, and the hour
    *((6.1, "heartbeat"), (6.6, "scanned_twice"), (7.2, "scrap"), (8.0, "heartbeat")),
    *((8.5, "count"), (8.9, "scrap_told_late"), (9.25, "network_break"), (9.8, "scrap")),
    *((11.0, "heartbeat"), (11.6, "scrap"), (12.4, "sealed"), (12.9, "network_break")),
)


@dataclasses.dataclass
class Reel:
    """`used` is the minutes out of the bag before it was last put back, and `since` is when it was
    taken out.
    """

    name: str
    part: str
    lot: str
    level: str
    left: int
    used: int = 0
    since: int | None = None

    def exposure(self, minute: int) -> int:
        return self.used + (minute - self.since if self.since is not None else 0)

    def minutes_left(self, minute: int) -> int | None:
        limit = MINUTES[self.level]
        return None if limit is None else max(0, limit - self.exposure(minute))

    def open(self, minute: int) -> None:
        self.since = minute if self.since is None else self.since

    def seal(self, minute: int) -> None:
        self.used, self.since = self.exposure(minute), None


class Shift(Messages):
    """`lines` are the messages in their order; `moments` says of some of them which line they are,
    from 0 on.
    """

    def __init__(
        self,
        seed: int = 1,
        boards: int = 300,
        line: str = "L1",
        serials: list[str] | None = None,
        day: str = "2026-03-03",
    ) -> None:
        begin = datetime.datetime.fromisoformat(day)
        super().__init__(f"{seed} {line}", begin, begin - datetime.timedelta(hours=18))
        self.line = line
        self.serials = serials or [f"{line}-{number:06}" for number in range(1, boards + 1)]
        self.machines = [f"{line}-M1", f"{line}-M2"]
        self.moments: dict[str, int] = {}
        self.facts: dict[str, Any] = {}  # what tests look for, by its name
        self.shelf: dict[str, list[Reel]] = collections.defaultdict(list)
        self.tapes: dict[tuple[str, str], list[Reel]] = {}
        self.sheets: dict[tuple[str, str], list[Row]] = {}
        self.received = 0
        self.host()
        self.store()
        self.work()

    # ---- the day before --------------------------------------------------------------------------
    def host(self) -> None:
        self.say("ClockSet", {}, "host")
        for part in PASSIVES + ACTIVES:
            self.say("PartDefined", {"PartNumber": part}, "host")
        for part, other in ALTERNATES.items():
            self.say("AlternateAllowed", {"PartNumber": part, "Alternate": other}, "host")
        for machine, parts, slots, others, most in (
            (0, PASSIVES, 40, 8, 6),
            (1, ACTIVES, 38, 10, 2),
        ):
            first = parts[:slots]
            second, moved = first[:], self.random.sample(range(slots // 2, slots), others)
            for slot, part in zip(moved, parts[slots:]):
                second[slot] = part
            self.sheet("CTRL-A", self.machines[machine], first, most)
            self.sheet("CTRL-B", self.machines[machine], second, most)
        self.select("CTRL-A")

    def sheet(self, product: str, machine: str, parts: list[str], most: int) -> None:
        taken = self.facts.setdefault(product, collections.Counter())
        rows: list[Row] = []
        for slot, part in enumerate(parts, 1):
            letter = LETTERS[part[:3]]
            first, count = taken[letter] + 1, 3 if slot == 12 else self.random.randint(1, most)
            taken[letter] += count
            rows.append((str(slot), part, [f"{letter}{first + more}" for more in range(count)]))
        self.sheets[product, machine] = rows
        told = [dict(zip(("Slot", "PartNumber", "Designators"), row)) for row in rows]
        self.say("SheetDefined", {"Product": product, "Machine": machine, "Rows": told}, "host")

    def select(self, product: str) -> None:
        self.product = product
        for machine in self.machines:
            self.say("ProductSelected", {"Machine": machine, "Product": product}, "host")

    def level(self, part: str) -> str:
        usual = {"I": "3" if part.startswith("IC") else "1", "D": "2a"}.get(part[0], "1")
        return {EXPIRING: "5a", BAKED: "6"}.get(part, usual)

    def receive(self, part: str, quantity: int, lot: str | None = None) -> Reel:
        self.received += 1
        name, lot = f"{self.line}-R{self.received:04}", lot or f"LOT-{part[0]}{self.received:04}"
        reel = Reel(name, part, lot, self.level(part), quantity)
        body: dict[str, object] = {"Reel": name, "PartNumber": part, "Lot": lot}
        body |= {"Level": reel.level, "Quantity": quantity}
        body |= {"LabelMinutes": 2_880} if reel.level == "6" else {}
        self.say("ReelReceived", body, "store")
        self.shelf[part].append(reel)
        return reel

    def store(self) -> None:
        self.at("-14:05")
        old = self.receive(EXPIRING, 900)
        self.at("-14:10")
        self.say("ReelOpened", {"Reel": old.name}, "store")
        old.open(self.minute)
        self.facts["expiring"] = old.name
        needs: collections.Counter[str] = collections.Counter()
        for product, share in (("CTRL-A", 0.67), ("CTRL-B", 0.33)):
            for machine in self.machines:
                for _slot, part, names in self.sheets[product, machine]:
                    needs[part] += round(len(self.serials) * share * len(names) * 1.1) + 40
        twelfth = self.sheets["CTRL-A", self.machines[0]][11][1]
        for part, need in needs.items():
            self.later(self.random.randint(10, 90))
            reels = [need] if self.random.random() < 0.7 else [need * 2 // 5, need * 3 // 5 + 1]
            reels = [need // 4, need] if part == twelfth else reels
            for quantity in reels + ([need] if part in (EXPIRING, BAKED) else []):
                self.receive(part, quantity)
        # the rest of a reel, which is recalled later: it stands behind the first reel of its part
        self.facts["recalled"] = self.receive(twelfth, 45, RECALLED).name
        self.shelf[twelfth].insert(1, self.shelf[twelfth].pop())

    # ---- the shift -------------------------------------------------------------------------------
    def work(self) -> None:
        boards, changeover = self.serials, len(self.serials) * 2 // 3
        self.at("05:40")
        for reel in self.shelf[BAKED]:
            self.bake(reel)
        self.fill_all(first=True)
        self.pace = 7.2 * 3600 / (len(boards) + 2)
        hour = datetime.timedelta(hours=1)
        self.due = [(self.day + hours * hour, name) for hours, name in PLAN]
        self.at("06:00")
        self.produce(boards[:changeover])
        self.moments["changeover"] = self.change_over("CTRL-B")
        self.produce(boards[changeover:])
        self.happen(everything=True)
        self.end_of_shift()

    def happen(self, everything: bool = False) -> None:
        while self.due and (everything or self.due[0][0] <= self.now):
            getattr(self, self.due.pop(0)[1])()

    def produce(self, names: list[str]) -> None:
        """Boards one behind the other: while one is on the second machine, the next is on the
        first.
        """
        for turn in range(len(names) + 1):
            places = [(it, turn - place) for place, it in enumerate(self.machines)]
            pairs = [(it, names[at]) for it, at in places if 0 <= at < len(names)]
            self.happen()
            self.fill_all()
            expires = self.expires_now()
            for machine, board in pairs:
                self.start(machine, board)
                self.later(1)
            self.later(self.pace * 0.75 if not expires else 65)
            for machine, board in pairs:
                self.install(machine, board)
            for machine, board in pairs:
                self.say("WorkCompleted", {"Machine": machine, "Board": board}, machine)
            self.later(self.pace * 0.25 + self.random.uniform(-1, 1) * self.pace * 0.05)

    def expires_now(self) -> bool:
        """The floor life of the 5a reel ends at 10:10: the board that is started just before gets
        its piece after it.
        """
        before = self.day.replace(hour=10, minute=9, second=10)
        early = before - datetime.timedelta(seconds=1.1 * self.pace + 30)
        if "expired" in self.facts or not early <= self.now <= before:
            return False
        self.facts["expired"], self.now = True, before
        return True

    def start(self, machine: str, board: str) -> None:
        body = {"Machine": machine, "Board": board}
        its = (slot for slot, part, _ in self.sheets[self.product, machine] if part == EXPIRING)
        slot = next(its, "")
        tape = self.tapes.get((machine, slot), [])
        is_old = bool(tape) and tape[0].name == self.facts["expiring"]
        if not is_old or self.now < self.day.replace(hour=10, minute=10):
            self.say("WorkStarted", body, machine)
            return
        number = self.say("WorkStarted", body, machine, refusal=("Expired", slot))
        self.moments["expired"] = number
        self.later(40)
        self.say("MaterialsUnloaded", {"Machine": machine, "Slot": slot}, machine)
        self.tapes.pop((machine, slot))
        self.load(machine, slot, EXPIRING)
        self.say_again(number)

    def install(self, machine: str, board: str) -> None:
        """Each machine tells of its pieces in two messages, in the order of its program."""
        sheet = self.sheets[self.product, machine]
        slot_of = {name: slot for slot, _part, names in sheet for name in names}
        order = random.Random(f"{machine} {self.product}").sample(list(slot_of), len(slot_of))
        half = len(order) // 2
        for part in (order[:half], order[half:]):
            reels = [self.take(machine, slot_of[name], 1) for name in part]
            body = {"Machine": machine, "Board": board, "Designators": part}
            self.say("MaterialsInstalled", body, machine, Reels=reels)

    def take(self, machine: str, slot: str, pieces: int) -> str:
        """Takes pieces off a slot, reel after reel; the name of the last reel."""
        tape, name = self.tapes[machine, slot], ""
        while pieces:
            some, name = min(pieces, tape[0].left), tape[0].name
            tape[0].left -= some
            pieces -= some
            if not tape[0].left:
                tape.pop(0)
        return name

    def left(self, machine: str, slot: str) -> int:
        return sum(reel.left for reel in self.tapes.get((machine, slot), []))

    def bake(self, reel: Reel) -> None:
        self.say("ReelBaked", {"Reel": reel.name}, "oven")
        reel.used, reel.since = 0, None

    def load(self, machine: str, slot: str, part: str, word: str = "MaterialsLoaded") -> None:
        if not self.shelf[part]:
            reel = self.receive(part, 2_000)
            if reel.level == "6":
                self.bake(reel)
        reel = self.shelf[part].pop(0)
        left = reel.minutes_left(self.effective())
        body = {"Machine": machine, "Slot": slot, "Reel": reel.name}
        number = self.say(word, body, machine, MinutesLeft=left)
        reel.open(self.minute)
        self.tapes.setdefault((machine, slot), []).append(reel)
        if reel.name == self.facts["recalled"]:
            self.moments["recalled_spliced"] = number

    def fill_all(self, first: bool = False) -> None:
        """Each slot has the pieces of two boards more: else a reel is loaded, or spliced to the
        tape that runs out.
        """
        for machine in self.machines:
            for slot, part, names in self.sheets[self.product, machine]:
                if first and machine == self.machines[0] and slot == "17":
                    self.wrong_reel(machine, slot)
                while (held := self.left(machine, slot)) < 3 * len(names):
                    if held and "before_splice" not in self.moments:
                        self.moments["before_splice"] = len(self.lines)
                        self.facts["spliced"] = (machine, slot)
                    word = "MaterialsSpliced" if held else "MaterialsLoaded"
                    self.load(machine, slot, part, word)
                if first:
                    self.later(8)

    # ---- what happens besides --------------------------------------------------------------------
    def wrong_reel(self, machine: str, slot: str) -> None:
        """The operator takes the reel beside the right one."""
        other = self.shelf[self.sheets[self.product, machine][int(slot)][1]][0]
        body = {"Machine": machine, "Slot": slot, "Reel": other.name}
        refusal = ("WrongPart", other.name)
        self.moments["wrong_reel"] = self.say("MaterialsLoaded", body, machine, refusal=refusal)

    def scanned_twice(self) -> None:
        machine, slot = self.machines[1], "5"
        reel = self.tapes[machine, slot][0]
        body = {"Machine": machine, "Slot": slot, "Reel": reel.name}
        self.say("MaterialsSpliced", body, machine, refusal=("ReelMounted", reel.name))

    def heartbeat(self) -> None:
        self.ignored("CFX.Heartbeat", {"CFXHandle": self.machines[0]}, self.machines[0])

    def scrap(self, when: datetime.datetime | None = None) -> None:
        machine = self.random.choice(self.machines)
        slot = str(self.random.randint(1, 38))
        pieces = min(self.random.randint(1, 4), self.left(machine, slot) - 1)
        if pieces > 0:
            body = {"Machine": machine, "Slot": slot, "Quantity": pieces}
            self.say("MaterialsScrapped", body, machine, when=when, Taken=pieces)
            self.take(machine, slot, pieces)

    def scrap_told_late(self) -> None:
        self.moments["late"] = len(self.lines)
        self.scrap(when=self.now - datetime.timedelta(minutes=12))

    def count(self) -> None:
        """A shelf is counted: on one reel pieces are missing, on another some are found, on others
        all is right.
        """
        all_reels = (reel for part in sorted(self.shelf) for reel in self.shelf[part])
        reels = [reel for reel in all_reels if reel.left > 50][:5]
        counts = [reel.left + more for reel, more in zip(reels, (-40, 12, 0, 0, 0))]
        told = [{"Reel": reel.name, "Quantity": count} for reel, count in zip(reels, counts)]
        taken = sum(max(0, reel.left - count) for reel, count in zip(reels, counts))
        self.moments["count"] = self.say("CountsTaken", {"Counts": told}, "store", Taken=taken)
        for reel, count in zip(reels, counts):
            reel.left = count

    def sealed(self) -> None:
        all_reels = (reel for part in sorted(self.shelf) for reel in self.shelf[part])
        if reel := next((reel for reel in all_reels if reel.level == "3"), None):
            self.seal(reel, "store")

    def seal(self, reel: Reel, source: str) -> None:
        self.say("ReelSealed", {"Reel": reel.name}, source)
        reel.seal(self.minute)

    def network_break(self) -> None:
        """No answer came for a while, so the last lines are sent again."""
        self.moments["repeats"] = first = len(self.lines)
        for number in range(first - 6, first):
            if self.lines[number].wanted == "Accepted":
                self.repeat(number)

    def change_over(self, product: str) -> int:
        """The slots whose part is another are emptied; reels that count minutes go back into a
        bag.
        """
        begun = len(self.lines)
        for machine in self.machines:
            new = {slot: part for slot, part, _names in self.sheets[product, machine]}
            for slot, part, _names in self.sheets[self.product, machine]:
                if part != new.get(slot) and self.left(machine, slot):
                    self.take_off(machine, slot)
        self.select(product)
        self.later(900)
        self.fill_all()
        return begun

    def take_off(self, machine: str, slot: str) -> None:
        self.say("MaterialsUnloaded", {"Machine": machine, "Slot": slot}, machine)
        self.later(6)
        for reel in self.tapes.pop((machine, slot)):
            self.shelf[reel.part].insert(0, reel)
            if reel.level != "1":
                self.seal(reel, machine)

    def end_of_shift(self) -> None:
        """Reels that count minutes go back into their bags, and the store receives most of what
        tomorrow takes.
        """
        for machine in self.machines:
            for slot, _part, _names in self.sheets[self.product, machine]:
                tape = self.tapes.get((machine, slot))
                if tape and tape[0].level != "1":
                    self.take_off(machine, slot)
        for machine in self.machines:
            for _slot, part, names in self.sheets["CTRL-A", machine]:
                if self.random.random() < 0.9:
                    self.later(self.random.randint(5, 20))
                    some = self.random.choice((500, 1_000, 2_000)) if len(names) < 3 else 2_000
                    self.receive(part, some)
        self.moments["end"] = len(self.lines)
