"""A plain model of a line: its two lists, and what docs/line.md says of them. Lists are searched,
and nothing is kept that follows from them.

What the desk answers to a message, and which reels are on its slots, the model is told: `tracedesk
serve` says it, of the same messages. All else is worked out here.
"""
from __future__ import annotations

import json
from typing import NamedTuple

from tracedesk_dev.line_entries import (
    HANDLINGS,
    LOADS,
    MEMBERS,
    NAMELESS,
    STOP,
    VERIFIED,
    WAIT,
    Body,
    Command,
    Entry,
    Piece,
    as_told,
    attributes,
    closes,
    differences,
    envelope,
    is_name,
    is_text,
    members_of,
    names_reels,
    said,
    word_of,
)

Answer = tuple[int, bytes]

SAYS = {"decisions": "Of", "holds": "Hold", "releases": "Release"}
TOLD = {"decisions": "Decided", "holds": "Held", "releases": "Released"}
COLUMNS = "n,after,kind,source,uid,machine,slot,board,reel,word,of,told,state\n"


class Live(NamedTuple):
    """A live reel on a machine, as the desk lists it: the front of a slot first."""

    slot: str
    reel: str
    part: str
    lot: str
    minutes_left: str


def text(answer: Body) -> bytes:
    return json.dumps(answer, separators=(",", ":"), sort_keys=True, ensure_ascii=False).encode()


def field(value: object) -> str:
    """A field of CSV."""
    told = str(value)
    return '"' + told.replace('"', '""') + '"' if set(told) & set(',"\r\n') else told


class Line:
    """The two lists. An entry's number is its place in the book, from 1 on."""

    def __init__(self) -> None:
        self.history: list[Command] = []
        self.book: list[Entry] = []

    # --- What the history says

    def product(self, machine: str) -> str | None:
        """The product selected last on a machine."""
        for word, body in reversed(self.history):
            if word == "ProductSelected" and body["Machine"] == machine:
                return str(body["Product"])
        return None

    def sheet(self, machine: str) -> list[Body] | None:
        """The rows of the selected sheet."""
        product = self.product(machine)
        for word, body in reversed(self.history):
            if word == "SheetDefined" and (body["Machine"], body["Product"]) == (machine, product):
                return list(body["Rows"])
        return None

    def has_slot(self, machine: str, slot: str) -> bool:
        return any(row["Slot"] == slot for row in self.sheet(machine) or [])

    def is_known_machine(self, machine: str) -> bool:
        return any(
            it.word == "SheetDefined" and it.body["Machine"] == machine for it in self.history
        )

    def board(self, machine: str) -> str | None:
        """The board in work on a machine."""
        for word, body in reversed(self.history):
            if word in ("WorkStarted", "WorkCompleted") and body["Machine"] == machine:
                return str(body["Board"]) if word == "WorkStarted" else None
        return None

    def tape(self, machine: str, slot: str) -> list[str]:
        """The reel of a slot's last load and those spliced since, also spent ones."""
        tape: list[str] = []
        for word, body in self.history:
            if word in HANDLINGS and (body["Machine"], body["Slot"]) == (machine, slot):
                before = tape if word == "MaterialsSpliced" else []
                tape = [] if word == "MaterialsUnloaded" else [*before, body["Reel"]]
        return tape

    def is_allowed(self, part: str, other: str) -> bool:
        """Whether a slot for this part may have a reel of the other."""
        return part == other or any(
            word == "AlternateAllowed" and (body["PartNumber"], body["Alternate"]) == (part, other)
            for word, body in self.history
        )

    # --- What both lists say of an entry

    def is_decided(self, number: int) -> bool:
        return any(it.kind == "decision" and it.of == number for it in self.book)

    def is_open(self, number: int) -> bool:
        entry = self.book[number - 1]
        later = self.history[entry.after :]
        is_closed = self.is_decided(number) or any(closes(entry, it) for it in later)
        return entry.kind in STOP and not is_closed

    def stops(self, number: int) -> bool:
        """Whether it stops its machine: one of a slot only while the sheet has that slot."""
        entry = self.book[number - 1]
        is_heard = entry.kind in ("stray", "work") or self.has_slot(entry.machine, entry.slot)
        return is_heard and self.is_open(number)

    def waits(self, number: int) -> bool:
        """Whether it waits for a decision."""
        return self.book[number - 1].kind in WAIT and not self.is_decided(number)

    def state(self, number: int) -> str:
        return "open" if self.is_open(number) else "undecided" if self.waits(number) else ""

    def is_known(self, entry: Entry) -> bool:
        """Whether the book has this already: of a refusal an entry that is open, of a faulty
        message one that waits for a decision.
        """
        is_so = self.waits if entry.kind == "unread" else self.is_open
        return any(
            (it.kind, it.word) == (entry.kind, entry.word)
            and said(it) == said(entry)
            and is_so(number)
            for number, it in enumerate(self.book, 1)
        )

    # --- What a message does

    def hear(self, message: bytes, status: int, answer: bytes, live: list[Live]) -> None:
        """A message, its answer, and the live reels on its machine."""
        told, reply = envelope(message), json.loads(answer)
        word = "" if reply.get("Fault") in NAMELESS else word_of(told)
        entry = None
        if reply["Answer"] == "Accepted" and reply["Number"] > len(self.history):
            self.book += self.findings(told, message, reply)
            self.history.append(Command(word, told["MessageBody"]))
        elif reply["Answer"] == "Refused" and word in MEMBERS:
            entry = self.refused(told, message, reply, live)
        elif reply["Answer"] == "Faulty" and word in ("", *MEMBERS):
            its = len(self.history), "unread"
            entry = Entry(*its, word=reply["Fault"], told=as_told(message))
        if entry and not self.is_known(entry):
            self.book.append(entry)

    def findings(self, told: Body, message: bytes, reply: Body) -> list[Entry]:
        """The entries of a message that is accepted now."""
        found: list[Entry] = []
        if word_of(told) == "ReelReceived":
            found = attributes(told["MessageBody"])
        elif word_of(told) == "MaterialsInstalled":
            found = self.compared(told["MessageBody"], message, reply["Reels"])
        its = {"source": told["Source"], "uid": told["UniqueID"]}
        return [it._replace(after=len(self.history), **its) for it in found]

    def compared(self, body: Body, message: bytes, desk_reels: list[str]) -> list[Entry]:
        """The entries of an install whose machine names reels."""
        names, machine, reels = body["Designators"], body["Machine"], body.get("MachineReels")
        if reels is None:
            return []
        found = [Entry(0, "uncompared", told=as_told(message))]
        if names_reels(reels, len(names)):
            slots = {
                name: row["Slot"]
                for row in self.sheet(machine) or []
                for name in row["Designators"]
            }
            tapes = {it: self.tape(machine, it) for it in slots.values()}
            pieces = zip(names, [slots[it] for it in names], reels, desk_reels)
            found = differences([Piece(*it) for it in pieces], tapes)
        return [it._replace(machine=machine, board=body["Board"]) for it in found]

    def refused(self, told: Body, message: bytes, reply: Body, live: list[Live]) -> Entry | None:
        """The entry of a refused message."""
        word, body, refusal = word_of(told), members_of(told), reply["Refusal"]
        machine, slot, reel = (body.get(it, "") for it in ("Machine", "Slot", "Reel"))
        is_there = any((it.slot, it.reel) == (slot, reel) for it in live)
        if word in LOADS and refusal in VERIFIED and is_there:
            return None
        its = Entry(
            *(len(self.history), "work", told["Source"], told["UniqueID"], machine),
            word=refusal,
            told=as_told(message),
        )
        if word in HANDLINGS:
            kind = "handling" if self.has_slot(machine, slot) else "stray"
            return its._replace(kind=kind, slot=slot, reel=reel)
        names_slot = (word, refusal) in (
            *(("WorkStarted", it) for it in ("SlotEmpty", "WrongPart", "Expired")),
            *(("MaterialsScrapped", it) for it in ("SlotEmpty", "ReelShort")),
        )
        return its._replace(board=body.get("Board", ""), slot=reply["At"] if names_slot else "")

    # --- What somebody says

    def fault_of(self, what: str, body: bytes) -> Answer | None:
        """Why a decision, a hold or a release isn't taken, or none."""
        try:
            its = json.loads(body)
        except ValueError:
            return 400, text({"Answer": "Faulty", "Fault": "NotJson"})
        if not isinstance(its, dict):
            return 400, text({"Answer": "Faulty", "Fault": "NotObject"})
        first = SAYS[what]
        is_right = {
            "Of": type(its.get("Of")) is int and 0 <= its["Of"] < 2**64,
            "Became": is_text(its.get("Became")),
            "Hold": its.get("Hold") in ("reel", "lot"),
            "Release": its.get("Release") in ("reel", "lot"),
            "Name": is_name(its.get("Name")),
            **{it: is_text(its.get(it)) for it in ("By", "Reason")},
        }
        for it in (first, "Became" if what == "decisions" else "Name", "By", "Reason"):
            if not is_right[it]:
                return 422, text({"Answer": "Faulty", "Fault": "BodyMember", "Member": it})
        if what == "decisions" and not 1 <= its["Of"] <= len(self.book):
            return 404, text({"Answer": "NotFound", "Kind": "Entry"})
        return None

    def say(self, what: str, body: bytes) -> Answer:
        """A decision, a hold or a release, and its answer."""
        if fault := self.fault_of(what, body):
            return fault
        its = json.loads(body)
        entry = Entry(len(self.history), what.removesuffix("s"), told=as_told(body))
        if what == "decisions":
            entry = entry._replace(of=its["Of"])
        elif its[SAYS[what]] == "reel":
            entry = entry._replace(reel=its["Name"])
        else:
            entry = entry._replace(word=its["Name"])
        self.book.append(entry)
        return 200, text({"Answer": TOLD[what], "Entry": len(self.book)})

    def held(self, reel: str, lot: str) -> int:
        """The number of the hold of a reel or of a lot, 0 if there is none."""
        for number in range(len(self.book), 0, -1):
            entry = self.book[number - 1]
            if entry.kind in ("hold", "release") and (entry.reel, entry.word) == (reel, lot):
                return number if entry.kind == "hold" else 0
        return 0

    # --- What is asked

    def causes(self, machine: str, live: list[Live]) -> list[Body]:
        """All that keeps a machine from work."""
        causes: list[Body] = [] if self.board(machine) else [{"Cause": "NoWork"}]
        for number, entry in enumerate(self.book, 1):
            if entry.machine == machine and self.stops(number):
                its = {"Cause": "Open", "Entry": number, "Kind": entry.kind}
                refusal = None if entry.kind == "differs" else entry.word
                its |= {"Reel": entry.reel or None, "Refusal": refusal, "Slot": entry.slot or None}
                causes.append(its)
        sheet = self.sheet(machine)
        if sheet is None:
            return [*causes, {"Cause": "NoSheet"}]
        return causes + [it for row in sheet for it in self.causes_at(row, live)]

    def causes_at(self, row: Body, live: list[Live]) -> list[Body]:
        """Those at a slot of the sheet."""
        slot = row["Slot"]
        front = next((it for it in live if it.slot == slot), None)
        if front is None:
            return [{"Cause": "AtSlot", "Reel": None, "Refusal": "SlotEmpty", "Slot": slot}]
        refusal = None
        if not self.is_allowed(row["PartNumber"], front.part):
            refusal = "WrongPart"
        elif front.minutes_left == "unbaked":
            refusal = "NotBaked"
        elif front.minutes_left == "0":
            refusal = "Expired"
        at = {"Cause": "AtSlot", "Reel": front.reel, "Refusal": refusal, "Slot": slot}
        holds = self.held(front.reel, ""), self.held("", front.lot)
        of_holds = [
            {"Cause": "Held", "Entry": it, "Reel": front.reel, "Slot": slot} for it in holds
        ]
        return [at] * bool(refusal) + [it for it in of_holds if it["Entry"]]

    def state_of(self, machine: str, live: list[Live]) -> Answer:
        """GET /line/state."""
        if not self.is_known_machine(machine):
            return 404, text({"Answer": "NotFound", "Kind": "Machine"})
        causes = self.causes(machine, live)
        its: Body = {"Answer": "State", "Board": self.board(machine), "Causes": causes}
        its |= {"Machine": machine, "Number": len(self.history)}
        return 200, text(its | {"State": "stop" if causes else "go"})

    def rows(self, numbers: list[int]) -> Answer:
        """These entries as CSV."""
        told = COLUMNS
        for number in numbers:
            its = [number, *self.book[number - 1], self.state(number)]
            told += ",".join(map(field, its)) + "\n"
        return 200, told.encode()

    def book_after(self, number: int) -> Answer:
        """GET /line/book."""
        return self.rows([it for it in range(1, len(self.book) + 1) if it > number])

    def undecided(self) -> Answer:
        """GET /line/undecided."""
        return self.rows([it for it in range(1, len(self.book) + 1) if self.waits(it)])

    def counts(self) -> Answer:
        """GET /line/counts."""
        numbers = range(1, len(self.book) + 1)
        its = {"Answer": "Counts", "Commands": len(self.history), "Entries": len(self.book)}
        its["Open"] = sum(map(self.is_open, numbers))
        return 200, text(its | {"Undecided": sum(map(self.waits, numbers))})
