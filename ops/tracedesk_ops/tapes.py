"""Which pieces of a line may be of another reel than the desk has it.

A *tape* is what was placed off a slot from a load on, until the slot is unloaded or loaded anew. It
is in doubt from the minute on in which

- a load, splice or unload of its slot was refused, and nobody decided that the reel was taken off;
- its slot was handled in another order than the desk heard of it;
- a reel on it had a wrong count, since it was on a machine during untraced work or on a tape in
  doubt, and a reel was spliced to another.

A piece of it may be of each reel on the tape, also of one that was refused; after another order
also of those on the tapes between. Minutes are whole, so within one minute nothing is seen. All
files of a line are read in the order of their chain; what a desk was begun with is no handling of
its own.

    tapes = Tapes()
    tapes.read("running desk", database)
    tapes.judge(refused, works)
    tapes.pieces(0, database)
"""
from __future__ import annotations

import bisect
import dataclasses
import sqlite3
from collections.abc import Iterable, Iterator, Sequence
from typing import Any, NamedTuple

from tracedesk_ops import catalogue, copies, sealed, untraced
from tracedesk_ops.firstlook import Question

LOADED, SPLICED = untraced.HANDLING[:2]
INSTALLED, SCRAPPED = "MaterialsInstalled", "MaterialsScrapped"
WORDS = (*untraced.HANDLING, INSTALLED, SCRAPPED)
COMMANDS = f"""SELECT number, own, effective,
        iif(command GLOB '{INSTALLED}*', substr(command, 1, 90), command) FROM accepted
    WHERE {' OR '.join(f"command GLOB '{it}*'" for it in WORDS)} ORDER BY number"""
# one scan of placement, in the order in which it lies
PIECES = """SELECT tape, board, designator, own, reel FROM placement
    CROSS JOIN temp.doubt ON doubt.machine = placement.machine AND doubt.slot = placement.slot
        AND number >= low AND number < high
    CROSS JOIN accepted USING (number) WHERE own >= since"""
LATE = "handled in another order than accepted"
REFUSED = "a refused reel may be on the slot"
COUNT = "a reel of the tape has a wrong count"
FOREVER = 1 << 60
ANY = ""  # in the place of a part: that of a reel which the line doesn't know

Turn = tuple[int, int]  # the place of a file in its line's chain, and the number of a command
Slot = tuple[str, str]  # of a machine
Where = tuple[str, str, str, str, int]  # board, designator, machine, slot and minute of a piece
Told = tuple[Turn, int, int]  # its turn, its own minute and the one that counts


class Refusal(NamedTuple):
    """A load, splice or unload that a desk refused; the reel is empty where it is an unload. If the
    slot was empty then, what was loaded in that minute came later.
    """

    on: Slot
    minute: int
    reel: str
    id: str
    was_empty: bool


class Work(NamedTuple):
    """Work that is in no trace: how many pieces it took, off which slot where that is known, and
    from when it was done to when it was refused.
    """

    machine: str
    slot: str
    pieces: int
    first: int
    last: int


class DoubtfulPiece(NamedTuple):
    """A piece that may be of other reels. A recall of one of these parts names it too."""

    board: str
    designator: str
    machine: str
    slot: str
    minute: int
    reel: str
    lot: str
    other_reels: tuple[str, ...]
    other_lots: tuple[str, ...]
    why: str
    file: str
    parts: frozenset[str]

    def row(self) -> list[str]:
        others = ["; ".join(its) for its in (self.other_reels, self.other_lots)]
        minute = catalogue.spelled(self.minute)
        return [*self[:4], minute, self.reel, self.lot, *others, self.why, self.file]


HEADER = DoubtfulPiece._fields[:-1]


@dataclasses.dataclass
class Tape:
    """From its load to what ended it: the turns, and the minutes when that was done or heard."""

    on: Slot
    first: Turn = (-1, 0)
    begun: int = -1
    last: Turn = (FOREVER, 0)
    ended: int = FOREVER
    reels: dict[str, None] = dataclasses.field(default_factory=dict)
    is_spliced: bool = False
    since: int = FOREVER  # from when on it is in doubt
    whys: dict[str, None] = dataclasses.field(default_factory=dict)

    def doubt(self, since: int, why: str, reels: Iterable[str] = ()) -> None:
        self.since = min(self.since, since)
        self.whys[why] = None
        self.reels |= dict.fromkeys(it for it in reels if it)

    def is_within(self, first: int, last: int) -> bool:
        return self.begun <= last and first <= self.ended


class Tapes:
    """The tapes of a line, file by file in the order of their chain."""

    def __init__(self) -> None:
        self.names: list[str] = []
        # the parts and lots of each name of a reel: a later file may have received it anew
        self.cards: dict[str, dict[tuple[str, str], None]] = {}
        self.slots: dict[Slot, list[Tape]] = {}
        # of each slot what was told of it, each with the place of the tape before it
        self.handled: dict[Slot, list[tuple[Told, int]]] = {}
        self.worked: dict[str, list[tuple[Told, str]]] = {}  # by machine, with the slot of a scrap
        self.late: list[tuple[list[Tape], int, int]] = []  # tapes that are mixed up, and when

    # --- Reading

    def read(self, name: str, database: sqlite3.Connection) -> None:
        """Takes a file in."""
        place = len(self.names)
        self.names.append(name)
        cards = copies.rows(database, "SELECT reel, part, lot FROM reel")
        for reel, *card in cards:
            self.cards.setdefault(reel, {})[card[0], card[1]] = None
        begun = sealed.begun_with(database, sealed.begun_from(database), "main")
        for number, own, effective, text in database.execute(COMMANDS):
            word, machine, *more = text.split("\t")
            told = ((place, number), own, effective)
            if word in (INSTALLED, SCRAPPED):
                self.work(told, machine, more[0] if word == SCRAPPED else "")
            elif number > begun:
                self.handle(told, word, (machine, more[0]), more[1] if more[1:] else "")

    def tapes(self, on: Slot) -> list[Tape]:
        """Those of a slot; the first one is what was there before all that was told."""
        return self.slots.setdefault(on, [Tape(on)])

    def handle(self, told: Told, word: str, on: Slot, reel: str) -> None:
        turn, own, effective = told
        tapes = self.tapes(on)
        self.handled.setdefault(on, []).append((told, len(tapes) - 1))
        if word != SPLICED:
            tapes[-1].last, tapes[-1].ended = min(
                (tapes[-1].last, tapes[-1].ended), (turn, effective)
            )
        if word == LOADED:
            tapes.append(Tape(on, turn, own))
        tapes[-1].is_spliced |= word == SPLICED
        tapes[-1].reels |= {reel: None} if reel else {}
        if own < effective:  # what was placed since it was done may have been told first
            earlier = self.after(own, self.worked.get(on[0], ()))
            turns = [it[0] for it, slot in earlier if slot in ("", on[1])]
            if turns:
                before = bisect.bisect_right(tapes, min(turns), key=lambda it: it.first) - 1
                self.late.append((tapes[before:], own, effective))

    def work(self, told: Told, machine: str, slot: str) -> None:
        """Takes in an install, or a scrap off one slot."""
        _, own, effective = told
        self.worked.setdefault(machine, []).append((told, slot))
        for on in self.handled if own < effective else ():
            if on[0] == machine and slot in ("", on[1]):
                if befores := [before for _, before in self.after(own, self.handled[on])]:
                    self.late.append((self.slots[on][min(befores) :], own, effective))

    @staticmethod
    def after(own: int, told: Sequence[tuple[Told, Any]]) -> Iterator[tuple[Told, Any]]:
        """What was told before now, and done after that minute. Minutes that count never fall."""
        for it in reversed(told):
            if it[0][2] <= own:
                return
            if it[0][1] > own:
                yield it

    # --- Judging, once all files were read

    def judge(self, refusals: Iterable[Refusal], works: Iterable[Work]) -> None:
        """Says which tapes are in doubt."""
        refused: dict[Slot, list[Refusal]] = {}
        for it in refusals:
            refused.setdefault(it.on, []).append(it)
            for tape in self.tapes(it.on):
                if tape.is_within(it.minute, it.minute - it.was_empty):
                    tape.doubt(it.minute, f"{REFUSED} ({it.id})", [it.reel])
        for mixed, since, until in self.late:
            reels = [reel for tape in mixed for reel in tape.reels]
            for it in refused.get(mixed[0].on, ()):  # also where none of them was on the slot
                reels += [it.reel] if mixed[0].begun <= it.minute <= until else []
            for tape in mixed:
                tape.doubt(since, LATE, reels)
        wrong = [
            (reel, work.first)
            for work in works
            for tape in (self.during(work) if work.pieces else ())
            for reel in tape.reels
        ]
        self.miscounted(wrong + [(reel, it.since) for it in self.doubtful() for reel in it.reels])

    def miscounted(self, waiting: list[tuple[str, int]]) -> None:
        """Puts the tapes in doubt that have a reel whose count was wrong from a minute on."""
        with_reel: dict[str, list[Tape]] = {}
        for tapes in self.slots.values():
            for tape in tapes:
                for reel in tape.reels:
                    with_reel.setdefault(reel, []).append(tape)
        wrong: dict[str, int] = {}
        while waiting:
            reel, since = waiting.pop()
            if since >= wrong.get(reel, FOREVER):
                continue
            wrong[reel] = since
            for tape in with_reel.get(reel, ()):
                at = max(since, tape.begun)
                if tape.is_spliced and since <= tape.ended and at < tape.since:
                    tape.doubt(at, COUNT)
                    waiting += [(other, at) for other in tape.reels]

    def doubtful(self) -> Iterator[Tape]:
        for tapes in self.slots.values():
            yield from (tape for tape in tapes if tape.since < FOREVER)

    def during(self, work: Work) -> list[Tape]:
        """The tapes that were on a machine while it did this work."""
        return [
            tape
            for on, tapes in sorted(self.slots.items())
            for tape in tapes
            if on[0] == work.machine
            and work.slot in ("", on[1])
            and tape.is_within(work.first, work.last)
        ]

    # --- The pieces

    def pieces(self, place: int, database: sqlite3.Connection) -> Iterator[DoubtfulPiece]:
        """Those in doubt that a file has placed."""
        its = [*self.doubtful()]
        for at, where, reel in self.placed(place, database, [(it, it.since) for it in its]):
            why = "; ".join(its[at].whys)
            yield self.piece(where, reel, its[at].reels, why, self.names[place])

    @staticmethod
    def placed(
        place: int, database: sqlite3.Connection, those: Sequence[tuple[Tape, int]]
    ) -> Iterator[tuple[int, Where, str]]:
        """The pieces of these tapes in a file, each from a minute on: the place of its tape among
        them, where it was placed, and the reel.
        """
        rows = [
            (
                at,
                *it.on,
                it.first[1] if it.first[0] == place else 0,
                it.last[1] if it.last[0] == place else FOREVER,
                since,
            )
            for at, (it, since) in enumerate(those)
            if it.first[0] <= place <= it.last[0]
        ]
        if not rows:
            return
        database.execute("DROP TABLE IF EXISTS temp.doubt")
        database.execute("CREATE TEMP TABLE doubt (tape, machine, slot, low, high, since)")
        database.executemany("INSERT INTO temp.doubt VALUES (?, ?, ?, ?, ?, ?)", rows)
        database.execute("CREATE INDEX temp.doubt_on ON doubt (machine, slot, low)")
        for at, board, designator, minute, reel in database.execute(PIECES):
            machine, slot = those[at][0].on
            yield at, (board, designator, machine, slot, minute), reel

    def piece(
        self,
        where: Where,
        reel: str,
        reels: Iterable[str],
        why: str,
        file: str = "",
    ) -> DoubtfulPiece:
        """A piece of a reel, if that is known, which may be of others."""
        others = tuple(sorted({*reels} - {reel, ""}))
        lots = tuple(sorted({self.lot(it) for it in others}))
        parts = frozenset(it for its in (*others, reel) if its for it in self.parts(its))
        parts = parts or frozenset([ANY])
        return DoubtfulPiece(*where, reel, self.lot(reel), others, lots, why, file, parts)

    def parts(self, reel: str) -> set[str]:
        return {part for part, _ in self.cards.get(reel, {(ANY, ""): None})}

    def lot(self, reel: str) -> str:
        """The lot of a reel, or all that it may be of by its name."""
        return "; ".join(sorted({lot for _, lot in self.cards.get(reel, ())}))

    def asked(self, question: Question) -> set[str]:
        """The reels that are asked for; all if a board is."""
        if question.kind == "board":
            return {*self.cards}
        named = {*question.names()} if question.kind != "lot" else set()
        return named | {
            reel
            for reel, cards in self.cards.items()
            if any(question.is_of(reel, *card) for card in cards)
        }

    def concerning(
        self, question: Question, pieces: Iterable[DoubtfulPiece]
    ) -> list[DoubtfulPiece]:
        """Those that a recall has to name: they may be of a reel that is asked for, or of its part.
        Of a reel that the line doesn't know nobody knows the part.
        """
        if question.kind == "board":
            return [it for it in pieces if it.board in (question.name, "")]
        asked = self.asked(question)
        parts = {ANY}.union(*map(self.parts, asked))
        return [it for it in pieces if parts & it.parts or asked & {it.reel, *it.other_reels}]

    def reels_on(self, work: Work) -> str:
        """The reels that were on a machine while it did this work, as a text."""
        its = [(tape.on[1], reel) for tape in self.during(work) for reel in tape.reels]
        texts = (
            f"slot {slot}: {reel} of lot {self.lot(reel)}" for slot, reel in dict.fromkeys(its)
        )
        return "; ".join(texts) or "none that the desk knew"
