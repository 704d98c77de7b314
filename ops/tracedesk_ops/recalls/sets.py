"""The set of reels that a question means: those of several lots, those with an attribute, and the
other names of a reel that changed lines.
"""
from __future__ import annotations

import collections
import pathlib
import re
import sqlite3
from collections.abc import Iterable, Iterator, Sequence
from typing import NamedTuple

from tracedesk_ops import copies, entries, sealed, stored
from tracedesk_ops.firstlook import Question
from tracedesk_ops.recalls.surveyed import Surveyed

REELS = "SELECT reel, part, lot FROM reel"
RECEIVED = "SELECT reel, word, told FROM book WHERE kind = 'attribute' ORDER BY n"
MOVES = "SELECT uid, command FROM accepted WHERE uid >= 'move-' AND uid < 'move.'"
MOVE = re.compile(r"(move-.+-\d+-\d+?)(-left)?-\d+")
MOST_NAMED = 20  # reels in a message

ATTRIBUTES = {  # the members of a receipt that have one
    "DateCode": "date_code",
    "Supplier": "supplier",
    "MakerPart": "maker_part",
    "Order": "order",
}


class Reel(NamedTuple):
    """What is known of a reel; what nobody knows is empty."""

    reel: str
    part: str = ""
    lot: str = ""
    date_code: str = ""
    supplier: str = ""
    maker_part: str = ""
    order: str = ""


Given = dict[str, str]  # values by the names of attributes
Cards = dict[Reel, list[Given]]  # with what each of their receipts has


class Terms(NamedTuple):
    """Which reels are asked for: of each attribute the values, one of which a reel has to have."""

    values: dict[str, list[str]]

    def take(self, its: Reel) -> bool:
        told = its._asdict()
        return all(told[name] in values for name, values in self.values.items())

    def lack(self, its: Reel) -> bool:
        """Whether a reel may be one of them, and an attribute that would say so isn't known."""
        told = its._asdict()
        named = {name: values for name, values in self.values.items() if told[name]}
        return len(named) < len(self.values) and Terms(named).take(its)

    def __str__(self) -> str:
        words = (
            f"{name.replace('_', ' ')} {' or '.join(values)}"
            for name, values in self.values.items()
        )
        return f"the reels of {', '.join(words)}"


def terms_of(words: Iterable[str]) -> Terms:
    """The terms of words as `date_code=2614`; a ValueError says what is wrong with one."""
    values: dict[str, list[str]] = {}
    for word in words:
        name, equals, value = word.partition("=")
        if not equals or not value or name not in Reel._fields:
            raise ValueError(
                f"{word} is no ATTRIBUTE=VALUE: an attribute is one of"
                f" {', '.join(Reel._fields)}"
            )
        values.setdefault(name, []).append(value)
    return Terms(values)


class Known:
    """What files, each with its line's name, know of reels: `cards` has the parts and lots of each
    name, each with the attributes that its receipts have, `moves` the old and the new names of each
    move, by the beginning of its UniqueIDs, and `faults` what could not be looked at.
    """

    def __init__(self, files: Iterable[tuple[str, pathlib.Path]]) -> None:
        self.cards: dict[str, Cards] = collections.defaultdict(dict)
        self.moves: dict[str, tuple[set[str], set[str]]] = {}
        self.faults: list[str] = []
        for line, file in files:
            try:
                with sealed.opened(file) as database:
                    self.read(database)
            except (OSError, sqlite3.Error) as fault:
                self.faults.append(f"{line}: the reels of {file} aren't known: {fault}")

    def read(self, database: sqlite3.Connection) -> None:
        received: dict[str, Given] = collections.defaultdict(dict)
        for reel, word, told in self.received(database):
            received[reel][ATTRIBUTES[word]] = entries.plain(told).strip()
        for row in copies.rows(database, REELS):
            those = self.cards[row[0]].setdefault(Reel(*row), [])
            those += [its for its in [received[row[0]]] if its and its not in those]
        for uid, command in copies.rows(database, MOVES):
            if found := MOVE.fullmatch(uid):
                word, body = stored.body(command)
                old, new = self.moves.setdefault(found[1], (set(), set()))
                if word == "ReelReceived":
                    new.add(body["Reel"])
                elif word == "CountsTaken" and found[2]:
                    old.update(row["Reel"] for row in body["Counts"])

    @staticmethod
    def received(database: sqlite3.Connection) -> Iterator[tuple[str, str, str]]:
        """What the receipts of a file say of reels besides, by the book of the line."""
        if sealed.has(database, sealed.BOOK):
            yield from copies.rows(database, RECEIVED)

    def twice(self, reels: Iterable[str]) -> Iterator[str]:
        """Which of these names are of several receipts: a set of reels is a set of names."""
        for reel in sorted(reels):
            if len(cards := self.cards[reel]) > 1:
                lots = " and of ".join(f"{card.part}, lot {card.lot}" for card in cards)
                yield (
                    f"the name {reel} is of {lots}: boards of each are in the answer. Ask for one"
                    " lot at a time"
                )

    def followed(self, reels: Iterable[str]) -> list[str]:
        """The reels with all names that they have had."""
        found = [*dict.fromkeys(reels)]
        for reel in found:  # which grows
            for old, new in self.moves.values():
                if reel in old | new:
                    found += sorted((old | new).difference(found))
        return found

    def away(self, reels: Iterable[str]) -> Iterator[str]:
        """Which of these reels came from, or went to, a line that isn't asked."""
        for reel in reels:
            for _, (old, new) in sorted(self.moves.items()):
                if reel in old | new and not (old and new):
                    way = "went to" if old else "came from"
                    yield f"the reel {reel} {way} a line that is not asked: name that line too"


class Meant(NamedTuple):
    """The question that some words ask, why its set of reels may not be whole, and what a reader
    has to know.
    """

    question: Question
    faults: list[str]
    notes: list[str]


def title(kind: str, names: Sequence[str], part: str) -> str:
    of_part = f" of part {part}" if part else ""
    return f"the {kind}s {', '.join(names)}{of_part}"


def question_of(kind: str, names: Sequence[str], part: str, those: Surveyed) -> Meant:
    """The question that these words ask."""
    if kind == "board" or kind == "lot" and len(names) == 1:
        return Meant(Question(kind, names[0], part), [], [])
    known = Known(those.paths())
    if kind == "reel":
        reels = known.followed(names)
        more = [name for name in reels if name not in names]
        notes = [f"followed under other names too: {', '.join(more)}"] if more else []
        its = Question("reels", title(kind, reels, ""), "", tuple(reels))
        its = its if len(reels) > 1 else Question(kind, names[0])
        return Meant(its, [*known.faults, *known.away(reels)], notes)
    if kind == "lot":
        cards = [card for those in known.cards.values() for card in those]
        of_lots = {its.reel for its in cards if its.lot in names and part in ("", its.part)}
        its = Question("reels", title(kind, names, part), "", tuple(sorted(of_lots)))
        unknown = [lot for lot in names if not any(card.lot == lot for card in cards)]
        notes = [f"no line here knows the lot {lot}" for lot in unknown]
        return Meant(its, [*known.faults, *known.twice(of_lots)], notes)
    return where(terms_of([*names, *([f"part={part}"] if part else [])]), known)


def where(terms: Terms, known: Known) -> Meant:
    """The question for the reels with these attributes. A reel whose receipt doesn't say them may
    be one of them.
    """
    faults = list(known.faults)
    those = {
        reel: [card._replace(**more) for card, its in cards.items() for more in its or [{}]]
        for reel, cards in known.cards.items()
    }
    lacking = sorted(reel for reel, its in those.items() if any(map(terms.lack, its)))
    if lacking:
        named = ", ".join(lacking[:MOST_NAMED])
        more = f" and {len(lacking) - MOST_NAMED} more" if len(lacking) > MOST_NAMED else ""
        faults.append(
            f"the attributes of {len(lacking)} reels aren't known, so they may be of this recall:"
            f" {named}{more}. Look them up, and recall such reels by name"
        )
    taken = sorted(reel for reel, its in those.items() if any(map(terms.take, its)))
    reels = known.followed(taken)
    faults += [*known.twice(taken), *known.away(reels)]
    return Meant(Question("reels", str(terms), "", tuple(reels)), faults, [])
