"""The book of a desk's file, and what the book of a new desk carries on of it.

A roll-over carries what is open or undecided, and the holds in force. A carried entry says by `of`
which one of the sealed file it is, and its `after` is the end of the beginning: so the loads that
begin the new desk close nothing. What came since the seal is in the new book alone, all of it.

    book = Carrying(entries.of(file), standing, {"File": file.name}, 1_204)
    entries.write(new, book.with_since(entries.of(end, behind=17), {5_000: 1_204}))
"""
from __future__ import annotations

import contextlib
import csv
import io
import json
import pathlib
import sqlite3
from collections.abc import Collection, Iterable, Mapping, Sequence
from typing import NamedTuple

from tracedesk_ops import sealed

Path = pathlib.Path
Stock = tuple[str, str]  # a reel or a lot: its name in that column

HOLD, RELEASE, DECISION, BEGUN = "hold", "release", "decision", "begun"
OPEN = "open"  # the state of an entry that stops its machine
REOPENED = ("work", "differs")  # kinds that a roll-over opens again, if they are undecided
OF_THE_FILE = ("made", BEGUN, "restored")  # they say how a file began: none is carried
TYPES = {"n": "INTEGER", "after": "INTEGER", "of": "INTEGER"}
COLUMNS = (sealed.BOOK.key, *sealed.BOOK.columns)
SAYS = tuple(name for name in COLUMNS if name not in TYPES)  # also once it is carried
# crates/line_book_store/src/making.rt has the same; tracedesk-line audit looks at it
CREATE = "CREATE TABLE IF NOT EXISTS book ({}) STRICT".format(
    ", ".join(f"{name} {TYPES.get(name, 'TEXT')} NOT NULL" for name in COLUMNS).replace(
        "n INTEGER NOT NULL", "n INTEGER NOT NULL PRIMARY KEY", 1
    )
)


class BookEntry(NamedTuple):
    """A row of the table book."""

    n: int
    after: int
    kind: str
    source: str
    uid: str
    machine: str
    slot: str
    board: str
    reel: str
    word: str
    of: int
    told: str


# --- Reading


def of(file: Path, behind: int = 0) -> list[BookEntry]:
    """The entries of a file that nobody writes, behind this one; a file without a book has none."""
    with sealed.opened(file) as database:
        if not sealed.has(database, sealed.BOOK):
            return []
        query = f"SELECT {', '.join(COLUMNS)} FROM book WHERE n > ? ORDER BY n"
        return [BookEntry._make(row) for row in database.execute(query, [behind])]


def told(text: str) -> tuple[list[BookEntry], dict[int, str]]:
    """The entries in the CSV of /line/book, and the last column of each one that has one, by its
    number.
    """
    found, states = [], {}
    for row in csv.DictReader(io.StringIO(text, newline=""), strict=True):
        if state := row.pop("state"):
            states[int(row["n"])] = state
        values = (int(row[name]) if name in TYPES else row[name] for name in COLUMNS)
        found.append(BookEntry._make(values))
    return found, states


def raw(told: str) -> bytes:
    """What was said, as it came: a text that begins with a backslash is kept by its bytes."""
    return bytes.fromhex(told[2:]) if told.startswith("\\x") else told.encode()


def plain(told: str) -> str:
    return raw(told).decode()


def stock(entry: BookEntry) -> Stock:
    return entry.reel, entry.word


def held(book: Iterable[BookEntry]) -> dict[Stock, int]:
    """The numbers of the holds in force: the last one of each reel and lot, unless it was released
    since.
    """
    found: dict[Stock, int] = {}
    for its in book:
        if its.kind == HOLD:
            found[stock(its)] = its.n
        elif its.kind == RELEASE:
            found.pop(stock(its), None)
    return found


# --- Carrying


def carried_of(
    book: Sequence[BookEntry], standing: Collection[int], since: Sequence[BookEntry]
) -> list[BookEntry]:
    """The entries of a sealed book that the next one carries: those that stand, the holds in force,
    and those about which somebody decided since. Of such a hold that was released also the release.
    """
    in_force = set(held(book).values())
    wanted, last = {*standing, *in_force}, len(book)
    for its in reversed([*book, *since]):
        if its.kind == DECISION and (its.n > last or its.n in wanted):
            wanted.add(its.of)
    ended = {stock(its) for its in book if its.kind == HOLD and its.n in wanted - in_force}
    wanted |= {its.n for its in book if its.kind == RELEASE and stock(its) in ended}
    return [its for its in book if its.n in wanted and its.kind not in OF_THE_FILE]


class Carrying:
    """The book of a desk that was begun from a sealed file, which is named by `name`, and of which
    these entries stand. Its beginning has so many commands.
    """

    def __init__(
        self,
        book: Sequence[BookEntry],
        standing: Collection[int],
        name: dict[str, str],
        commands: int,
    ) -> None:
        self.book, self.standing, self.commands = book, standing, commands
        told = json.dumps(name, separators=(",", ":"))
        self.first = BookEntry(1, commands, BEGUN, "", "", "", "", "", "", "", 0, told)

    def with_since(self, since: Sequence[BookEntry], places: Mapping[int, int]) -> list[BookEntry]:
        """The same with what came since the seal: of each place there its place here. An entry
        that is about none that is here is about the beginning.
        """
        carried = carried_of(self.book, self.standing, since)
        numbers = {its.n: number for number, its in enumerate([*carried, *since], 2)}
        new = [self.first]
        for its in (*carried, *since):
            of = its.n if its in carried else 0
            if its.kind == DECISION:
                of = numbers.get(its.of, self.first.n)
            after = self.commands if its in carried else places[its.after]
            new.append(its._replace(n=numbers[its.n], after=after, of=of))
        return new


def write(file: Path, book: Sequence[BookEntry]) -> None:
    """Gives a desk that nobody serves this book, in one transaction."""
    values = ", ".join("?" * len(COLUMNS))
    with contextlib.closing(sqlite3.connect(file)) as database, database:
        database.execute("BEGIN")
        database.execute(CREATE)
        database.execute("DELETE FROM book")
        database.executemany(f"INSERT INTO book VALUES ({values})", book)
