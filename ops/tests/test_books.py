"""What the books of a line's files say of work that was refused, and of the reels that machines
name, by their tables alone.
"""
from __future__ import annotations

import contextlib
import json
import sqlite3
from collections.abc import Iterator

import pytest
from lab import messages
from tracedesk_ops import catalogue, entries, untraced
from tracedesk_ops.entries import BookEntry
from tracedesk_ops.untraced import Books

TABLES = """CREATE TABLE accepted (number INTEGER PRIMARY KEY, own INTEGER, effective INTEGER);
    CREATE TABLE placement (number INTEGER, board TEXT, designator TEXT, reel TEXT);
    INSERT INTO accepted VALUES (1, 30, 30), (2, 20, 30);
    INSERT INTO placement VALUES (2, 'B1', 'C1', 'K1'), (2, 'B1', 'C2', 'K2'), (2, 'B1', 'C3', 'K1'),
        (1, 'B1', 'C4', 'K1'), (2, 'B2', 'C1', 'K1');"""
DIFFERS = BookEntry(1, 1, "differs", "S", "u1", "M1", "1", "B1", "K9", "K1", 0, "C1 C3")
UNCOMPARED = BookEntry(1, 1, "uncompared", "S", "u1", "M1", "", "B1", "", "", 0, "{}")


def decision(number: int, of: int, became: str) -> BookEntry:
    told = json.dumps({"Of": of, "Became": became, "By": "A. Person", "Reason": "seen"})
    return BookEntry(number, 2, "decision", "", "", "", "", "", "", "", of, told)


@contextlib.contextmanager
def file_of(*book: BookEntry) -> Iterator[sqlite3.Connection]:
    """A file with this book, and with two commands, of which the second placed three pieces."""
    with contextlib.closing(sqlite3.connect(":memory:")) as database:
        database.executescript(TABLES)
        database.execute(entries.CREATE)
        database.executemany(f"INSERT INTO book VALUES ({', '.join('?' * 12)})", book)
        yield database


def read(*books: list[BookEntry]) -> Books:
    """Those of files f1, f2, .. with these books."""
    its = Books()
    for number, book in enumerate(books, 1):
        with file_of(*book) as database:
            its.read(f"f{number}", database)
    return its


def said(its: Books) -> list[tuple[str, ...]]:
    """Of each entry its id, the reels, the designators, and what became of the board."""
    by = its.decisions
    return [
        (
            *(it.id, it.reel, it.entry.reel, " ".join(it.designators)),
            by[it.id].became if it.id in by else "",
        )
        for it in its.entries
    ]


def test_a_file_without_a_book_says_nothing() -> None:
    with contextlib.closing(sqlite3.connect(":memory:")) as database:
        its = Books()
        its.read("f1", database)
    assert its.entries == [] and its.decisions == {}


@pytest.mark.parametrize("kind", ["differs", "boundary"])
def test_the_newest_decision_counts(kind: str) -> None:
    its = DIFFERS._replace(kind=kind)
    wanted = ("entry 1 of f1", "K1", "K9", "C1 C3")
    assert said(read([its])) == [(*wanted, "")]
    assert read([its]).entries[0].done == 20, "that of its install"
    decided = [its, decision(2, 1, "scrapped"), decision(3, 1, "reworked")]
    assert said(read(decided)) == [(*wanted, "reworked")]


def test_an_entry_that_is_carried_on_is_the_one_before_it() -> None:
    """Also twice, and each file has its own numbers."""
    begun = BookEntry(1, 2, "begun", "", "", "", "", "", "", "", 0, "{}")
    carried = DIFFERS._replace(n=2, after=2, of=1)
    other = DIFFERS._replace(n=3, uid="u2", board="B2")
    third = [begun, carried._replace(of=2), decision(3, 2, "scrapped"), decision(4, 1, "x")]
    assert said(read([DIFFERS], [begun, carried, other], third)) == [
        ("entry 1 of f1", "K1", "K9", "C1 C3", "scrapped"),
        ("entry 3 of f2", "K1", "K9", "C1 C3", ""),
    ]


def test_reels_that_cannot_be_compared_are_those_of_the_install() -> None:
    assert said(read([UNCOMPARED, decision(2, 1, "scrapped")])) == [
        ("entry 1 of f1", "K1", "", "C1 C3", "scrapped"),
        ("entry 1 of f1", "K2", "", "C2", "scrapped"),
    ]


@pytest.mark.parametrize("entry", [DIFFERS, UNCOMPARED])
def test_an_entry_whose_first_file_is_missing_is_one_too(entry: BookEntry) -> None:
    """Of one that can't be compared each piece of the board is in doubt."""
    ((id_, *_, names, became),) = said(read([entry._replace(after=2, of=7)]))
    assert (id_, became) == ("entry 1 of f1", "")
    assert names == ("C1 C3" if entry is DIFFERS else "")


def test_a_decision_is_not_about_another_entry_of_the_same_words() -> None:
    """A sender may use a UniqueID again that the desk has forgotten."""
    its = said(read([DIFFERS, decision(2, 1, "scrapped")], [DIFFERS]))
    assert its == [("entry 1 of f2", "K1", "K9", "C1 C3", "")]


# --- Refused work

SAID = messages.message("WorkStarted", "u1", catalogue.spelled(40), "S", Machine="M1", Board="B1")
STARTED = BookEntry(1, 2, "work", "S", "u1", "M1", "1", "B1", "", "SlotEmpty", 0, SAID.decode())


def test_refused_work_is_that_of_its_message_until_somebody_decides() -> None:
    (its,) = read([STARTED]).entries
    assert (its.minutes(), untraced.is_work(its)) == ([30, 40], True)
    row = ["work", "1970-01-01T00:30:00Z", "M1", "B1", "WorkStarted", "SlotEmpty", "1", "S"]
    assert untraced.said(its) == ["entry 1 of f1", *row]
    begun = BookEntry(1, 2, "begun", "", "", "", "", "", "", "", 0, "{}")
    carried = [begun, STARTED._replace(n=2, of=1), decision(3, 2, "reworked")]
    books = read([STARTED], carried)
    assert [it.id for it in books.entries] == ["entry 1 of f1"]
    assert books.decisions["entry 1 of f1"] == untraced.Decision("reworked", "A. Person", "seen")


ODD = {  # what no desk can read, and what a line keeps of it
    "bytes": "\\xff00",
    "no JSON": '{"MessageName":"TraceDesk.WorkStarted","MessageBody":{"Bo',
    "deep": '{"MessageBody":' + '{"a":' * 50_000 + "1" + "}" * 50_001,
    "long": '{"MessageBody":{"Designators":[%s]}}' % ",".join(["1e15"] * 50_000),
    "a list": "[7]",
    "odd members": '{"MessageName":7,"TimeStamp":[],"MessageBody":{"Board":"\\ud83d\\r\\u0000"}}',
}


@pytest.mark.parametrize("name", ODD)
def test_what_nobody_can_read_may_be_work(name: str) -> None:
    unread = BookEntry(1, 2, "unread", "", "", "", "", "", "", "NotJson", 0, ODD[name])
    (its,) = read([unread]).entries
    assert untraced.is_work(its) and its.minutes() == [30]
    said = untraced.said(its)
    assert all(text.isprintable() and len(text) < 2 * untraced.MOST_SAID for text in said)
    table = [said]
    assert [*catalogue.csv_rows(catalogue.csv_text(table))] == table


@pytest.mark.parametrize("kind", ["handling", "stray", "unread"])
def test_a_refused_load_needs_no_decision(kind: str) -> None:
    told = messages.message("MaterialsLoaded", "u1", catalogue.spelled(40), "S", Slot="1")
    (its,) = read([STARTED._replace(kind=kind, told=told.decode())]).entries
    assert untraced.is_handling(its) and not untraced.is_work(its)
