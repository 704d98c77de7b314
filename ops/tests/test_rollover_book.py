"""What roll-overs carry on of a line's book: what is open or undecided, and the holds in force."""
from __future__ import annotations

import json
import pathlib

import pytest

from lab.desk import change
from lab.line import Line
from lab.messages import part
from lab.programs import wrapped
from lab.tools import run_changed, run_tool
from tracedesk_ops import entries, sealed
from tracedesk_ops.entries import BookEntry

Path = pathlib.Path

SAID = {"By": "A. Person", "Reason": "looked at"}
UNREAD = b'{"MessageName":"TraceDesk.WorkStarted","UniqueID":"%s"}'
AS_IT_WAS = "the old desk is as it was"


def book(line: Line) -> tuple[list[BookEntry], dict[int, str]]:
    return entries.told(line.get("/line/book?after=0")[1])


def brief(line: Line) -> list[tuple[str, str, int, str]]:
    """Of each entry its kind, the reel or the word, what it is about, and its state."""
    found, states = book(line)
    return [(its.kind, its.reel or its.word, its.of, states.get(its.n, "")) for its in found]


def causes(line: Line) -> list[tuple[str, int | None]]:
    told = json.loads(line.get("/line/state?machine=M")[1])
    assert told["State"] == "stop"
    return [(it["Cause"], it.get("Entry")) for it in told["Causes"] if it["Cause"] != "NoWork"]


OPEN, UNDECIDED = "open", "undecided"
STANDS = [  # of `entered`: kind, reel or word, number, state
    ("handling", "K9", 3, OPEN),
    ("stray", "K1", 4, OPEN),
    ("unread", "EnvelopeMember", 5, UNDECIDED),
    ("unread", "EnvelopeMember", 6, UNDECIDED),
    ("hold", "L1", 9, ""),
]


@pytest.fixture
def entered(line: Line) -> Line:
    """A line whose book has closed entries, those of STANDS, a decision, and a hold that was
    released; machine M is stopped.
    """
    load = {"Machine": "M", "Slot": "1"}
    line.say("MaterialsLoaded", **load, Reel="K8")
    line.say("MaterialsUnloaded", Machine="M", Slot="none")
    line.say("MaterialsUnloaded", **load)
    line.say("MaterialsLoaded", **load, Reel="K1")
    line.say("MaterialsLoaded", **load, Reel="K9")
    line.say("MaterialsLoaded", Machine="M", Slot="none", Reel="K1")
    line.post([UNREAD % b"a", UNREAD % b"b", UNREAD % b"c"])
    line.note("decisions", Of=7, Became="nothing")
    line.note("holds", Hold="lot", Name="L1")
    line.note("holds", Hold="reel", Name="K7")
    line.note("releases", Release="reel", Name="K7")
    assert causes(line) == [("Open", 3), ("Open", 4), ("Held", 9)]
    return line


def expect_begun(line: Line, *those: tuple[str, str, int, str]) -> None:
    """The book begins with these, behind the name of the file from which the desk was begun."""
    ((its, *_), _), file = book(line), line.newest()
    assert json.loads(its.told) == {"File": file.name, "Sha256": sealed.read(file).sha256}
    assert brief(line) == [("begun", "", 0, ""), *those]


def test_what_stands_is_carried_once_over_two_roll_overs(entered: Line) -> None:
    entered.rollover().expect(0, "5 of 11 entries of the book are carried over")
    expect_begun(entered, *STANDS)
    assert causes(entered) == [("Open", 2), ("Open", 3), ("Held", 6)]
    entered.say("MaterialsLoaded", Machine="M", Slot="1", Reel="K9")  # again, as one that is open
    entered.post([UNREAD % b"a"])
    assert len(book(entered)[0]) == 6
    entered.say("MaterialsUnloaded", Machine="M", Slot="1")
    entered.note("decisions", Of=5, Became="nothing")
    entered.note("releases", Release="lot", Name="L1")
    entered.rollover().expect(0, "2 of 8 entries of the book are carried over")
    expect_begun(entered, ("stray", "K1", 3, OPEN), ("unread", "EnvelopeMember", 4, UNDECIDED))
    assert ("Open", 2) in causes(entered)
    run_tool("ops", "check", entered.folder, "--program", entered.program).expect(0, "2 files")


def test_what_comes_meanwhile_is_in_the_new_book(entered: Line, folder: Path) -> None:
    """Also a decision about an entry that was closed before, and one about a released hold."""
    before = f"curl -s -o /dev/null http://127.0.0.1:{entered.port}"
    decided = [
        f"{before}/line/decisions -d '{json.dumps({'Of': of, 'Became': 'nothing', **SAID})}'"
        for of in (1, 10, 5, 3)
    ]
    others = [f"{before}/messages -d '{it.decode()}'" for it in (UNREAD % b"d", part("new"))]
    program = wrapped(folder, entered.program, "alike", "\n".join([*decided, *others]))
    entered.rollover(program=program).expect(0, "1 commands and 5 entries of the book came")
    closed = [(*its[:3], "") for its in STANDS[2:3]]
    expect_begun(
        entered,
        ("handling", "K8", 1, ""),
        (*STANDS[0][:3], ""),
        STANDS[1],
        *closed,
        *STANDS[3:],
        ("hold", "K7", 10, ""),
        ("release", "K7", 11, ""),
        *(("decision", "", of, "") for of in (2, 8, 5, 3)),
        ("unread", "EnvelopeMember", 0, UNDECIDED),
    )
    assert causes(entered) == [("Open", 4), ("Held", 7)]
    assert entered.uids()["x-new"] == 1


FAULTS = {
    "one that is open is left out": "entries.carried_of = lambda *its: of(*its)[1:]",
    "a hold is left out": "entries.carried_of = lambda *its: of(*its)[:-1]",
    "one more is carried": "entries.carried_of = lambda book, *its: [*book[:1], *of(book, *its)]",
    "it is placed before the beginning": "entries.BookEntry._replace = early",
}
CHANGE = """
from tracedesk_ops import entries
of, replaced = entries.carried_of, entries.BookEntry._replace
early = lambda its, **more: replaced(its, **{**more, "after": 1})
"""


@pytest.mark.parametrize("fault", FAULTS)
def test_a_book_that_isnt_carried_rightly_leaves_the_old_desk(entered: Line, fault: str) -> None:
    words = entered.rollover_words()
    run_changed("ops", words[1:], CHANGE + FAULTS[fault]).expect(3, AS_IT_WAS)
    assert causes(entered) == [("Open", 3), ("Open", 4), ("Held", 9)]


@pytest.mark.parametrize("word", ["audit", "serve"])
def test_without_the_program_the_old_desk_goes_on(entered: Line, folder: Path, word: str) -> None:
    program = wrapped(folder, entered.program, word, "echo tracedesk: book Unavailable >&2; exit 3")
    entered.rollover(program=program).expect(3, AS_IT_WAS, "book Unavailable")
    assert causes(entered) == [("Open", 3), ("Open", 4), ("Held", 9)]


def test_a_file_of_tracedesk_has_no_entry_to_carry(line: Line) -> None:
    line.end()
    change(line.file, "DROP TABLE book")
    line.rollover("--if-due", "--pieces", 0).expect(0, "0 of 0 entries of the book")
    line.serve()
    expect_begun(line)
