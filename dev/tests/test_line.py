"""tracedesk-line and files that nobody serves, without a book and with one: its output, its exit
statuses, and that it changes no file that it is only asked about.
"""
import json
import pathlib
import sqlite3
import subprocess

from typing import Mapping, NamedTuple

import pytest
from tracedesk_ops import stored

SETUP = [
    "PartDefined P",
    "SheetDefined PR M 1 1 P 1 R1",
    "ProductSelected M PR",
    "ReelReceived K1 P L1 1 100 0",
]
LOADED = [*SETUP, "MaterialsLoaded M 1 K1"]
STARTED = [*LOADED, "WorkStarted M B1"]
BOOK = """
    CREATE TABLE book (n INTEGER NOT NULL PRIMARY KEY, after INTEGER NOT NULL, kind TEXT NOT NULL,
        source TEXT NOT NULL, uid TEXT NOT NULL, machine TEXT NOT NULL, slot TEXT NOT NULL,
        board TEXT NOT NULL, reel TEXT NOT NULL, word TEXT NOT NULL, of INTEGER NOT NULL,
        told TEXT NOT NULL) STRICT
"""
TOLD = stored.message("u9", "S", 0, "MaterialsLoaded\tM\t1\tK9")
Cause = Mapping[str, str | int | None]
OPEN: Cause = {
    "Cause": "Open",
    "Entry": 1,
    "Kind": "handling",
    "Reel": "K9",
    "Refusal": "UnknownReel",
    "Slot": "1",
}
HEADER = "n,after,kind,source,uid,machine,slot,board,reel,word,of,told,state\n"
DOUBTS = "number,place,board,designator,part,lot,reel,machine,slot,minute,reason,of\n"
HOLD = '{"Hold":"reel","Name":"K1","By":"A","Reason":"r"}'
EMPTY: Cause = {"Cause": "AtSlot", "Reel": None, "Refusal": "SlotEmpty", "Slot": "1"}


def entry(number: int, after: int) -> str:
    """The refused load of a reel that isn't known, in the book."""
    says = f"'handling', 'S', 'u9', 'M', '1', '', 'K9', 'UnknownReel', 0, '{TOLD}'"
    return f"INSERT INTO book VALUES ({number}, {after}, {says})"


class Ended(NamedTuple):
    status: int
    output: str
    errors: str


class Files:
    """Desk files in a folder, and the programs."""

    def __init__(self, program: pathlib.Path, line: pathlib.Path, folder: pathlib.Path) -> None:
        self.program, self.line, self.folder = program, line, folder

    def feed(self, lines: list[str]) -> None:
        """Makes the file line.db of these commands: stored texts, with spaces for tabs."""
        messages = [
            stored.message(f"u{number}", "S", 0, line.replace(" ", "\t")) + "\n"
            for number, line in enumerate(lines, 1)
        ]
        words = [str(self.program), "feed", "--db", str(self.folder / "line.db")]
        said = "".join(messages)
        subprocess.run(words, input=said, capture_output=True, text=True, check=True)

    def sql(self, *statements: str) -> None:
        desk = sqlite3.connect(self.folder / "line.db")
        with desk:
            for it in statements:
                desk.execute(it)
        desk.close()

    def contents(self) -> dict[str, bytes]:
        return {file.name: file.read_bytes() for file in self.folder.glob("*.db")}

    def run(self, *words: str) -> Ended:
        done = subprocess.run([self.line, *words], capture_output=True, text=True, cwd=self.folder)
        return Ended(done.returncode, done.stdout, done.stderr)

    def ask(self, *words: str) -> Ended:
        """A run with these words, which changes no file, and makes none."""
        before = self.contents()
        ended = self.run(*words)
        assert self.contents() == before
        return ended

    def audit(self) -> Ended:
        return self.ask("audit", "--db", "line.db")

    def book(self) -> Ended:
        return self.ask("book", "--db", "line.db")

    def doubt(self, *words: str) -> Ended:
        return self.ask("doubt", "--db", "line.db", *words)

    def state(self, machine: str = "M") -> Ended:
        return self.ask("state", "--db", "line.db", "--machine", machine)

    def note(self, kind: str, told: str) -> Ended:
        return self.run("note", "--db", "line.db", "--kind", kind, "--told", told)


@pytest.fixture
def files(program: pathlib.Path, line_program: pathlib.Path, tmp_path: pathlib.Path) -> Files:
    return Files(program, line_program, tmp_path)


def state_of(number: int, board: str | None, *causes: Cause) -> str:
    state = {
        "Answer": "State",
        "Board": board,
        "Causes": list(causes),
        "Machine": "M",
        "Number": number,
        "State": "stop" if causes else "go",
    }
    return json.dumps(state, separators=(",", ":")) + "\n"


@pytest.mark.parametrize(
    "lines, told",
    [
        (STARTED, state_of(6, "B1")),
        (LOADED, state_of(5, None, {"Cause": "NoWork"})),
        (SETUP, state_of(4, None, {"Cause": "NoWork"}, EMPTY)),
        ([*STARTED, "MaterialsUnloaded M 1"], state_of(7, "B1", EMPTY)),
    ],
)
def test_a_file_without_a_book_is_read_as_one_with_an_empty_book(
    files: Files, lines: list[str], told: str
) -> None:
    files.feed(lines)
    assert files.audit() == (0, f"lawful {len(lines)} book 0\n", "")
    assert files.state() == (0, told, "")


def test_an_open_entry_stops_its_machine(files: Files) -> None:
    files.feed(STARTED)
    files.sql(BOOK, entry(1, 6))
    assert files.audit() == (0, "lawful 6 book 1\n", "")
    assert files.state() == (0, state_of(6, "B1", OPEN), "")
    files.feed([*STARTED, "MaterialsUnloaded M 1", "MaterialsLoaded M 1 K1"])
    assert files.state() == (0, state_of(8, "B1"), "")


def test_a_book_is_printed_with_what_its_entries_ask_for(files: Files) -> None:
    files.feed(STARTED)
    assert files.book() == (0, HEADER, "")
    files.sql(BOOK, entry(1, 6))
    row = '1,6,handling,S,u9,M,1,,K9,UnknownReel,0,"{}",{}\n'
    told = TOLD.replace('"', '""')
    assert files.book() == (0, HEADER + row.format(told, "open"), "")
    files.feed([*STARTED, "MaterialsUnloaded M 1", "MaterialsLoaded M 1 K1"])
    assert files.book() == (0, HEADER + row.format(told, ""), "")


def test_pieces_in_doubt_are_printed_with_the_first_reason(files: Files) -> None:
    work = [*STARTED, "MaterialsInstalled M B1 1 R1", "WorkCompleted M B1", "WorkStarted M B2"]
    files.feed([*work, "MaterialsInstalled M B2 1 R1"])
    assert files.doubt() == (0, DOUBTS, "")
    files.sql(BOOK, entry(1, 8))
    row = "10,1,B2,R1,P,L1,K1,M,1,0,entry,1\n"
    assert files.doubt() == (0, DOUBTS + row, "")
    files.sql("UPDATE book SET after = 3")
    assert files.doubt("--within", "9") == (0, DOUBTS, "")


def test_lists_that_are_missing_are_made(files: Files) -> None:
    for _ in range(2):
        assert files.run("make", "--db", "line.db") == (0, "lawful 0 book 0\n", "")
    assert files.book() == (0, HEADER, "")
    (files.folder / "line.db").unlink()
    files.feed(STARTED)
    assert files.run("make", "--db", "line.db") == (0, "lawful 6 book 0\n", "")
    assert files.audit() == (0, "lawful 6 book 0\n", "")
    files.sql(entry(1, 6))
    assert files.run("make", "--db", "line.db") == (0, "lawful 6 book 1\n", "")


def test_what_somebody_says_is_an_entry(files: Files) -> None:
    files.feed(STARTED)
    assert files.note("hold", HOLD) == (0, '{"Answer":"Held","Entry":1}\n', "")
    held: Cause = {"Cause": "Held", "Entry": 1, "Reel": "K1", "Slot": "1"}
    assert files.state() == (0, state_of(6, "B1", held), "")
    decided = '{"Of":1,"Became":"kept","By":"A","Reason":"r"}'
    assert files.note("decision", decided) == (0, '{"Answer":"Decided","Entry":2}\n', "")
    released = HOLD.replace("Hold", "Release")
    assert files.note("release", released) == (0, '{"Answer":"Released","Entry":3}\n', "")
    assert files.state() == (0, state_of(6, "B1"), "")
    kinds = [line.split(",")[2] for line in files.book().output.splitlines()[1:]]
    assert kinds == ["hold", "decision", "release"]


@pytest.mark.parametrize(
    "kind, told, answer",
    [
        ("hold", "wrong label", '{"Answer":"Faulty","Fault":"NotJson"}'),
        ("hold", "{}", '{"Answer":"Faulty","Fault":"BodyMember","Member":"Hold"}'),
        (
            "decision",
            '{"Of":2,"Became":"kept","By":"A","Reason":"r"}',
            '{"Answer":"NotFound","Kind":"Entry"}',
        ),
    ],
)
def test_what_is_not_taken_writes_no_entry(files: Files, kind: str, told: str, answer: str) -> None:
    files.feed(STARTED)
    assert files.note(kind, told) == (1, answer + "\n", "")
    assert files.audit() == (0, "lawful 6 book 0\n", "")


def test_no_sheet_is_for_a_machine(files: Files) -> None:
    files.feed(STARTED)
    assert files.state("M2") == (1, '{"Answer":"NotFound","Kind":"Machine"}\n', "")


@pytest.mark.parametrize(
    "change, fault",
    [
        ([BOOK, entry(1, 7)], "WrongEntry 1"),
        ([BOOK, entry(2, 6)], "WrongEntry 1"),
        ([BOOK.replace("told TEXT", "said TEXT")], "OtherColumns"),
        (["CREATE TABLE other (n INTEGER NOT NULL)", BOOK], "OthersFirst"),
    ],
)
def test_a_wrong_book_is_refused_by_name(files: Files, change: list[str], fault: str) -> None:
    files.feed(STARTED)
    files.sql(*change)
    for ended in files.audit(), files.state(), files.book(), files.doubt():
        assert ended == (3, "", f"tracedesk: book {fault}\n")
    before = files.contents()
    for ended in files.run("make", "--db", "line.db"), files.note("hold", HOLD):
        assert ended == (3, "", f"tracedesk: book {fault}\n")
    assert files.contents() == before


def test_a_wrong_history_is_refused_by_name(files: Files) -> None:
    for ended in files.audit(), files.doubt():
        assert ended == (3, "", "tracedesk: NotADesk\n")
    files.feed(STARTED)
    files.sql("UPDATE reel SET remaining = 99, scrapped = 1")
    for ended in files.audit(), files.doubt():
        assert ended == (3, "", "tracedesk: TableDiffers reel\n")


@pytest.mark.parametrize(
    "words",
    [
        (),
        ("serve",),
        ("state", "--db", "line.db"),
        ("state", "--db", "line.db", "--machine", " M"),
        ("audit", "--db", "line.db", "--machine", "M"),
        ("book", "--db", "line.db", "--after", "1"),
        ("doubt", "--db", "line.db", "--within", "0"),
        ("doubt", "--within", "1"),
        ("make",),
        ("note", "--db", "line.db", "--kind", "hold"),
        ("note", "--db", "line.db", "--kind", "attribute", "--told", "{}"),
    ],
)
def test_arguments_without_a_meaning(files: Files, words: tuple[str, ...]) -> None:
    ended = files.ask(*words)
    assert (ended.status, ended.output) == (2, "") and ended.errors


def test_an_output_that_fails(files: Files) -> None:
    files.feed(STARTED)
    words = [str(files.line), "audit", "--db", "line.db"]
    with open("/dev/full", "wb") as full:
        done = subprocess.run(words, stdout=full, stderr=subprocess.PIPE, cwd=files.folder)
    assert (done.returncode, done.stderr) == (4, b"tracedesk: Write\n")
