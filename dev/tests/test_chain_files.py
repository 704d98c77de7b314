"""tracedesk-chain is asked about chains of desk files with gaps: each answer is one that was worked
out by hand.

`tracedesk feed` makes three files, two of them begun from the one before, and a
chain of twenty. Then the program is asked about them in order, with one missing, one twice, two
turned round, and older copies. No file is changed.
"""
import hashlib
import pathlib
import shutil
import subprocess

from typing import NamedTuple

import pytest
from tracedesk_dev import begun
from tracedesk_ops import stored

pytestmark = pytest.mark.xdist_group("chain_files")


def board(name: str, minute: int) -> list[str]:
    return [
        f"{minute} WorkStarted M {name}",
        f"{minute + 1} MaterialsInstalled M {name} 1 R1",
        f"{minute + 2} WorkCompleted M {name}",
    ]


SETUP = [
    "0 PartDefined P",
    "0 SheetDefined PR M 1 1 P 1 R1",
    "0 ProductSelected M PR",
    "1 ReelReceived K1 P L1 1 1000 0",
    "2 ReelOpened K1",
    "3 MaterialsLoaded M 1 K1",
]
# A second reel, of another lot, is received and spliced, and the first one is used up.
SPENT = [
    "15 ReelReceived K2 P L2 1 5 0",
    "15 ReelOpened K2",
    "16 MaterialsSpliced M 1 K2",
    "17 MaterialsScrapped M 1 999",
]
# Three boards of three reels, of which the second is of the first one's lot, and the third of
# another.
REELS = [
    *board("B7", 20),
    "25 ReelReceived K3 P L1 1 1 0",
    "25 ReelReceived K2 P L2 1 1 0",
    "25 ReelOpened K3",
    "25 ReelOpened K2",
    "26 MaterialsSpliced M 1 K3",
    "26 MaterialsSpliced M 1 K2",
    "27 MaterialsScrapped M 1 998",
    *board("B8", 30),
    *board("B9", 40),
]
LISTS = {
    "K1.txt": "K1",
    "K2.txt": "K2\n",
    "K3.txt": "K3\n",
    "both.txt": "K1\nK2\nK1\n",
    "K2-K3.txt": "K3\nK2\nK9\n",
    "none.txt": "",
    "gap.txt": "K1\n\nK2\n",
    "end.txt": "K1\n\n",
    "windows.txt": "K1\r\n",
    "long.txt": "K1\n" * 400_000,
}
ROWS = "board,file\nB1,a.db\nB2,b.db\nB3,b.db\nB4,c.db\n"
PIECES = "board,designator,part,lot,reel,machine,slot,overdue,minute,file\n"
ONE = "B1,R1,P,L1,K1,M,1,no,11,a.db\n"
OF_B = "B2,R1,P,L1,K1,M,1,no,21,b.db\nB3,R1,P,L1,K1,M,1,no,31,b.db\n"
OF_R = "B8,R1,P,L1,K3,M,1,no,31,r.db\nB9,R1,P,L2,K2,M,1,no,41,r.db\n"
WITHOUT = "--without-marks"
ALL = ["a.db", "b.db", "c.db"]


class Ended(NamedTuple):
    """How a run ended, with its last line on standard error."""

    status: int
    output: str
    last: str


class Files:
    """A folder with desk files, and the programs that make them and are asked about them."""

    def __init__(self, program: pathlib.Path, chain: pathlib.Path, folder: pathlib.Path) -> None:
        self.program, self.chain, self.folder = program, chain, folder
        self.say("a.db", "a", SETUP + board("B1", 10))
        self.carry_on("a.db", "b.db", board("B2", 20))
        self.copy("b.db", "b-early.db")
        self.say("b.db", "late", board("B3", 30))
        self.carry_on("b.db", "c.db", board("B4", 40))
        self.copy("b.db", "twice.db")
        self.copy("a.db", "-x.db")
        self.say("same.db", "same", SETUP + board("B1", 10))
        self.carry_on("a.db", "fork.db", board("B5", 20))
        self.carry_on("b.db", "later-fork.db", board("B6", 40))
        self.carry_on("a.db", "e.db", SPENT + board("B1", 20))
        self.carry_on("a.db", "r.db", REELS)
        for name, text in LISTS.items():
            (folder / name).write_text(text)

    def copy(self, old: str, new: str) -> None:
        shutil.copy(self.folder / old, self.folder / new)

    def feed(self, name: str, text: str) -> None:
        words = [str(self.program), "feed", "--db", str(self.folder / name)]
        subprocess.run(words, input=text, capture_output=True, text=True, check=True)

    def say(self, name: str, prefix: str, lines: list[str]) -> None:
        """Has a desk accept these commands: a minute and a command's stored text, with spaces for
        tabs.
        """
        messages = []
        for number, line in enumerate(lines):
            minute, text = line.replace(" ", "\t").split("\t", 1)
            messages.append(stored.message(f"{prefix}{number}", "S", int(minute), text) + "\n")
        self.feed(name, "".join(messages))

    def checksum(self, name: str) -> str:
        return hashlib.sha256((self.folder / name).read_bytes()).hexdigest()

    def begin(self, old: str, new: str, mark: str = "") -> None:
        """Begins a desk from an old one. Its UniqueIDs have this mark in place of the old file's
        checksum.
        """
        lines = begun.messages_of(self.folder / old)
        own, said = self.checksum(old)[:24], b"\n".join([*lines, b""]).decode()
        self.feed(new, said.replace(f"begin-{own}-", f"begin-{mark or own}-"))

    def carry_on(self, old: str, new: str, lines: list[str], mark: str = "") -> None:
        self.begin(old, new, mark)
        self.say(new, new.removesuffix(".db"), lines)

    def contents(self) -> dict[str, bytes]:
        return {file.name: file.read_bytes() for file in self.folder.glob("*.db")}

    def asked(self, *words: str) -> Ended:
        """A run with these words, which changes no file."""
        before = self.contents()
        done = subprocess.run([self.chain, *words], capture_output=True, text=True, cwd=self.folder)
        assert self.contents() == before
        said = done.stderr.splitlines()
        return Ended(done.returncode, done.stdout, said[-1] if said else "")

    def answers(self, *words: str) -> str:
        ended = self.asked(*words)
        assert ended.status == 0, ended
        return ended.output

    def stops(self, status: int, last: str, *words: str) -> None:
        assert self.asked(*words) == (status, "", f"tracedesk-chain: {last}")


@pytest.fixture(scope="module")
def files(
    program: pathlib.Path, chain: pathlib.Path, tmp_path_factory: pytest.TempPathFactory
) -> Files:
    return Files(program, chain, tmp_path_factory.mktemp("chain"))


@pytest.mark.parametrize(
    "words, output",
    [
        (["lot", "L1", *ALL], ROWS),
        (["lot", "L2", *ALL], "board,file\n"),
        (["lot", "L1", "a.db"], "board,file\nB1,a.db\n"),
        (["board", "B2", *ALL], "lot,file\nL1,b.db\n"),
        (["reel", "K1", *ALL], ROWS),
        (["reel", "K2", *ALL], "board,file\n"),
        (["reels", "K1.txt", *ALL], ROWS),
        (["reels", "both.txt", *ALL], ROWS),
        (["reels", "K2.txt", *ALL], "board,file\n"),
        (["lot", "L1", "--part", "P", *ALL], ROWS),
        (["lot", "L1", "--part", "Q", *ALL], "board,file\n"),
        (["lot", "L1", "--part", "P", "--pieces", "a.db"], PIECES + ONE),
        (["lot", "--part", "P", "--pieces", "--", "L1", "a.db"], PIECES + ONE),
        (["lot", "L1", "--pieces", "a.db", "b.db"], PIECES + ONE + OF_B),
        (["board", "B4", "--pieces", *ALL], PIECES + "B4,R1,P,L1,K1,M,1,no,41,c.db\n"),
        (["reel", "K1", "--pieces", "a.db"], PIECES + ONE),
        (["lot", "L1", "--pieces", "--from-middle", "b.db"], PIECES + OF_B),
        # what a chain can't see: the newest file is missing
        (["lot", "L1", "a.db", "b.db"], "board,file\nB1,a.db\nB2,b.db\nB3,b.db\n"),
        (["lot", "L1", "--from-middle", "b.db", "c.db"], "board,file\nB2,b.db\nB3,b.db\nB4,c.db\n"),
        # in the next file the first lot is used up, and a board of the same name gets a piece of
        # another lot
        (["board", "B1", "a.db", "e.db"], "lot,file\nL1,a.db\nL2,e.db\n"),
        (["lot", "L2", "a.db", "e.db"], "board,file\nB1,e.db\n"),
        (["reel", "K2", "a.db", "e.db"], "board,file\nB1,e.db\n"),
        # two reels of one lot, and one of another
        (["reel", "K3", "a.db", "r.db"], "board,file\nB8,r.db\n"),
        (["reels", "K3.txt", "a.db", "r.db"], "board,file\nB8,r.db\n"),
        (["reels", "both.txt", "a.db", "r.db"], "board,file\nB1,a.db\nB7,r.db\nB9,r.db\n"),
        (["reels", "K2-K3.txt", "a.db", "r.db"], "board,file\nB8,r.db\nB9,r.db\n"),
        (["reels", "--pieces", "--", "K2-K3.txt", "a.db", "r.db"], PIECES + OF_R),
        (["lot", "L1", "a.db", "r.db"], "board,file\nB1,a.db\nB7,r.db\nB8,r.db\n"),
        (
            ["board", "B1", "--pieces", "a.db", "e.db"],
            PIECES + ONE + "B1,R1,P,L2,K2,M,1,no,21,e.db\n",
        ),
        # what looks like an option comes behind --
        (["lot", "L1", "--", "-x.db"], "board,file\nB1,-x.db\n"),
        (["lot", "L1", "--", *ALL], ROWS),
        (["lot", "--", "--odd", "a.db"], "board,file\n"),
        (["lot", "--pieces", "--", "L1", "a.db"], PIECES + ONE),
        (["lot", "-odd", "a.db"], "board,file\n"),
    ],
)
def test_a_question_has_its_answer(words: list[str], output: str, files: Files) -> None:
    assert files.answers(*words) == output


@pytest.mark.parametrize("question", [["lot", "L1"], ["check"]])
@pytest.mark.parametrize(
    "names, before",
    [
        (["a.db", "c.db"], "b.db"),
        (["a.db", "b-early.db", "c.db"], "b.db"),
        (["a.db", "b.db", "twice.db"], "a.db"),
        (["a.db", "b.db", "fork.db"], "a.db"),
        (["same.db", "b.db"], "a.db"),
        (["b.db", "c.db"], "a.db"),
    ],
)
def test_a_file_names_the_one_before_it_so_no_gap_and_no_other_order_has_an_answer(
    question: list[str], names: list[str], before: str, files: Files
) -> None:
    first = names[0 if names[0] == "b.db" else -1]
    mark = files.checksum(before)[:24]
    files.stops(5, f"{first}: begun from {mark}", *question, *names)


@pytest.mark.parametrize(
    "names, follows",
    [
        (["a.db", "b.db", "fork.db"], ["fork.db: follows a.db"]),
        (["a.db", "b.db", "c.db", "fork.db"], ["fork.db: follows a.db"]),
        (["a.db", "b.db", "c.db", "later-fork.db"], ["later-fork.db: follows b.db"]),
        (["a.db", "c.db"], []),
        (["c.db", "b.db"], []),
    ],
)
def test_of_a_fork_the_file_that_both_follow_is_named(
    names: list[str], follows: list[str], files: Files
) -> None:
    words = [str(files.chain), "check", *names]
    said = subprocess.run(words, capture_output=True, text=True, cwd=files.folder).stderr
    told = [it for it in said.splitlines()[:-1] if "commands" not in it]
    assert told == [f"tracedesk-chain: {it}" for it in follows]


@pytest.mark.parametrize(
    "words",
    [
        ["check", "--from-middle", "b.db", "c.db", "a.db"],
        ["check", "a.db", "same.db"],
        ["check", "a.db", "a.db"],
    ],
)
def test_a_file_that_was_begun_from_none_comes_first(words: list[str], files: Files) -> None:
    files.stops(5, f"{words[-1]}: begun from no file", *words)


@pytest.mark.parametrize(
    "words, stop",
    [
        (["lot", "L1", WITHOUT, "a.db", "c.db"], "c.db: differs minute 12 32"),
        (["check", WITHOUT, "a.db", "c.db"], "c.db: differs minute 12 32"),
        (["check", WITHOUT, "a.db", "b-early.db", "c.db"], "c.db: differs minute 22 32"),
        (["check", WITHOUT, "a.db", "b.db", "twice.db"], "twice.db: differs minute 32 12"),
        (
            ["check", "--from-middle", WITHOUT, "b.db", "c.db", "a.db"],
            "a.db: differs minute 42 none",
        ),
        (["check", WITHOUT, "a.db", "same.db"], "same.db: differs minute 12 none"),
        (["check", WITHOUT, "a.db", "a.db"], "a.db: differs minute 12 none"),
    ],
)
def test_without_marks_the_desks_alone_tell_a_gap_where_they_do(
    words: list[str], stop: str, files: Files
) -> None:
    files.stops(1, stop, *words)


@pytest.mark.parametrize(
    "names, output",
    [(ALL, ROWS), (["same.db", "b.db"], "board,file\nB1,same.db\nB2,b.db\nB3,b.db\n")],
)
def test_an_answer_without_marks_says_so(names: list[str], output: str, files: Files) -> None:
    said = "tracedesk-chain: without marks: a gap or a fork may not show"
    assert files.asked("lot", "L1", WITHOUT, *names) == (0, output, said)


@pytest.mark.parametrize(
    "name, begin, end, status",
    [
        ("46 digits", 0, 46, 0),
        ("25 digits", 0, 25, 0),
        ("23 digits", 0, 23, 5),
        ("another last digit", 0, 46, 5),
        ("no beginning", 1, 25, 5),
        ("capitals", 0, 24, 5),
    ],
)
def test_a_mark_has_24_digits_or_more_and_all_are_compared(
    name: str, begin: int, end: int, status: int, files: Files
) -> None:
    mark = files.checksum("a.db")[begin:end]
    if name == "another last digit":
        mark = mark[:-1] + ("0" if mark[-1] != "0" else "1")
    if name == "capitals":
        assert mark.upper() != mark, "the checksum has a letter"
        mark = mark.upper()
    file = f"mark-{name.replace(' ', '-')}.db"
    files.carry_on("a.db", file, board("B6", 20), mark)
    if status:
        files.stops(status, f"{file}: begun from {mark}", "lot", "L1", "a.db", file)
    else:
        assert files.answers("lot", "L1", "a.db", file) == f"board,file\nB1,a.db\nB6,{file}\n"


def test_each_file_has_to_be_a_desk(files: Files) -> None:
    files.stops(3, "none.db: NotADesk", "check", "a.db", "none.db")


def test_a_line_for_each_file_has_its_mark(files: Files) -> None:
    marks = {name: files.checksum(name)[:24] for name in ALL}
    done = subprocess.run(
        [files.chain, "check", *ALL], capture_output=True, text=True, cwd=files.folder
    )
    assert done.stderr.splitlines() == [
        "tracedesk-chain: a.db: 9 commands, last minute 12; 3 to go",
        f"tracedesk-chain: b.db: 23 commands, last minute 32, begun from {marks['a.db']}; 2 to go",
        f"tracedesk-chain: c.db: 25 commands, last minute 42, begun from {marks['b.db']}; 1 to go",
    ]


@pytest.mark.parametrize(
    "words",
    [
        "",
        "check",
        "lot L1",
        "recall a.db",
        "check -x a.db",
        "check a.db -x",
        "check --",
        "check --marks a.db",
        "check --without-marks",
        "check --without-marks --from-middle a.db",
        "check --pieces a.db",
        "check a.db --from-middle b.db",
        "check a.db -- b.db",
        "lot --pieces a.db",
        "lot --pieces a.db b.db",
        "lot --from-middle a.db",
        "lot --without-marks a.db",
        "lot --help a.db",
        "lot --odd a.db",
        "lot L1 --odd a.db",
        "lot L1 --pieces --pieces a.db",
        "lot -- L1",
        "lot L1 --part a.db",
        "lot L1 --part --pieces a.db",
        "lot L1 --part P --part P a.db",
        "lot L1 --pieces --part P a.db",
        "board B1",
        "board B1 --part P a.db",
        "reel",
        "reels K1.txt",
        "reels --pieces a.db",
        "reels K1.txt --part P a.db",
        "alike a.db",
        "alike a.db --b",
        "alike a.db b.db c.db",
    ],
)
def test_a_mistaken_command_line_has_status_2(words: str, files: Files) -> None:
    assert files.asked(*words.split())[:2] == (2, "")


@pytest.mark.parametrize(
    "name, fault",
    [
        ("no-list.txt", "the list can't be read"),
        ("none.txt", "line 1 is no name of a reel"),
        ("gap.txt", "line 2 is no name of a reel"),
        ("end.txt", "line 2 is no name of a reel"),
        ("windows.txt", "line 1 is no name of a reel"),
        ("a.db", "line 1 is no name of a reel"),
        ("long.txt", "the list is longer than 1048576 bytes"),
    ],
)
def test_a_list_has_one_name_a_line_or_no_file_is_opened(
    name: str, fault: str, files: Files
) -> None:
    files.stops(3, f"{name}: {fault}", "reels", name, "missing.db")


def test_an_empty_name_has_status_2(files: Files) -> None:
    assert files.asked("lot", "", "a.db")[:2] == (2, "")


def test_a_begin_may_have_more_than_4096_commands(files: Files) -> None:
    files.say("many.db", "p", [f"0 PartDefined Q{number}" for number in range(4100)])
    files.say("many.db", "a", SETUP + board("B1", 10))
    files.carry_on("many.db", "more.db", board("B2", 20))
    assert (
        files.answers("lot", "L1", "many.db", "more.db") == "board,file\nB1,many.db\nB2,more.db\n"
    )


def test_a_new_desk_has_the_reels_and_mounts_that_are_left(files: Files) -> None:
    files.say("spent.db", "s", SETUP + board("B1", 10) + SPENT)
    files.begin("spent.db", "rest.db")
    assert files.answers("alike", "spent.db", "rest.db") == "alike 1 1\n"


def test_a_chain_of_twenty_files(files: Files) -> None:
    names = ["a.db", *(f"n{place}.db" for place in range(1, 20))]
    for place in range(1, 20):
        files.carry_on(names[place - 1], names[place], board(f"N{place}", 20 + 10 * place))
    rows = "".join(f"N{place},n{place}.db\n" for place in range(1, 20))
    rows = "board,file\nB1,a.db\n" + rows
    assert files.answers("lot", "L1", *names) == rows
    # one file is open at a time
    few = ["sh", "-c", 'ulimit -n 12; exec "$@"', "sh", str(files.chain), "lot", "L1", *names]
    done = subprocess.run(few, capture_output=True, text=True, cwd=files.folder)
    assert (done.returncode, done.stdout) == (0, rows)
    gap = [*names[:9], *names[10:]]
    files.stops(5, f"n10.db: begun from {files.checksum('n9.db')[:24]}", "lot", "L1", *gap)
    files.stops(1, "n10.db: differs minute 102 112", "lot", "L1", WITHOUT, *gap)
