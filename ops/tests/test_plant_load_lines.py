"""Loads of lines after a restore, after refused work, and after a reel was reported late."""
import pathlib
import re
from typing import Any, Iterator

import pytest
from lab import messages, plants
from lab.databases import Database
from lab.messages import FIRST_LINE
from lab.plants import WorkedLine, expect_whole, pieces
from lab.recalls import recalled
from lab.tools import Word
from tracedesk_ops import doubts, lineage, loading
from tracedesk_ops.tapes import DoubtfulPiece, Tapes

pytestmark = [pytest.mark.xdist_group("plant_load_lines")]

SAYS = r"doubtful piece of D1: (\w+) of board"


# --- A desk that goes back to an older file


@pytest.fixture
def restored(
    program: pathlib.Path, folder: pathlib.Path, database: Database
) -> Iterator[tuple[WorkedLine, list[bytes]]]:
    """A line that went back to its first file and was told another message, when the tables had
    both parts of its work; and what it has to be told again.
    """
    first, second, _ = plants.parts_of_work()
    line = WorkedLine(program, folder / "R1", "R1")
    line.serve()
    line.post(first.splitlines())
    older = line.copy() / "sealed" / line.newest().name
    line.post(second.splitlines())
    database.load(line.copy())
    line.restore(older.name).expect(4)
    line.post([messages.part("other", messages.MORNING)])
    yield line, second.splitlines()
    line.end()


def test_what_was_sent_again_after_a_restore_counts_once(
    restored: tuple[WorkedLine, list[bytes]], database: Database
) -> None:
    line, again = restored
    whole = sorted((row[0], *row[2:]) for row in pieces(database))
    line.post(again)
    database.load(line.copy())
    assert sorted((row[0], *row[2:]) for row in pieces(database)) == whole
    expect_whole(database)


def test_files_that_do_not_continue_what_is_loaded_are_refused(
    restored: tuple[WorkedLine, list[bytes]], database: Database
) -> None:
    """Also with as many rows, as of a trial on another machine."""
    line, again = restored
    before = pieces(database)
    line.post(again)
    mirror = line.copy()
    for file in (mirror / "lost").iterdir():
        file.unlink()
    database.refuse("REFUSED: R1: ", mirror)  # as a fork, or as older than what is loaded
    assert pieces(database) == before
    expect_whole(database, 3)


def test_what_a_restore_took_off_is_named_until_it_was_sent_again(
    restored: tuple[WorkedLine, list[bytes]], database: Database
) -> None:
    line, again = restored
    ((lot,),) = database.rows("SELECT min(lot) FROM reel")
    database.load(line.copy(4))
    expect_whole(database, 3)
    assert "have that sender send them again" in database.query("recall", 3, lot=lot).said
    line.post(again)
    database.load(line.copy())
    expect_whole(database)


# --- Doubtful pieces and untraced work


class Doubted:
    """The line D1, whose reel K1 is on slot 1 of machine M. The tables have its files."""

    def __init__(self, line: WorkedLine, database: Database) -> None:
        self.line, self.database, self.said = line, database, 0

    def message(self, minute: int, word: str, **body: Any) -> bytes:
        self.said += 1
        time = f"1970-01-01T00:{minute:02}:00Z"
        return messages.message(word, f"m{self.said}", time, "S", **body)

    def on_machine(self, minute: int, word: str, **body: Any) -> bytes:
        return self.message(minute, word, Machine="M", **body)

    def load(self) -> None:
        self.database.load(self.line.copy())

    def refuse(self, said: bytes) -> None:
        (answer,) = self.line.post([said])
        assert answer["Answer"] == "Refused", answer

    def expect_as_recalled(self, kind: str, name: str) -> None:
        """The designators that a recall of the line names as doubtful are those of the tables."""
        words: list[Word] = [kind, name, *self.line.recall_words(), "--show", "doubtful"]
        wanted = sorted(row["designator"] for row in recalled(*words, status=5))
        said = self.database.query("pieces", 3, **{kind: name}).said
        assert sorted(re.findall(SAYS, said)) == wanted and wanted


@pytest.fixture
def doubted(program: pathlib.Path, folder: pathlib.Path, database: Database) -> Iterator[Doubted]:
    """Reel K2 was loaded in minute 15, and reported after two pieces of minute 20."""
    line = WorkedLine(program, folder / "D1", "D1")
    line.feed(FIRST_LINE)
    line.serve()
    its = Doubted(line, database)
    k2 = {"Reel": "K2", "PartNumber": "P", "Lot": "L2", "Level": "1", "Quantity": 100}
    line.accept(
        its.message(1, "ReelReceived", **k2),
        its.on_machine(10, "WorkStarted", Board="B1"),
        its.on_machine(20, "MaterialsInstalled", Board="B1", Designators=["R1", "R2"]),
        its.on_machine(15, "MaterialsUnloaded", Slot="1"),
        its.on_machine(15, "MaterialsLoaded", Slot="1", Reel="K2"),
        its.on_machine(21, "MaterialsInstalled", Board="B1", Designators=["R3"]),
    )
    (line.folder / "sealed").mkdir(exist_ok=True)
    its.load()
    yield its
    line.end()


NAMES = [("lot", "L1"), ("lot", "L2"), ("reel", "K2"), ("board", "B1")]


def test_doubtful_pieces_are_those_of_a_recall(doubted: Doubted) -> None:
    for kind, name in NAMES:
        doubted.expect_as_recalled(kind, name)


def test_a_refused_reel_that_the_desk_does_not_know_makes_pieces_doubtful(
    doubted: Doubted,
) -> None:
    load = doubted.on_machine(22, "MaterialsLoaded", Slot="1", Reel="X9")
    doubted.refuse(load)
    doubted.line.accept(
        doubted.on_machine(23, "MaterialsInstalled", Board="B1", Designators=["R4"])
    )
    doubted.load()
    for kind, name in (*NAMES, ("lot", "nowhere"), ("reel", "X9"), ("reel", "X8")):
        doubted.expect_as_recalled(kind, name)


def test_a_reel_that_only_the_machine_names_makes_its_piece_doubtful(doubted: Doubted) -> None:
    """By the book of the line. The desk knows K2, and not X9."""
    for designator, reel in (("R4", "K2"), ("R5", "X9")):
        its: dict[str, Any] = {"Designators": [designator], "MachineReels": [reel]}
        doubted.line.accept(doubted.on_machine(22, "MaterialsInstalled", Board="B1", **its))
    doubted.load()
    for kind, name in (*NAMES, ("reel", "X9"), ("reel", "X8")):
        doubted.expect_as_recalled(kind, name)


def test_work_of_anybodys_words_is_loaded(doubted: Doubted) -> None:
    """PostgreSQL has no U+0000 and no half letter."""
    odd = {"Board": "X\0\ud800", "Designators": ["R4"]}
    (answer,) = doubted.line.post([doubted.on_machine(22, "MaterialsInstalled", **odd)])
    assert answer["Answer"] == "Faulty"
    doubted.load()
    assert r"board X\x00\ud800" in doubted.database.query("pieces", 3, board="B1").said


def started(doubted: Doubted) -> int:
    """Board B2 is started while B1 is in work, which is refused: the number of the entry."""
    doubted.refuse(doubted.on_machine(30, "WorkStarted", Board="B2"))
    return 1


def test_untraced_work_is_named_until_it_is_decided(doubted: Doubted) -> None:
    """And no older folder takes anything back."""
    database, line, of = doubted.database, doubted.line, started(doubted)
    doubted.load()
    undecided = line.kept()[-1]
    assert "nobody decided about entry 1 of" in database.query("pieces", 3, lot="L1").said
    line.note("decisions", Of=of, Became="scrapped")
    doubted.load()
    assert "nobody decided" not in database.query("pieces", 3, lot="L1").said
    before = pieces(database)
    database.refuse("its files are older than those that are loaded", undecided)
    assert "load the newest ones" in database.query("pieces", 3, lot="L1").said
    assert pieces(database) == before


def test_a_doubt_about_a_name_of_two_lots_is_of_each(monkeypatch: pytest.MonkeyPatch) -> None:
    """Also if the machine named both reels, so that no part is in doubt."""
    piece = DoubtfulPiece(
        *("B1", "C1", "M", "1", 5, "K-1", "L1; L2", ("K-9",), ("L9",), "why", "", frozenset())
    )
    its = doubts.Doubts([], [piece], [], Tapes())
    monkeypatch.setattr(doubts, "look", lambda *_: its)
    found = lineage.Lineage([], [], [], [], [])
    ((*_, lots),) = loading.said_of("L1", pathlib.Path("L1"), found)
    assert {"L1", "L2", "L9"} <= {*lots}


def test_a_board_that_is_kept_is_doubtful(doubted: Doubted) -> None:
    doubted.line.note("decisions", Of=started(doubted), Became="used as it is")
    doubted.load()
    said = doubted.database.query("pieces", 3, lot="L1").said
    assert re.search(r"piece of D1:  of board B2, .* may be of .*: worked", said)
