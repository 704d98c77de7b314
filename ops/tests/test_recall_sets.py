"""Recalls of sets of reels: lots, a part of a lot, attributes, and a reel with several names."""
from __future__ import annotations

import json
import pathlib
import shutil

import pytest
from lab import files, messages, small
from lab.line import Line, NewLine, table
from lab.recalls import key_in, signers_of
from lab.tools import Ended, Word, run_tool
from tracedesk_ops import entries
from tracedesk_ops.recalls import sets
from tracedesk_ops.recalls.surveyed import Surveyed

pytestmark = pytest.mark.xdist_group("recall_sets")

NO_FILES = Surveyed([], pathlib.Path())
RECEIVED = "INSERT INTO reel VALUES ('K-1', 'CAP', ?, '1', 0, 5, 0, 0, 5, 0, -1, 0)"


@pytest.fixture(scope="module")
def line(small_line: Line) -> Line:
    return small_line


def recall(line: Line, *words: Word) -> Ended:
    return run_tool("recall", *words, *line.recall_words())


def boards(done: Ended) -> dict[str, dict[str, str]]:
    return {row["board"]: row for row in table(done.out)}


# --- Lots


def test_a_lot_of_one_part_has_no_board_of_another(line: Line) -> None:
    assert [*boards(recall(line, "lot", "240131").expect())] == ["SN-1", "SN-2"]
    found = boards(recall(line, "lot", "240131", "--part", "CAP").expect())
    assert [*found] == ["SN-1"]
    recall(line, "lot", "240131", "--part", "none").expect(1)


def test_several_lots_are_one_recall(line: Line) -> None:
    done = recall(line, "lot", "240131", "L-3", "--part", "CAP").expect()
    assert [*boards(done)] == ["SN-1", "SN-3"]
    left = recall(line, "lot", "240131", "L-3", "--show", "reels").expect()
    assert [row["reel"] for row in table(left.out)] == ["K-1", "K-2", "K-3"]


def test_boards_of_the_running_desk_have_their_minutes(line: Line) -> None:
    row = boards(recall(line, "lot", "L-3").expect())["SN-3"]
    assert row["first_minute"] == row["last_minute"] == messages.MORNING


def test_several_reels_are_one_recall(line: Line) -> None:
    assert [*boards(recall(line, "reel", "K-2", "K-4").expect())] == ["SN-2", "SN-4"]


def test_the_evidence_of_a_set_names_its_reels(line: Line, folder: pathlib.Path) -> None:
    to = folder / "evidence"
    key = key_in(folder, "plant")
    recall(line, "reel", "K-2", "K-4", "--key", key, "--evidence", to).expect()
    assert (to / "asked-reels.txt").read_text() == "K-2\nK-4\n"
    told = json.loads((to / "certificate.json").read_text())["lines"][0]
    assert told["words"] == ["reels", "asked-reels.txt", "--pieces"] and told["is_chain"]
    again = run_tool("verify", to, "--signers", signers_of(key), "--archives", line.archive)
    again.expect(0, "the answer comes again from its 1 archives")


# --- Attributes


def test_a_mirror_without_such_a_reel_is_not_complete(line: Line, folder: pathlib.Path) -> None:
    """One may have been received since."""
    shutil.copytree(line.archive, folder / "L1/sealed")
    done = run_tool("recall", "where", "lot=none", "--line", "L1", folder / "L1")
    done.expect(3, "NOT COMPLETE: L1: ", "has no desk", "no reel is one of")


def test_reels_whose_receipts_say_no_attribute_are_named(line: Line) -> None:
    recall(line, "where", "date_code=2614", "--part", "CAP").expect(3, "K-1, K-3, K-4")


@pytest.mark.parametrize("words", ["reel K-1", "lot L-77 L-78", "where lot=L-77"])
def test_a_file_whose_reels_are_not_known_is_named(
    monkeypatch: pytest.MonkeyPatch, words: str
) -> None:
    known = sets.Known([])
    known.faults.append("L1: the reels of desk aren't known")
    monkeypatch.setattr(sets, "Known", lambda _: known)
    kind, *names = words.split()
    assert known.faults[0] in sets.question_of(kind, names, "", NO_FILES).faults


@pytest.mark.parametrize(
    ("kind", "names"), [("lot", ["L-77", "L-78"]), ("where", ["lot=L-77"])], ids=["lots", "where"]
)
def test_a_name_of_two_receipts_is_named(
    folder: pathlib.Path, monkeypatch: pytest.MonkeyPatch, kind: str, names: "list[str]"
) -> None:
    """As on two lines, or if a spent reel's name came again: none of them is left out."""
    known = sets.Known([])
    for number, lot in enumerate(("L-77", "L-99")):
        with files.opened(files.desk(folder / str(number))) as database:
            database.execute(RECEIVED, [lot])
            known.read(database)
    monkeypatch.setattr(sets, "Known", lambda _: known)
    asked = sets.question_of(kind, names, "", NO_FILES)
    assert asked.question.reels == ("K-1",) and not [it for it in asked.notes if "L-77" in it]
    assert asked.faults[0].startswith("the name K-1 is of CAP, lot L-77 and of CAP, lot L-99")


BOOKED = "INSERT INTO book VALUES (?, 0, 'attribute', 'S', 'u', '', '', '', 'K-1', ?, 0, ?)"


def received(file: pathlib.Path, lot: str, **more: str) -> pathlib.Path:
    """A file of a line that received reel K-1 of this lot, with these attributes."""
    with files.opened(files.desk(file)) as database:
        database.execute(RECEIVED, [lot])
        database.execute(entries.CREATE)
        for number, (word, told) in enumerate(more.items(), 1):
            database.execute(BOOKED, [number, word, told])
    return file


def reels_where(folder: pathlib.Path, *terms: str) -> tuple[tuple[str, ...], list[str]]:
    """The reels that a recall with these terms asks for, by all files, and what is wrong."""
    known = sets.Known([])
    for file in sorted(folder.glob("desk*")):
        with files.opened(file) as database:
            known.read(database)
    meant = sets.where(sets.terms_of(terms), known)
    return meant.question.reels, meant.faults


def test_a_receipt_says_the_attributes_of_its_reel(folder: pathlib.Path) -> None:
    """A desk that a roll-over began doesn't say them once more."""
    more = {"DateCode": "2614", "Supplier": "Maker One ", "Order": "\\x5c37"}
    received(folder / "desk1", "L-77", **more, MakerPart="GRM155")
    received(folder / "desk2", "L-77")
    all_of_it = ("date_code=2614", "supplier=Maker One", "order=\\7", "maker_part=GRM155")
    assert reels_where(folder, *all_of_it, "lot=L-77") == (("K-1",), [])
    for other in ("date_code=2609", "supplier=Maker Two"):
        assert reels_where(folder, other) == ((), [])


def test_two_receipts_of_a_name_have_their_own_attributes(folder: pathlib.Path) -> None:
    """Of two lots, or of one on two lines."""
    received(folder / "desk1", "L-77", DateCode="2614")
    received(folder / "desk2", "L-99")
    received(folder / "desk3", "L-77", DateCode="2609")
    for code in ("2614", "2609"):
        reels, faults = reels_where(folder, f"date_code={code}", "lot=L-77")
        assert reels == ("K-1",) and "the name K-1 is of" in faults[0]
    reels, faults = reels_where(folder, "date_code=2614", "lot=L-99")
    assert not reels and "the attributes of 1 reels aren't known" in faults[0]


def test_a_receipt_of_a_running_line_says_them(line: Line) -> None:
    its = {"PartNumber": "CAP", "Lot": "L-8", "Level": "1", "Quantity": 9, "DateCode": "2650"}
    line.accept(small.say("ReelReceived", "received-8", Reel="K-8", **its))
    done = recall(line, "where", "date_code=2650", "lot=L-8", "--show", "reels")
    assert [row["reel"] for row in table(done.out)] == ["K-8"]


BAD_WORDS = ("where", "where date=2614", "where date_code", "board A B", "reel K-1 --part CAP")


@pytest.mark.parametrize("words", BAD_WORDS)
def test_words_that_are_not_taken(line: Line, words: str) -> None:
    recall(line, *words.split()).expect(2)


# --- A reel that moved


def moved(name: str, old: Line, new: Line) -> None:
    """Moves the reel K-3 from one line to another under this name."""
    run_tool("ops", "move", "K-3", "--as", name, "--from", old.url, "--to", new.url).expect()


def test_a_reel_that_moved_is_followed_under_its_other_name(
    new_line: NewLine, folder: pathlib.Path
) -> None:
    lines = [new_line(folder / name, name, said=[]) for name in ("L1", "L2")]
    for line in lines:
        line.accept(*small.set_up(), *small.board("K-3", f"{line.name}-1"))
    moved("K-3b", lines[0], lines[1])
    lines[1].accept(*small.board("K-3b", "L2-2", "CAP"))
    words: list[Word] = [word for line in lines for word in line.recall_words()]
    for name in ("K-3", "K-3b"):
        done = run_tool("recall", "reel", name, *words)
        found = [row["board"] for row in table(done.expect(0, "under other names too").out)]
        assert found == ["L1-1", "L2-1", "L2-2"]
    alone = run_tool("recall", "reel", "K-3b", *lines[1].recall_words())
    alone.expect(3, "K-3b came from a line that is not asked")
