"""From a refused report to the recall that names its board, with a line's server."""
import csv
import io
import pathlib
from typing import Any, Iterator

import pytest
from lab import messages
from lab.line import Line, table
from lab.recalls import key_in, signers_of
from lab.tools import SENDER, Ended, Word, run, run_tool

FIRST, LATER = "2026-03-02T06:00:00Z", "2026-03-03T12:00:00Z"
SHEET = [{"Slot": "1", "PartNumber": "P", "Designators": ["C1"]}]


class Plant:
    """A line's desk, a sender of its machine M1, and what a person says."""

    def __init__(self, line: Line) -> None:
        self.line, self.said = line, 0

    def message(self, time: str, word: str, **body: Any) -> bytes:
        self.said += 1
        return messages.message(word, f"u{self.said}", time, "M1", **body)

    def accept(self, time: str, word: str, **body: Any) -> None:
        self.line.accept(self.message(time, word, **body))

    def make_ready(self, *reels: tuple[str, str, str, int]) -> None:
        """Product A on machine M1 wants part P on slot 1. A reel: name, part, level and pieces."""
        for part in ("P", "Q"):
            self.accept(FIRST, "PartDefined", PartNumber=part)
        self.accept(FIRST, "SheetDefined", Product="A", Machine="M1", Rows=SHEET)
        self.accept(FIRST, "ProductSelected", Machine="M1", Product="A")
        for reel, part, level, many in reels:
            body = {"Reel": reel, "PartNumber": part, "Lot": f"L-{reel}", "Level": level}
            self.accept(FIRST, "ReelReceived", **body, Quantity=many)

    def on_slot(self, time: str, word: str, **body: Any) -> None:
        self.accept(time, word, Machine="M1", Slot="1", **body)

    def send(self, *words: Word, given: bytes = b"") -> Ended:
        spool: list[Word] = ["--url", self.line.url, "--spool", self.line.folder / "m1"]
        return run([SENDER, *spool, *words], given=given)

    def refused(self, *lines: bytes) -> None:
        """Says messages that the desk refuses, or can't read."""
        for answer in self.line.post(lines):
            assert answer["Answer"] in ("Refused", "Faulty"), answer

    def undecided(self) -> list[dict[str, str]]:
        text = self.line.get("/line/undecided")[1]
        return list(csv.DictReader(io.StringIO(text, newline="")))

    def decide(self, number: "str | int", became: str) -> None:
        self.line.note("decisions", Of=int(number), Became=became)

    def decide_all(self) -> None:
        for row in self.undecided():
            self.recall("L-OLD", 3)
            self.decide(row["n"], "scrapped")

    def recall(self, lot: str, status: int, show: str = "untraced") -> str:
        return self.line.recall("--show", show, lot=lot).expect(status).out


@pytest.fixture
def plant(program: pathlib.Path, folder: pathlib.Path) -> Iterator[Plant]:
    line = Line(program, folder / "plant")
    line.serve()
    yield Plant(line)
    line.end()


@pytest.fixture
def expired(plant: Plant) -> Plant:
    """OLD expired, two boards were worked all the same, NEW was loaded, and all was sent again."""
    plant.make_ready(("OLD", "P", "5a", 100), ("NEW", "P", "5a", 100))
    plant.on_slot(FIRST, "MaterialsLoaded", Reel="OLD")
    works = []
    for board in ("B1", "B2"):
        where = {"Machine": "M1", "Board": board}
        works.append(plant.message(LATER, "WorkStarted", **where))
        works.append(plant.message(LATER, "MaterialsInstalled", **where, Designators=["C1"]))
    given = b"\n".join(works) + b"\n"
    plant.send("--follow", "-", given=given).expect(1)
    plant.on_slot(LATER, "MaterialsUnloaded")
    plant.on_slot(LATER, "MaterialsLoaded", Reel="NEW")
    plant.send("--again", "all").expect(6)
    return plant


ODD = {  # what a scanner or a program may put into a report that no desk takes
    "a scanner's carriage return": "SN-1\r",
    "line ends": "SN\r\n1\n",
    "quotes and commas": '",\'";SN-1,"',
    "half a letter": "SN-\ud83d",
    "deep": ["SN-1", [[[["x"]]]]],
    "long": ["1e15"] * 50_000,
}


@pytest.mark.parametrize("name", ODD)
def test_a_report_with_any_text_is_kept_recalled_and_verified(plant: Plant, name: str) -> None:
    plant.make_ready(("K-1", "P", "1", 100))
    plant.on_slot(FIRST, "MaterialsLoaded", Reel="K-1")
    where = {"Machine": "M1", "Board": ODD[name]}
    said = [plant.message(LATER, "MaterialsInstalled", **where, Designators=[ODD[name]])]
    if name == "deep":
        deep = b"[" * 985 + b"]" * 985
        said.append(said[0].replace(b'[[[["x"]]]]', deep).replace(b'"u', b'"v'))
    plant.refused(*said)
    rows = plant.undecided()
    assert [row["told"].encode() for row in rows] == said
    evidence = plant.line.folder / "evidence"
    key = key_in(plant.line.folder.parent, "key")
    words: list[Word] = [*plant.line.recall_words(), "--evidence", evidence, "--key", key]
    run_tool("recall", "lot", "L-K-1", *words).expect(3, "L1: nobody decided about")
    run_tool("verify", evidence, "--signers", signers_of(key)).expect()
    for row in rows:
        plant.decide(row["n"], "scrapped")
    plant.recall("L-K-1", 0)


def test_untraced_work_is_named_until_all_is_scrapped(expired: Plant) -> None:
    """Behind a roll-over too, in a recall of each reel that was on the machine."""
    for lot in ("L-OLD", "L-NEW"):
        rows = expired.recall(lot, 3).split("\n", 1)[1]
        assert all(name in rows for name in ("B1", "B2", "OLD"))
    expired.line.rollover().expect()
    assert len(expired.undecided()) == 4
    expired.decide_all()
    assert expired.recall("L-OLD", 0).count("A. Person") == 4


@pytest.mark.parametrize(
    "became", ["used as it is", "reworked", "sent again", "taken off", "not scrapped", "Scrapped?"]
)
def test_no_other_decision_takes_a_board_out_of_a_recall(expired: Plant, became: str) -> None:
    """Those of all reels that were on the machine, until the boards are scrapped; of no others."""
    expired.accept(
        LATER, "ReelReceived", Reel="Q1", PartNumber="Q", Lot="L-Q1", Level="1", Quantity=9
    )
    rows = expired.undecided()
    for row in rows:
        expired.decide(row["n"], became)
    named = {"B1", "B2"}
    for lot in ("L-OLD", "L-NEW"):
        assert {row["board"] for row in table(expired.recall(lot, 5, "doubtful"))} == named
    reels = [*expired.line.recall_words(), "--show", "doubtful"]
    for words in (["reel", "OLD"], ["lot", "L-OLD", "L-Q1"], ["board", "B1"]):
        told = table(run_tool("recall", *words, *reels).expect(5).out)
        assert {row["board"] for row in told} == ({"B1"} if words[0] == "board" else named)
        assert all("and not scrapped (" in row["why"] for row in told)
    assert table(expired.recall("L-Q1", 0, "doubtful")) == []
    for row in rows:
        expired.decide(row["n"], "scrapped")
    for lot in ("L-OLD", "L-NEW"):
        assert table(expired.recall(lot, 0, "doubtful")) == []


def test_a_refused_splice_makes_pieces_doubtful_until_it_is_decided(plant: Plant) -> None:
    """The refused reel WRONG is between FIRST, which has one piece, and NEXT."""
    times = [f"2026-03-02T06:0{minute}:00Z" for minute in range(6)]
    plant.make_ready(("FIRST", "P", "1", 1), ("WRONG", "Q", "1", 100), ("NEXT", "P", "1", 100))
    plant.on_slot(times[1], "MaterialsLoaded", Reel="FIRST")
    wrong = {"Machine": "M1", "Slot": "1", "Reel": "WRONG"}
    plant.refused(plant.message(times[2], "MaterialsSpliced", **wrong))
    plant.on_slot(times[3], "MaterialsSpliced", Reel="NEXT")
    for time, board in ((times[4], "B1"), (times[5], "B2")):
        where = {"Machine": "M1", "Board": board}
        plant.accept(time, "WorkStarted", **where)
        plant.accept(time, "MaterialsInstalled", **where, Designators=["C1"])
        plant.accept(time, "WorkCompleted", **where)
    for lot in ("L-WRONG", "L-NEXT"):
        told = plant.recall(lot, 5, "doubtful")
        assert [row["board"] for row in table(told)] == ["B1", "B2"]
    assert plant.undecided() == [] and "a refused reel may be on the slot (entry 1 of " in told
    plant.decide(1, "taken off")
    for lot in ("L-WRONG", "L-NEXT"):
        plant.recall(lot, 0)
