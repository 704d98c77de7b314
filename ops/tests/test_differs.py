"""A machine that names another reel than the desk has: from its report to the recalls that name the
board, and to a decision.
"""
import json
import pathlib
from typing import Any, Iterator

import pytest
from lab.line import Line, table
from lab.tools import run_tool
from test_untraced_line import FIRST, Plant

NOW = "2026-03-02T06:05:00Z"


@pytest.fixture
def plant(program: pathlib.Path, folder: pathlib.Path) -> Iterator[Plant]:
    line = Line(program, folder / "plant")
    line.serve()
    made = Plant(line)
    made.make_ready(*((f"R-{number}", "P", "1", 9) for number in (1, 2, 3)), ("R-4", "Q", "1", 9))
    made.on_slot(FIRST, "MaterialsLoaded", Reel="R-1")
    yield made
    line.end()


def build(plant: Plant, *reels: "str | None", board: str = "B1") -> None:
    """A board is built, and the machine names the reel that it took, if it knows one."""
    at: dict[str, Any] = {"Machine": "M1", "Board": board}
    named = {"MachineReels": list(reels)} if reels != (None,) else {}
    lines = [
        plant.message(NOW, "WorkStarted", **at),
        plant.message(NOW, "MaterialsInstalled", **at, Designators=["C1"], **named),
        plant.message(NOW, "WorkCompleted", **at),
    ]
    plant.line.accept(*lines)


def open_entry(plant: Plant) -> int:
    """The number of the entry that stops the machine."""
    causes = json.loads(plant.line.get("/line/state?machine=M1")[1])["Causes"]
    (number,) = [it["Entry"] for it in causes if it["Cause"] == "Open"]
    return int(number)


def boards(plant: Plant, lot: str) -> list[tuple[str, ...]]:
    """What a recall of a lot names as doubtful."""
    names = ("board", "designator", "reel", "other_reels", "why")
    rows = table(plant.line.recall("--show", "doubtful", lot=lot).out)
    return [tuple(row[name] for name in names) for row in rows]


def test_both_lots_name_the_board_unless_it_is_scrapped(plant: Plant) -> None:
    build(plant, "R-2")
    its = ("B1", "C1", "R-1", "R-2", "the machine names another reel (entry 1 of running desk)")
    assert [boards(plant, lot) for lot in ("L-R-1", "L-R-2")] == [[its]] * 2
    assert boards(plant, "L-R-3") == []
    for became in ("the machine was wrong: its feeder table was old", "used as it is"):
        plant.line.note("decisions", Of=1, Became=became)
        for lot in ("L-R-1", "L-R-2"):
            assert boards(plant, lot) == [its]
        (row,) = table(plant.recall("L-R-2", 5))
        assert (row["board"], row["became"]) == ("B1", became)
    plant.line.note("decisions", Of=1, Became="scrapped")
    for lot in ("L-R-1", "L-R-2"):
        assert table(plant.recall(lot, 0, "doubtful")) == []


def test_a_decision_behind_a_roll_over_is_about_the_entry_before_it(plant: Plant) -> None:
    build(plant, "R-2")
    plant.line.rollover().expect()
    (file,) = plant.line.archives()
    why = f"the machine names another reel (entry 1 of {file.file})"
    assert boards(plant, "L-R-2") == [("B1", "C1", "R-1", "R-2", why)]
    plant.line.note("decisions", Of=open_entry(plant), Became="used as it is")
    assert boards(plant, "L-R-2") == [("B1", "C1", "R-1", "R-2", why)]
    plant.line.note("decisions", Of=2, Became="scrapped")
    assert boards(plant, "L-R-2") == []


def test_a_reel_that_the_desk_does_not_know_is_said_so(plant: Plant) -> None:
    build(plant, "R-9")
    (row,) = table(plant.recall("L-R-1", 5, "doubtful"))
    assert "which the desk doesn't know" in row["why"]
    # it may be of any lot, of this part or another, and of one that the desk doesn't know
    for lot in ("L-R-3", "L-R-4", "L-R-9"):
        assert len(table(plant.recall(lot, 5, "doubtful"))) == 1
    several = [*("lot", "L-R-4", "L-R-9"), *plant.line.recall_words(), "--show", "doubtful"]
    assert len(table(run_tool("recall", *several).expect(5).out)) == 1


def test_reels_that_cannot_be_compared_put_the_board_in_doubt(plant: Plant) -> None:
    """The machine took one reel, and names two: a recall of the part names the board, until it is
    scrapped.
    """
    build(plant, "R-1", "R-2")
    why = "the machine's reels can't be compared with the desk's (entry 1 of running desk)"
    for lot in ("L-R-1", "L-R-3"):
        assert boards(plant, lot) == [("B1", "C1", "R-1", "", why)]
    plant.recall("L-R-4", 0, "doubtful")  # of another part
    plant.line.note("decisions", Of=1, Became="scrapped")
    plant.recall("L-R-1", 0, "doubtful")


@pytest.mark.parametrize("reels", [("R-1",), (None,)])
def test_where_they_agree_or_none_is_named_nothing_is_in_doubt(
    plant: Plant, reels: "tuple[str | None, ...]"
) -> None:
    build(plant, *reels)
    assert table(plant.recall("L-R-1", 0, "doubtful")) == []
