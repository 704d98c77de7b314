"""Machines as docs/machines.md describes them, by the example of a log: two lanes, modules, panels
with bad marks, sides, rework and the end of a tape. A day of each is traced as it was placed.
"""
from __future__ import annotations

import json
import pathlib
from typing import Any

import killed
import pytest
from bridge_day import ALL, SHEET, Day, Log, host, sheet
from filters import NotMapped
from fronts import csv_line


def bodies(made: list[bytes]) -> list[tuple[str, dict[str, Any]]]:
    told = [json.loads(it) for it in made]
    assert len({it["UniqueID"] for it in told}) == len(told)
    return [(it["MessageName"].removeprefix("TraceDesk."), it["MessageBody"]) for it in told]


def test_modules_are_machines_of_one_product(tmp_path: pathlib.Path) -> None:
    log = Log(tmp_path, machine='"M1-\\(.Module)"')
    for module in ("1", "2"):
        (made,) = log.says("START", Panel="B1", Module=module)
        told = json.loads(made)
        assert (told["Source"], told["MessageBody"]["Machine"]) == (f"M1-{module}",) * 2
    with pytest.raises(NotMapped) as fault:
        (record,) = csv_line(b"x;START;B1", b"Time;Event;Panel")
        log.filter.made(record)
    assert "null" in str(fault.value)


def test_a_side_is_in_the_name_where_that_is_wanted(tmp_path: pathlib.Path) -> None:
    (made,) = Log(tmp_path).says("START", Panel="B1", Side="T")
    assert json.loads(made)["MessageBody"]["Board"] == "B1"
    log = Log(tmp_path, sides=True)
    (made,) = log.says("START", Panel="B1", Unit="3", Side="T")
    assert json.loads(made)["MessageBody"]["Board"] == "B1/3-T"
    with pytest.raises(NotMapped) as fault:
        log.says("START", Panel="B1")
    assert "Side is not there" in str(fault.value)


def test_rework_is_left_out_and_what_is_unknown_is_not(tmp_path: pathlib.Path) -> None:
    log = Log(tmp_path)
    assert log.says("REWORK", Panel="B1", Designator="C1", Reel="K-9") == []
    for wrong, why in (
        (log.row("PLACED", Panel="B1"), "Event PLACED is none of this filter"),
        (log.row("PLACE", Panel="B1"), "Designator is not there"),
    ):
        with pytest.raises(NotMapped) as fault:
            log.line(wrong)
        assert why in str(fault.value)
    with pytest.raises(NotMapped) as fault:
        log.file(log.row("LOAD", Slot="1", Reel="K-1"))
    assert "has other events" in str(fault.value)


def test_a_splice_sensor_says_no_next_reel(tmp_path: pathlib.Path) -> None:
    log, slot = Log(tmp_path), {"Machine": "M1", "Slot": "1"}
    (unload, _) = bodies(log.says("OUT", Slot="1", Reel="K-1"))
    assert unload == ("MaterialsUnloaded", slot)
    (splice,) = bodies(log.says("SPLICE", Slot="1", Reel="K-2"))
    assert splice == ("MaterialsSpliced", {**slot, "Reel": "K-2"})


# --- Days, compared with what was placed


def is_traced(day: Day, program: pathlib.Path, room: pathlib.Path) -> None:
    """Each message is accepted, and each board's trace has the reel of each piece."""
    lines = [*day.before, *day.said]
    answers = killed.fed(program, room / "desk", b"\n".join(lines) + b"\n").splitlines()
    refused = [(a, b) for a, b in zip(lines, answers) if json.loads(b)["Answer"] != "Accepted"]
    assert len(answers) == len(lines) and refused == []
    day.is_traced(program, room / "desk")


def test_a_day_of_two_lanes_and_a_panel_is_traced(
    program: pathlib.Path, tmp_path: pathlib.Path, seed: int
) -> None:
    """Boards on one lane, panels with a bad mark on the other, and their pieces in any order from
    one bank of feeders.
    """
    day = Day(Log(tmp_path, around=True), seed)
    day.set_up(sheet("PR"))
    day.load()
    for number in range(8):
        bad = day.chance.choice("234")
        units = {("B", ""): list(ALL), **{("P", it): list(ALL) for it in "1234" if it != bad}}
        for panel in "BP":
            day.said += day.log.says("START", Panel=f"{panel}{number}")
        day.said += day.log.says("BAD", Panel=f"P{number}", Unit=bad)
        while left := [it for it, pieces in units.items() if pieces]:
            panel, unit = day.chance.choice(left)
            board = f"{panel}{number}/{unit}".rstrip("/")
            slot, name = units[panel, unit].pop(0)
            row = day.place(board, slot, name, Panel=f"{panel}{number}", Unit=unit)
            day.said += day.log.line(row)
        for panel in "BP":
            day.said += day.log.says("END", Panel=f"{panel}{number}")
    assert len(day.pieces) == 8 * 4
    is_traced(day, program, tmp_path)


def test_a_day_of_panels_is_traced(
    program: pathlib.Path, tmp_path: pathlib.Path, seed: int
) -> None:
    """Panels of four with bad marks, a file each; a tape ends between two panels here."""
    day = Day(Log(tmp_path, around=True), seed)
    day.set_up(sheet("PR"))
    day.load()
    for number in range(12):
        panel, bad = f"P{number}", day.chance.choice(["1", "3", "4", ""])
        rows = [day.log.row("BAD", Panel=panel, Unit=bad)] if bad else []
        for slot, (_, names) in SHEET.items():
            if day.on[slot][1] <= 4 * len(names):
                reel, next_ = day.on[slot][0], day.next_reel(slot)
                day.said += day.log.says("OUT", Slot=slot, Reel=reel, Next=next_)
                day.on[slot] = next_, 4 * len(names) + 1
                day.before[-1] = day.before[-1].replace(b'"Quantity":', b'"Quantity":2')
        for unit in (it for it in "1234" if it != bad):
            for slot, name in ALL:
                rows.append(day.place(f"{panel}/{unit}", slot, name, Panel=panel, Unit=unit))
        day.said += day.log.file(*rows)
    assert len(day.pieces) >= 36 and "P0/1" in day.pieces
    is_traced(day, program, tmp_path)


@pytest.mark.parametrize("sides", [False, True])
def test_a_board_with_two_sides_is_traced(
    program: pathlib.Path, tmp_path: pathlib.Path, sides: bool
) -> None:
    """One product, whose sheet is that of the side; or a product and a name for each side."""
    log = Log(tmp_path, around=True, sides=True) if sides else Log(tmp_path, around=True)
    day = Day(log, 1)
    day.set_up(sheet("PR", "1"))
    day.said += log.says("LOAD", Slot="1", Reel=day.next_reel("1"))
    for side, slot in (("T", "1"), ("B", "2")):
        if slot == "2":
            product = "PR-B" if sides else "PR"
            day.said.append(sheet(product, "2", number="2"))
            change = host("2", "ProductSelected", Machine="M1", Product=product)
            day.said += [change, *log.says("LOAD", Slot="2", Reel=day.next_reel("2"))]
        board = f"B1-{side}" if sides else "B1"
        for name in SHEET[slot][1]:
            day.said += log.line(day.place(board, slot, name, Panel="B1", Side=side))
    assert len(day.pieces) == (2 if sides else 1)
    is_traced(day, program, tmp_path)


def test_no_message_is_twice_in_a_log_that_is_given_twice(tmp_path: pathlib.Path) -> None:
    log = Log(tmp_path, around=True)
    rows = [log.row("PLACE", Panel="B1", Designator=name) for name in ("C1", "C2")]
    assert [log.line(it) for it in rows] == [log.line(it) for it in rows]
