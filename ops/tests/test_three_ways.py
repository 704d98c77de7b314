"""Two lines that work on some of the same boards, asked three ways, which print the same rows.

The ways are the program's report on each file, tracedesk-recall, and PostgreSQL: one database of
both lines, and one that asks a database of each line.
"""
import contextlib
import pathlib
import random
import tempfile
from typing import Callable, Iterator, Sequence

import pytest
from lab import databases, messages, plants
from lab.databases import Database
from lab.desk import rows_of_archive
from lab.plants import WorkedLine
from lab.recalls import BOARD_TRACE, KINDS, TRACE, Asking, Rows, expect_boards
from tracedesk_dev import postgres, shift

pytestmark = [pytest.mark.xdist_group("three_ways")]

SEED, BOARDS = 7, 16
SOME = [pytest.param(2, id="some"), pytest.param(12, id="more", marks=pytest.mark.whole)]


@pytest.fixture(scope="module")
def room() -> Iterator[pathlib.Path]:
    with tempfile.TemporaryDirectory(prefix="ops-") as name:
        yield pathlib.Path(name)


@pytest.fixture(scope="module")
def lines(program: pathlib.Path, room: pathlib.Path) -> Iterator[list[WorkedLine]]:
    """Line L1 is rolled over three times, and L2, which works on boards of L1, once."""
    first, second = made = [WorkedLine(program, room / name, name) for name in ("L1", "L2")]
    serials = [f"L1-{number:06}" for number in range(1, BOARDS // 2)]
    serials += [f"L2-{number:06}" for number in range(1, 5)]
    shifts = (
        (first, 4, shift.Shift(SEED, BOARDS, "L1")),
        (second, 2, shift.Shift(SEED + 1, line="L2", day="2026-03-04", serials=serials)),
    )
    try:
        for line, count, its in shifts:
            line.serve()
            line.work(messages.parts_of(its.lines, count))
        yield made
    finally:
        for line in made:
            line.end()


@pytest.fixture(scope="module")
def asking(lines: list[WorkedLine], room: pathlib.Path) -> Asking:
    (room / "reports").mkdir()
    return Asking(lines, room / "reports")


@pytest.fixture(scope="module")
def whole(lines: list[WorkedLine], server: postgres.Server) -> Database:
    """The database of one plant with both lines."""
    made = databases.create(server, "whole")
    made.load(*(line.kept()[-1] for line in lines))
    return made


@pytest.fixture(scope="module")
def several(lines: list[WorkedLine], server: postgres.Server) -> Database:
    """A database that asks a plant of each line."""
    made = databases.create(server, "several", schema="")
    for line in lines:
        plant = databases.create(server, f"of_{line.name}".lower())
        plant.make_role("recall")
        plant.load(line.kept()[-1])
        made.add(plant)
    return made


@pytest.fixture
def again(server: postgres.Server, whole: Database) -> Iterator[Database]:
    """A copy of the whole database, which a test may change."""
    made = databases.create(server, "again", schema="", more=f"TEMPLATE {whole.name}")
    yield made
    whole.psql("-c", f"DROP DATABASE {made.name}")


# --- The three ways


def expect_same(asking: Asking, database: Database, kind: str, name: str) -> Rows:
    """The pieces of a name, if all print the same, row by row. What the tool says of boards and
    reels follows from the files.
    """
    columns = BOARD_TRACE if kind == "board" else TRACE
    tables = asking.tables(kind, name)
    by_tool = tables["pieces"]
    expect_boards(tables)
    if kind != "board":
        asking.expect_reels(kind, name, tables["reels"])
    by_plant = plants.as_recalled(asking.lines, database.query("pieces", **{kind: name}).rows)
    by_report = sorted(
        (line, file, *row) for line, file, rows in asking.wanted(kind, name) for row in rows
    )
    for rows in (by_tool, by_plant):
        got = [(row["line"], row["file"], *(row[its] for its in columns)) for row in rows]
        assert sorted(got) == by_report, f"{kind} {name}"
    for row in by_plant:
        minutes = asking.minutes[row["line"], row["file"]]
        minute = minutes[row["board"], row["designator"]]
        assert (row["minute"], row[kind]) == (minute, name), row
    assert by_tool == by_plant, f"{kind} {name}"
    return by_plant


def two(asking: Asking, of: Callable[[str, str], str]) -> str:
    """A board that lies in two of something, by the line and the file of its pieces."""
    found: dict[str, set[str]] = {}
    for line, file, path in asking.files:
        for (board,) in rows_of_archive(path, "SELECT board FROM placement"):
            found.setdefault(board, set()).add(of(line, file))
    return min(board for board, them in found.items() if len(them) > 1)


def chosen(asking: Asking, kind: str, some: int, lot: str) -> list[str]:
    """Names at random, the lot with most pieces, a board in two files, and one on two lines."""
    names = asking.names(kind)
    musts: dict[str, list[str]] = {
        "lot": [lot],
        "board": [two(asking, lambda line, file: file), two(asking, lambda line, file: line)],
        "reel": [],
    }
    return sorted({*random.Random(SEED).sample(names, min(some, len(names))), *musts[kind]})


@pytest.fixture(scope="module")
def lot(whole: Database) -> str:
    """The lot with most pieces."""
    ((name,),) = whole.rows("SELECT lot FROM piece GROUP BY 1 ORDER BY count(*) DESC, 1 LIMIT 1")
    return name


@pytest.mark.parametrize("some", SOME)
@pytest.mark.parametrize("kind", KINDS)
def test_reports_a_recall_and_the_database_print_the_same(
    asking: Asking, whole: Database, lot: str, kind: str, some: int
) -> None:
    found = 0
    for name in chosen(asking, kind, some, lot):
        found += len(expect_same(asking, whole, kind, name))
    assert found


@pytest.mark.parametrize("kind", KINDS)
def test_two_plants_print_the_same(
    asking: Asking, whole: Database, several: Database, lot: str, kind: str
) -> None:
    for name in chosen(asking, kind, 2, lot):
        wanted = whole.query("pieces", **{kind: name}).rows
        for row in wanted:
            row["line"] = f"of_{row['line']}/".lower() + row["line"]
        assert several.query("pieces", **{kind: name}).rows == wanted


def test_boards_of_a_lot_are_the_same(asking: Asking, whole: Database, lot: str) -> None:
    by_tool = asking.tables("lot", lot)["boards"]
    assert whole.query("recall", lot=lot).rows == [
        {name: value for name, value in row.items() if name != "file"} for row in by_tool
    ]


# --- Loading


def test_what_is_loaded_again_changes_nothing(lines: list[WorkedLine], again: Database) -> None:
    before = plants.state(again)
    assert again.load(*(line.kept()[-1] for line in lines)) == ""
    assert plants.state(again) == before


def test_files_in_their_order_make_the_same_tables(
    lines: Sequence[WorkedLine], server: postgres.Server, whole: Database
) -> None:
    """As in a plant: a newer seal takes the place of the one that it continues."""
    made = databases.create(server, "one_by_one")
    with contextlib.ExitStack() as kept:
        kept.callback(whole.psql, "-c", f"DROP DATABASE {made.name}")
        for line in lines:
            for copy in line.kept():
                made.load(copy)
        assert plants.state(made) == plants.state(whole)
