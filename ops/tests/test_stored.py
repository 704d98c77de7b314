"""The tables of a desk's file, and its accepted commands said again as messages."""
import contextlib
import pathlib
import sqlite3
from typing import Any

from lab import files
from lab.desk import Desk
from lab.floor import OLD_BOARDS, Floor, texts
from tracedesk_ops import stored

COMMANDS = "SELECT uid, source, own, command, effective, detail FROM accepted ORDER BY number"


def test_a_desk_to_which_commands_are_said_again_has_the_same(
    program: pathlib.Path, folder: pathlib.Path
) -> None:
    """Of random desks, which have commands of all kinds."""
    words = set()
    for number in range(4):
        floor, desk = Floor(number), Desk(program, folder / f"desk{number}")
        desk.feed(texts([*floor.set_up(), *floor.many(300, "o", OLD_BOARDS)]))
        rows, again = desk.rows(COMMANDS), Desk(program, folder / f"again{number}")
        again.feed(stored.message(*row[:4]).encode() for row in rows)
        assert again.rows(COMMANDS) == rows
        words |= {row[3].split("\t")[0] for row in rows}
    assert words == set(stored.BODIES)


def columns_of(file: pathlib.Path) -> dict[str, list[Any]]:
    """The columns of each table of a file."""
    query = "SELECT name FROM sqlite_schema WHERE type = 'table'"
    with contextlib.closing(sqlite3.connect(file)) as database:
        names = [name for (name,) in database.execute(query)]
        return {it: database.execute(f"PRAGMA table_info({it})").fetchall() for it in names}


def test_desks_without_the_program_have_its_tables(
    program: pathlib.Path, folder: pathlib.Path
) -> None:
    desk = Desk(program, folder / "desk")
    desk.feed([])
    assert columns_of(files.desk(folder / "made")) == columns_of(desk.file)
