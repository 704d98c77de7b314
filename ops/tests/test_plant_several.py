"""One database asks several plants: its answer is never a smaller one with status 0. Each plant has
some files of made-up pieces.
"""
from __future__ import annotations

import collections
import contextlib
import pathlib
from typing import Any, Iterator

import pytest
from lab import databases
from lab.databases import Database, Queried
from lab.line import table
from lab.tools import Word

pytestmark = [pytest.mark.xdist_group("plant_several")]

NAMES = ("augsburg", "brno", "cork")
# Three files of line L1. Each has 134 pieces of the lot: half of the boards are of one plant, and
# each other one is in all of them.
FILES = """INSERT INTO line VALUES ('L1');
INSERT INTO file (line, name, sha256, place, begun, commands, entries, rows, pieces, until, sealed)
    SELECT 'L1', 'file-' || it, it, it, '', 1, 0, '', 200, now(), now()
    FROM generate_series(1, 3) it;
INSERT INTO reel SELECT id, 'R' || id, 'P', 'LOT' FROM file;
INSERT INTO reel SELECT id, 'S' || id, 'P', 'OTHER' FROM file;
INSERT INTO placement SELECT id,
    CASE n % 2 WHEN 0 THEN 'shared-' || n ELSE format('%s-%s-%s', current_database(), id, n) END,
    'C1', 'M', '1', CASE n % 3 WHEN 0 THEN 'S' ELSE 'R' END || id, false, n
    FROM file, generate_series(1, 200) n"""
PIECES, BOARDS, SHARED = 134, 67, 67  # of the lot in a file: all of them, alone and shared


class Several:
    """Three plants, each with a server of its own, and a database that asks them."""

    def __init__(self, kept: contextlib.ExitStack) -> None:
        self.plants = {name: new_plant(kept, name) for name in NAMES}
        self.all = 9 * PIECES
        self.database = databases.create(self.plants[NAMES[0]].server, "several", schema="")
        for its in self.plants.values():
            self.database.add(its)
        self.database.make_role("reader")

    def ask(self, query: str = "pieces", status: int = 0, **values: str) -> Queried:
        return self.database.query(query, status, **(values or {"lot": "LOT"}))

    def of_plants(self, *names: str, **values: object) -> list[dict[str, str]]:
        """The pieces of a name by each plant's own database."""
        return [
            {**row, "line": f"{name}/{row['line']}"}
            for name in names
            for row in self.plants[name].query("pieces", **values).rows
        ]

    def expect_without(self, name: str, said: str) -> None:
        """The others' pieces are there, and the recall says what it lacks."""
        told = self.ask(status=3)
        others = self.of_plants(*(it for it in NAMES if it != name), lot="LOT")
        assert ordered(told.rows) == ordered(others)
        assert f"{name}: it was not asked: " in told.said and said in told.said

    def expect_all(self) -> None:
        assert len(self.ask().rows) == self.all

    @contextlib.contextmanager
    def limits(self, connect: int = 10, answer: int = 60) -> Iterator[None]:
        """How many seconds the last plant may take."""
        self.set_limits(connect, answer)
        yield
        self.set_limits(10, 60)

    def set_limits(self, connect: int, answer: int) -> None:
        options = f"SET connect_timeout '{connect}', SET options '-c statement_timeout={answer}s'"
        self.database.psql("-c", f"ALTER SERVER cork OPTIONS ({options})")


def new_plant(kept: contextlib.ExitStack, name: str) -> Database:
    """A plant whose role `recall` only reads, and has to name its password."""
    its = databases.create(kept.enter_context(databases.server()), name)
    its.make_role("recall")
    hba = its.server.data / "pg_hba.conf"
    hba.write_text("local all recall scram-sha-256\n" + hba.read_text())
    its.psql("-c", "SELECT pg_reload_conf()")
    its.change(FILES)
    return its


@contextlib.contextmanager
def session(its: Database, change: str) -> Iterator[Any]:
    """A transaction of another session, which is open."""
    import psycopg  # not on each machine

    where = f"host={its.server.folder} dbname={its.name} user=plant"
    with contextlib.closing(psycopg.connect(where)) as link:
        link.execute(f"SET search_path TO plant; {change}")
        yield link


def ordered(rows: list[dict[str, str]]) -> list[list[tuple[str, str]]]:
    return sorted(sorted(row.items()) for row in rows)


@pytest.fixture(scope="module")
def several() -> Iterator[Several]:
    databases.skip_without()
    with contextlib.ExitStack() as kept:
        yield Several(kept)


# --- An answer


@pytest.mark.parametrize(
    ("kind", "name", "count"),
    [
        ("lot", "LOT", 9 * PIECES),
        ("reel", "R1", 3 * PIECES),
        ("board", "shared-4", 9),
        ("board", "brno-1-1", 1),
    ],
)
def test_all_plants_pieces_are_there(several: Several, kind: str, name: str, count: int) -> None:
    got = several.database.query("pieces", **{kind: name}).rows
    wanted = [
        {**row, "line": f"{plant}/{row['line']}"}
        for plant, its in several.plants.items()
        for row in its.query("pieces", 0 if count > 1 or plant == "brno" else 3, **{kind: name})[0]
    ]
    assert len(got) == count and ordered(got) == ordered(wanted)


def test_boards_are_counted_over_all_plants(several: Several) -> None:
    rows = several.ask("recall").rows
    assert len(rows) == 9 * BOARDS + SHARED
    pieces = collections.Counter(row["pieces"] for row in rows)
    assert pieces == {"1": 9 * BOARDS, "9": SHARED}
    lines = {row["line"] for row in rows if row["pieces"] == "9"}
    assert lines == {"augsburg/L1; brno/L1; cork/L1"}


def test_the_plants_are_asked_side_by_side(several: Several) -> None:
    query = "EXPLAIN SELECT FROM plant.piece WHERE lot = 'LOT'"
    assert several.database.told(query).count("Async Foreign Scan") == len(NAMES)


def test_a_name_that_no_plant_knows(several: Several) -> None:
    assert "no file that is loaded knows the name" in several.ask(status=3, lot="NONE").said


# --- A role that only reads


def test_a_reader_asks(several: Several) -> None:
    words: list[Word] = ["-U", "reader", "--csv", "-v", "board=shared-4"]
    done = several.database.psql(*words, "-f", databases.SQL / "pieces.sql")
    assert table(done.out) == several.ask(board="shared-4").rows


def test_a_reader_changes_nothing(several: Several) -> None:
    words = ["-U", "reader", "-c", "DELETE FROM plant.expected"]
    assert "permission denied" in several.database.psql(*words, status=1).err


# --- Plants that aren't there


def test_a_plant_that_is_down(several: Several) -> None:
    away = several.plants["cork"].server
    away.stop()
    try:
        several.expect_without("cork", "No such file or directory")
    finally:
        away.start()
    several.expect_all()


def test_a_plant_whose_tables_are_locked(several: Several) -> None:
    with several.limits(answer=2), session(several.plants["cork"], "LOCK TABLE reel"):
        several.expect_without("cork", "canceling statement due to statement timeout")
    several.expect_all()


def test_a_plant_that_ends_amid_its_answer_is_an_error(
    several: Several, folder: pathlib.Path
) -> None:
    cork = several.plants["cork"]
    text = (databases.SQL / "pieces.sql").read_text()
    end = f"\\! kill -QUIT $(head -n 1 {cork.server.data}/postmaster.pid)\n\\! sleep 1\n"
    amid = text.replace("\\ir ", f"\\ir {databases.SQL}/").replace(
        "SELECT board", end + "SELECT board"
    )
    (folder / "amid.sql").write_text(amid)
    words: list[Word] = ["--csv", "-v", "lot=LOT", "-f", folder / "amid.sql"]
    assert several.database.psql(*words, status=3).out == ""
    cork.server.start()
    several.expect_all()


def test_a_plant_that_is_not_added(several: Several) -> None:
    several.database.psql("-c", "INSERT INTO plant.expected VALUES ('essen')")
    several.expect_without("essen", "add.sql adds it")
    several.database.psql("-c", "DELETE FROM plant.expected WHERE name = 'essen'")
    several.expect_all()


def test_no_plant_is_expected(several: Several) -> None:
    saved = "CREATE TABLE saved AS TABLE plant.expected; DELETE FROM plant.expected"
    several.database.psql("-c", saved)
    told = several.ask(status=3)
    assert told.rows == [] and "so no plant was asked" in told.said
    several.database.psql("-c", "INSERT INTO plant.expected TABLE saved; DROP TABLE saved")


def test_a_plant_without_the_views_is_not_added(several: Several) -> None:
    """It has the tables of another version."""
    older = databases.create(several.plants["cork"].server, "older", schema="")
    older.psql("-c", "CREATE SCHEMA plant")
    with pytest.raises(AssertionError, match="run schema.sql there"):
        several.database.add(older)
    several.expect_all()


# --- What a plant lacks

# what is changed, what takes it back, and what is said
LACKS = {
    "a folder": (
        "UPDATE line SET refused = 'it is no chain'",
        "UPDATE line SET refused = ''",
        "brno: L1 was not loaded: it is no chain",
    ),
    "a piece in doubt": (
        "INSERT INTO doubt VALUES ('L1', 'doubtful piece', 'B8', '{P}', '{R9, S1}', '{NEW}')",
        "DELETE FROM doubt",
        "brno: doubtful piece",
    ),
}


@pytest.mark.parametrize("name", LACKS)
def test_what_a_plant_lacks_is_named(several: Several, name: str) -> None:
    change, back, said = LACKS[name]
    several.plants["brno"].change(change)
    told = several.ask(status=3).said
    several.plants["brno"].change(back)
    assert said in told
    several.ask()
