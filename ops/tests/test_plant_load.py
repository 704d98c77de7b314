"""What a load can meet: the tables have a line's chain whole, or say why not. No piece is there
twice.
"""
import pathlib
import re
import shutil
import signal
import subprocess
from typing import Iterator

import pytest
from lab import databases, plants
from lab.databases import Database
from lab.plants import WorkedLine, pieces
from lab.line import table
from lab.tools import tool
from lab.waits import wait_for
from tracedesk_dev import postgres

pytestmark = [pytest.mark.xdist_group("plant_load")]

MANY = "SELECT lot FROM piece GROUP BY 1 ORDER BY count(*) DESC LIMIT 1"
OTHERS = """SELECT count(*) FROM pg_stat_activity
    WHERE datname = current_database() AND pid <> pg_backend_pid()"""


@pytest.fixture(scope="module")
def line(program: pathlib.Path, tmp_path_factory: pytest.TempPathFactory) -> Iterator[WorkedLine]:
    """A line that is rolled over twice and sealed."""
    made = WorkedLine(program, tmp_path_factory.mktemp("line") / "L1", "L1")
    try:
        made.serve()
        made.work(plants.parts_of_work())
        yield made
    finally:
        made.end()


@pytest.fixture(scope="module")
def wanted(line: WorkedLine, server: postgres.Server) -> Database:
    """The database of an undisturbed load."""
    made = databases.create(server, "undisturbed")
    made.load(line.kept()[-1])
    return made


# --- Folders that are refused

# what is altered, and what is said of it
ALTERED = {
    "a damaged archive": "was changed, or has another file's name",
    "a missing archive": "is missing, from which",
    "an archive with a log": "-wal next to it",
    "no folder of what restores took off": "lost can't be read",
    "a damaged newest file": "was changed, or has another file's name",
}


def damage(file: pathlib.Path) -> None:
    content = bytearray(file.read_bytes())
    content[len(content) // 2] ^= 1
    file.unlink()
    file.write_bytes(content)


def altered(line: WorkedLine, folder: pathlib.Path, name: str) -> pathlib.Path:
    """A mirror of a line in which something is changed."""
    copy = folder / "altered/L1"
    shutil.copytree(line.kept()[-1], copy)
    archive = copy / "sealed" / line.archived[0].name
    if name == "a missing archive":
        archive.unlink()
    elif "took off" in name:
        shutil.rmtree(copy / "lost")
    elif name == "an archive with a log":
        archive.with_name(f"{archive.name}-wal").write_bytes(bytes(5_000))
    else:
        damage(copy / "sealed" / line.newest().name if "newest" in name else archive)
    return copy


@pytest.mark.parametrize("name", ALTERED)
def test_a_line_stays_as_it_was_until_its_folder_is_whole(
    line: WorkedLine, database: Database, wanted: Database, folder: pathlib.Path, name: str
) -> None:
    database.load(line.kept()[0])
    before = pieces(database)
    ((lot,),) = database.rows(MANY)
    database.refuse(ALTERED[name], altered(line, folder, name))
    assert pieces(database) == before
    for query in ("pieces", "recall"):
        told = database.query(query, 3, lot=lot)
        assert told.rows and "L1 was not loaded: " in told.said and ALTERED[name] in told.said
    database.load(line.kept()[-1])
    assert plants.state(database) == plants.state(wanted)


def test_a_line_that_was_mistyped_goes(
    line: WorkedLine, database: Database, wanted: Database
) -> None:
    database.load("--line", "L11", line.kept()[0])
    database.refuse("its files are loaded as the line L11", line.kept()[-1])
    database.change("DELETE FROM line WHERE name = 'L11'")
    assert database.rows("SELECT count(*) FROM placement") == [("0",)]
    database.load(line.kept()[-1])
    assert plants.state(database) == plants.state(wanted)


def test_lines_of_the_set_up_are_loaded_and_one_without_a_file_is_named(
    line: WorkedLine, database: Database, folder: pathlib.Path
) -> None:
    for name, db, port in (("L1", line.file, 8081), ("L8", folder / "L8/desk", 8082)):
        text = f"line = {name}\ndb = {db}\nport = {port}\n"
        (folder / f"{name}.conf").write_text(text)
    said = database.load(status=1, TRACEDESK_SET_UP=str(folder))
    assert said.count(" pieces\n") == 3
    ((lot,),) = database.rows(MANY)
    assert "L8 was not loaded: " in database.query("pieces", 3, lot=lot).said


def test_a_load_amid_a_recall_changes_nothing_of_its_answer(
    line: WorkedLine, database: Database, folder: pathlib.Path
) -> None:
    database.load(line.kept()[0])
    ((lot,),) = database.rows(MANY)
    before = database.query("pieces", lot=lot)
    text = (databases.SQL / "pieces.sql").read_text().replace("\\ir ", f"\\ir {databases.SQL}/")
    load = f"\\! {tool('plant-load')} {line.kept()[-1]} > {folder}/said\n"
    (folder / "amid.sql").write_text(text.replace("SELECT board", f"{load}SELECT board"))
    done = database.psql("--csv", "-v", f"lot={lot}", "-f", folder / "amid.sql")
    assert " pieces\n" in (folder / "said").read_text()
    assert (table(done.out), done.err) == before
    assert database.query("pieces", lot=lot).rows != before.rows


# what is expected of lines, what takes it back, and what is said
EXPECTED = {
    "a line that was never loaded": (
        "INSERT INTO line VALUES ('L7')",
        "DELETE FROM line WHERE name = 'L7'",
        "no file of L7 is loaded",
    ),
    "a newer file": (
        "UPDATE line SET oldest = '1 day'",
        "UPDATE line SET oldest = '100 years'",
        "the newest file of L1 is of 2026-",
    ),
    "a line": (
        "CREATE TABLE kept AS TABLE line; ALTER TABLE file DROP CONSTRAINT file_line_fkey;"
        " ALTER TABLE doubt DROP CONSTRAINT doubt_line_fkey; DELETE FROM line",
        "INSERT INTO line TABLE kept",
        "the table line is empty",
    ),
}


@pytest.mark.parametrize("name", EXPECTED)
def test_what_is_expected_of_lines(line: WorkedLine, database: Database, name: str) -> None:
    change, back, said = EXPECTED[name]
    database.load(line.kept()[-1])
    ((lot,),) = database.rows(MANY)
    assert "as of L1 2026-03-" in database.query("recall", lot=lot).said
    database.change(change)
    assert said in database.query("recall", 3, lot=lot).said
    database.change(back)
    database.query("recall", lot=lot)


def test_a_name_that_no_file_knows(wanted: Database) -> None:
    for kind in ("lot", "reel", "board"):
        assert (
            "no file that is loaded knows the name" in wanted.query("pieces", 3, **{kind: "X"}).said
        )


def test_tables_of_an_older_version_are_refused(server: postgres.Server) -> None:
    old = databases.create(server, "old", schema="")
    old.psql("-c", "CREATE SCHEMA plant; CREATE TABLE plant.command (file integer)")
    assert "these are tables of an older version" in old.query("schema", 3).said


# --- Kills, and a full disk


@pytest.mark.parametrize("step", ["copied", "added"])
def test_a_load_that_is_killed_changes_nothing(
    line: WorkedLine, database: Database, wanted: Database, step: str
) -> None:
    """A recall says that its load has not ended, until the next one is done."""
    database.load(line.kept()[0])
    before = pieces(database)
    ((lot,),) = database.rows(MANY)
    database.load(line.kept()[-1], status=-signal.SIGKILL, TRACEDESK_KILL_AFTER=step)
    wait_for("its session has ended", lambda: database.rows(OTHERS) == [("0",)])
    assert pieces(database) == before
    assert "L1 was not loaded: its load has not" in database.query("recall", 3, lot=lot).said
    database.load(line.kept()[-1])
    assert plants.state(database) == plants.state(wanted)


@pytest.mark.root
def test_a_full_disk_changes_nothing(
    line: WorkedLine, server: postgres.Server, wanted: Database, folder: pathlib.Path
) -> None:
    disk = folder / "disk"
    disk.mkdir()
    subprocess.run(["mount", "-t", "tmpfs", "-o", "size=200m", "small", disk], check=True)
    its = Database(server, "postgres")
    try:
        disk.chmod(0o755)
        shutil.chown(disk, "postgres")
        its.psql("-c", f"CREATE TABLESPACE small LOCATION '{disk}'")
        small = databases.create(server, "small", more="TABLESPACE small")
        resize(disk, f"{shutil.disk_usage(disk).used // 1024 + 150}k")
        said = small.load(line.kept()[-1], status=1)
        resize(disk, "200m")  # on a full one a new session may not begin
        assert re.search("free disk space|could not write init file|No space left", said)
        assert pieces(small) == []
        small.load(line.kept()[-1])
        assert plants.state(small) == plants.state(wanted)
        its.psql("-c", "DROP DATABASE small")
        its.psql("-c", "DROP TABLESPACE small")
    finally:
        subprocess.run(["umount", "--lazy", disk], check=True)


def resize(disk: pathlib.Path, size: str) -> None:
    subprocess.run(["mount", "-o", f"remount,size={size}", disk], check=True)
