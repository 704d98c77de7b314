"""Asks three plants by one database, and the same files in one database: how long?

usage: dev/bench/run plants [--files N] [--pieces N] [--folder FOLDER]

examples:
  dev/bench/run plants                      40 files of 100,000 pieces: 2 GB of disk
  dev/bench/run plants --pieces 1032550     a year of ten lines: 20 GB of disk

SQL makes up the files. In one file of five a lot has two reels of 55. Each plant has every third
file, and a server of its own on this machine, with PostgreSQL's settings. A lot's boards, its
pieces and a board are asked for by the queries of ops/plant, as a user calls psql. Cold is after a
restart, with the files out of the system's cache; warm is the median of five.

--files   in all
--pieces  of each
--folder  on which disk; a new one of the system's
"""
import argparse
import contextlib
import os
import pathlib
import statistics
import tempfile
import time
from concurrent.futures import ThreadPoolExecutor
from typing import Iterator

from tracedesk_dev import postgres, program

PLANTS, ONE, SEVERAL = ("augsburg", "brno", "cork"), "one", "several"
REELS, OF_A_BOARD, WARM = 55, 206, 5
FILE = """SET search_path TO plant; SET work_mem = '256MB'; BEGIN;
    INSERT INTO line VALUES ('L' || {it} % 10, NULL) ON CONFLICT DO NOTHING;
    INSERT INTO file (line, name, sha256, place, begun, commands, entries, rows, pieces, until, sealed)
        SELECT 'L' || {it} % 10, 'archive-{it}', {it}, {it}, '', 1, 0, '', {pieces}, now(), now();
    INSERT INTO reel SELECT currval('file_id_seq'), 'R{it}-' || n, 'P' || n,
        CASE WHEN n < 2 AND {it} % 5 = 0 THEN 'LOT' ELSE 'LOT-{it}-' || n END
        FROM generate_series(0, {reels} - 1) n;
    INSERT INTO placement SELECT currval('file_id_seq'), 'B{it}-' || n / {of_a_board},
        'C' || n % {of_a_board}, 'L1-M1', n % {reels}, 'R{it}-' || n % {reels}, false, n / 100
        FROM generate_series(1, {pieces}) n ORDER BY n % {reels}, n; COMMIT"""


def asked(server: postgres.Server, name: str, *words: object) -> str:
    """What psql prints, of a database of a server."""
    return str(postgres.asked("-h", server.folder, "-d", name, "--csv", "-t", *words))


def filled(server: postgres.Server, name: str, files: range, pieces: int) -> None:
    """Makes a database with these files."""
    asked(server, "postgres", "-c", f"CREATE DATABASE {name}")
    asked(server, name, "-f", postgres.SQL / "schema.sql")
    for it in files:
        text = FILE.format(it=it, pieces=pieces, of_a_board=OF_A_BOARD, reels=REELS)
        asked(server, name, "-c", text)
    asked(server, name, "-c", "VACUUM ANALYZE")


def added(servers: dict[str, postgres.Server]) -> None:
    """Makes the database that asks the plants, on the server of the first one."""
    home = servers[PLANTS[0]]
    asked(home, "postgres", "-c", f"CREATE DATABASE {SEVERAL}")
    os.environ["PLANT_PASSWORD"] = "none is asked for"
    for name in PLANTS:
        its = {"host": servers[name].folder, "dbname": name, "user": "plant"}
        words = [word for name, value in its.items() for word in ("-v", f"{name}={value}")]
        asked(home, SEVERAL, *words, "-f", postgres.SQL / "add.sql")


def restart(servers: list[postgres.Server]) -> None:
    """A new start of servers, with their files out of the system's cache."""
    for server in servers:
        server.stop()
        for path in server.data.rglob("*"):
            if path.is_file():
                with open(path, "rb") as file:
                    os.fsync(file.fileno())
                    os.posix_fadvise(file.fileno(), 0, 0, os.POSIX_FADV_DONTNEED)
        server.start()


def seconds(server: postgres.Server, name: str, words: tuple[object, ...]) -> tuple[float, int]:
    """How long a question takes, and how many rows it has."""
    began = time.monotonic()
    rows = asked(server, name, *words).count("\n")
    return time.monotonic() - began, rows


def measure(servers: dict[str, postgres.Server], board: str) -> None:
    """Prints a table of the questions."""
    questions: dict[str, tuple[object, ...]] = {
        "the boards of a lot": ("-v", "lot=LOT", "-f", postgres.SQL / "recall.sql"),
        "its pieces": ("-v", "lot=LOT", "-f", postgres.SQL / "pieces.sql"),
        "a board": ("-v", f"board={board}", "-f", postgres.SQL / "pieces.sql"),
    }
    print("| Asked | Rows | One database, cold, warm | Three plants, cold, warm |")
    print("|---|---:|---:|---:|")
    for about, words in questions.items():
        told, rows = [], set()
        for names, name in (((ONE,), ONE), (PLANTS, SEVERAL)):
            its = [servers[one] for one in names]
            restart(its)
            cold, count = seconds(its[0], name, words)
            warm = statistics.median(seconds(its[0], name, words)[0] for _ in range(WARM))
            told.append(f"{cold:.2f}, {warm:.2f} s")
            rows.add(count)
        if len(rows) > 1:
            program.stop(f"{about}: the rows differ, {rows}")
        print(f"| {about} | {max(rows):,} | {told[0]} | {told[1]} |", flush=True)


@contextlib.contextmanager
def running(folder: pathlib.Path | None) -> Iterator[dict[str, postgres.Server]]:
    """A server for one database, and one for each plant."""
    with contextlib.ExitStack() as kept:
        servers = {}
        for name in (ONE, *PLANTS):
            room = kept.enter_context(tempfile.TemporaryDirectory(prefix="plant-", dir=folder))
            servers[name] = kept.enter_context(postgres.Server(pathlib.Path(room)))
        yield servers


def words(reader: argparse.ArgumentParser) -> None:
    reader.add_argument("--files", type=int, default=40)
    reader.add_argument("--pieces", type=int, default=100_000)
    reader.add_argument("--folder", type=pathlib.Path)


def main(its: argparse.Namespace, _reader: argparse.ArgumentParser) -> None:
    if not postgres.is_here():
        program.stop("there is no PostgreSQL here: apt-get install postgresql")
    with running(its.folder) as servers, ThreadPoolExecutor() as threads:
        began = time.monotonic()
        files = {
            ONE: range(its.files),
            **{n: range(at, its.files, 3) for at, n in enumerate(PLANTS)},
        }
        making = [threads.submit(filled, servers[n], n, of, its.pieces) for n, of in files.items()]
        for one in making:
            one.result()
        added(servers)
        print(
            f"{its.files} files of {its.pieces:,} pieces, made in {time.monotonic() - began:.0f} s"
        )
        measure(servers, f"B{its.files // 2}-{its.pieces // OF_A_BOARD // 2}")
