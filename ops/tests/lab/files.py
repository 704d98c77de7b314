"""Desks' files made of tables alone, without the program: for tests of what the files say of one
another.
"""
from __future__ import annotations

import contextlib
import pathlib
import sqlite3
from collections.abc import Iterable, Iterator

# docs/definitions.md, "The tables of a desk's file"
TABLES = """
CREATE TABLE version (one INTEGER NOT NULL PRIMARY KEY, number INTEGER NOT NULL, greatest INTEGER NOT NULL) STRICT;
CREATE TABLE accepted (number INTEGER NOT NULL PRIMARY KEY, uid TEXT NOT NULL UNIQUE, source TEXT NOT NULL,
    own INTEGER NOT NULL, effective INTEGER NOT NULL, command TEXT NOT NULL, detail TEXT NOT NULL) STRICT;
CREATE TABLE part (part TEXT NOT NULL, PRIMARY KEY (part)) STRICT;
CREATE TABLE alternate (part TEXT NOT NULL, alternate TEXT NOT NULL, PRIMARY KEY (part, alternate)) STRICT;
CREATE TABLE sheet_row (product TEXT NOT NULL, machine TEXT NOT NULL, place INTEGER NOT NULL, slot TEXT NOT NULL,
    part TEXT NOT NULL, designators TEXT NOT NULL, PRIMARY KEY (product, machine, place)) STRICT;
CREATE TABLE selected (machine TEXT NOT NULL, product TEXT NOT NULL, PRIMARY KEY (machine)) STRICT;
CREATE TABLE reel (reel TEXT NOT NULL, part TEXT NOT NULL, lot TEXT NOT NULL, level TEXT NOT NULL,
    label INTEGER NOT NULL, received INTEGER NOT NULL, placed INTEGER NOT NULL, scrapped INTEGER NOT NULL,
    remaining INTEGER NOT NULL, used INTEGER NOT NULL, open_since INTEGER NOT NULL, baked INTEGER NOT NULL,
    PRIMARY KEY (reel), CHECK (received = placed + scrapped + remaining)) STRICT;
CREATE TABLE mount (since INTEGER NOT NULL PRIMARY KEY, machine TEXT NOT NULL, slot TEXT NOT NULL,
    reel TEXT NOT NULL UNIQUE) STRICT;
CREATE TABLE board (board TEXT NOT NULL, product TEXT NOT NULL, machine TEXT NOT NULL, PRIMARY KEY (board)) STRICT;
CREATE TABLE placement (number INTEGER NOT NULL, place INTEGER NOT NULL, board TEXT NOT NULL,
    designator TEXT NOT NULL, machine TEXT NOT NULL, slot TEXT NOT NULL, reel TEXT NOT NULL REFERENCES reel,
    overdue INTEGER NOT NULL, UNIQUE (board, designator)) STRICT;
CREATE TABLE found (reel TEXT NOT NULL, pieces INTEGER NOT NULL, PRIMARY KEY (reel), CHECK (pieces >= 1)) STRICT;
"""
INSERT = "INSERT INTO accepted VALUES (?, ?, ?, 0, ?, ?, '')"


@contextlib.contextmanager
def opened(path: pathlib.Path) -> Iterator[sqlite3.Connection]:
    """A desk's file to be written; no test of these cuts the power."""
    with contextlib.closing(sqlite3.connect(path)) as database, database:
        database.execute("PRAGMA synchronous = OFF")
        database.execute("PRAGMA journal_mode = MEMORY")
        yield database


def desk(path: pathlib.Path, uids: Iterable[str] = (), mark: str = "") -> pathlib.Path:
    """A new desk that has accepted these UniqueIDs, after its beginning if it has a mark."""
    with opened(path) as database:
        database.executescript(TABLES)
        database.execute("INSERT INTO version VALUES (1, 2, 1000000)")
        if mark:
            database.execute(INSERT, [1, f"begin-{mark}-1", "begin", 0, "PartDefined\tP"])
    accept(path, uids)
    return path


def accept(path: pathlib.Path, uids: Iterable[str]) -> None:
    """The desk accepts parts with these UniqueIDs."""
    with opened(path) as database:
        for uid in uids:
            last = database.execute("SELECT coalesce(max(number), 0) FROM accepted").fetchone()[0]
            database.execute(INSERT, [last + 1, uid, "S", last + 1, f"PartDefined\t{uid}"])
