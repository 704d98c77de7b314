"""The sealed files of a line: copies of its desk at a moment, closed, audited, and named by the
first digits of their SHA-256. A copy, an archive, and what a recall reads are all of this kind.

A desk keeps two lists, and both only grow: the history of accepted commands, and the book, which
is empty in a file without that table. One file *continues* another if both of its lists begin with
the other's, row by row. No name, sample, clock or place says anything about their order.

    newer, older = map(sealed.read, sealed.paths_in(folder))
    sealed.continues(newer, older)
"""
from __future__ import annotations

import contextlib
import dataclasses
import os
import pathlib
import re
import sqlite3
import urllib.parse
from collections.abc import Iterator
from typing import NamedTuple

from tracedesk_ops import copies, files
from tracedesk_ops.model import DIGITS

Path = pathlib.Path

SUFFIX = ".desk"
BEGUN = re.compile(rf"begin-([0-9a-f]{{{DIGITS}}})-1")


class DeskList(NamedTuple):
    """A list of a desk's file: its table, the column that numbers its rows, and the others."""

    table: str
    key: str
    columns: tuple[str, ...]


HISTORY = DeskList("accepted", "number", ("uid", "source", "own", "effective", "command", "detail"))
BOOK = DeskList(
    "book", "n", tuple("after kind source uid machine slot board reel word of told".split())
)
LISTS = (HISTORY, BOOK)


class FilesFault(Exception):
    """What is wrong with the files of a line; the text says what to do."""


class Damaged(FilesFault):
    """A file can't be read, or isn't the one of its name."""


@dataclasses.dataclass(frozen=True)
class Sealed:
    """A sealed file, or one of the same kind that a restore took off."""

    path: Path
    digits: str
    begun: str  # the digits of the file from which its desk was begun; empty if there is none
    commands: int
    entries: int  # of its book
    sha256: str = ""  # all of it, or the digits in the name if that is believed

    @property
    def rows(self) -> int:
        return self.commands + self.entries


class RowPlace(NamedTuple):
    """A row of one of the two lists."""

    table: str
    number: int


# --- Reading


def name_of(digits: str) -> str:
    return f"{digits}{SUFFIX}"


def digits_of(path: Path) -> str:
    return files.sha256_of(path)[:DIGITS]


def paths_in(folder: Path) -> list[Path]:
    """What is, or should be, a sealed file, so each desk by whatever name; a Damaged if the folder
    can't be read.
    """
    try:
        return sorted(
            path for path in folder.iterdir() if path.suffix == SUFFIX or copies.is_database(path)
        )
    except OSError as fault:
        raise Damaged(f"{folder} can't be read: {fault.strerror}") from fault


def read(path: Path, believes_name: bool = False) -> Sealed:
    """What a file says of itself, once all of it was compared with its name."""
    try:
        if not path.is_file():
            raise Damaged(f"{path} is no file: take it away")
        if log := copies.log_of(path):
            raise Damaged(
                f"{path} can't be read with {log.name} next to it: no sealed file has a log, so"
                " take that away; of a file in lost/ move both elsewhere, once its senders have"
                " sent again"
            )
        sha256 = path.stem if believes_name else files.sha256_of(path)
        if path.name != name_of(sha256[:DIGITS]):
            raise Damaged(
                f"{path} was changed, or has another file's name: its SHA-256 begins with"
                f" {sha256[:DIGITS]}. Take it away, and take that file from a mirror"
            )
        return read_of(path, sha256)
    except (OSError, sqlite3.Error) as fault:
        raise Damaged(f"{path} can't be read: {fault}") from fault


def named(path: Path) -> Sealed:
    """The same of a file whose name is believed, for who looks often; each seal compares it."""
    return read(path, believes_name=True)


def read_of(path: Path, sha256: str) -> Sealed:
    """What a file with this checksum says of itself."""
    with opened(path) as database:
        commands, entries = (size(database, its) for its in LISTS)
        begun = begun_from(database)
        return Sealed(path, sha256[:DIGITS], begun, commands, entries, sha256)


def uri_of(path: Path) -> str:
    """Names a file that nobody writes to SQLite, which then locks nothing and makes nothing."""
    return f"file:{urllib.parse.quote(os.fsencode(path))}?mode=ro&immutable=1"


@contextlib.contextmanager
def opened(path: Path) -> Iterator[sqlite3.Connection]:
    """A file as a database. `attached` adds another one."""
    with copies.database(uri_of(path), uri=True, isolation_level=None) as database:
        yield database


@contextlib.contextmanager
def attached(database: sqlite3.Connection, path: Path) -> Iterator[None]:
    """A further file, as the schema `other`."""
    database.execute("ATTACH ? AS other", [uri_of(path)])
    try:
        yield
    finally:
        database.execute("DETACH other")


def has(database: sqlite3.Connection, its: DeskList, schema: str = "main") -> bool:
    """Whether a file has the list's table. Each desk has a history, so a query finds out if a file
    has none.
    """
    query = f"SELECT 1 FROM {schema}.sqlite_schema WHERE type = 'table' AND name = ?"
    return its is HISTORY or bool(database.execute(query, [its.table]).fetchall())


def size(database: sqlite3.Connection, its: DeskList) -> int:
    """How many rows a list has: they are numbered from 1 on, without gaps."""
    if not has(database, its):
        return 0
    query = f"SELECT coalesce(max({its.key}), 0) FROM {its.table}"
    return int(database.execute(query).fetchone()[0])


def begun_from(database: sqlite3.Connection) -> str:
    """The digits of the file from which a desk was begun: its first UniqueID has them."""
    rows = database.execute("SELECT uid FROM accepted WHERE number = 1").fetchall()
    found = BEGUN.fullmatch(rows[0][0]) if rows else None
    return found[1] if found else ""


def begun_in(path: Path) -> str:
    """The same of a file."""
    with opened(path) as database:
        return begun_from(database)


def begun_with(database: sqlite3.Connection, digits: str, schema: str) -> int:
    """How many commands a desk has from its beginning: those that have its UniqueIDs, each with its
    number, and the ClockSets between them. Behind another command nothing is of the beginning,
    whatever UniqueID its sender gave it.
    """
    if not digits:
        return 0
    query = f"""WITH own AS (SELECT number FROM {schema}.accepted
            WHERE uid BETWEEN ?1 AND ?1 || ':' AND uid = ?1 || number
            AND source = (SELECT source FROM {schema}.accepted WHERE number = 1))
        SELECT coalesce(max(number), 0) FROM own WHERE number < coalesce(
            (SELECT number FROM {schema}.accepted WHERE command <> 'ClockSet'
            AND number NOT IN own ORDER BY number LIMIT 1), 1 << 60)"""
    return int(database.execute(query, [f"begin-{digits}-"]).fetchone()[0])


def minute_at(file: Sealed, number: int) -> int | None:
    """The minute of a command in a file, or none if the file ends before."""
    query = "SELECT effective FROM accepted WHERE number = ?"
    with opened(file.path) as database:
        rows = database.execute(query, [number]).fetchall()
    return int(rows[0][0]) if rows else None


# --- Comparing


def lacked(newer: Sealed, older: Sealed) -> RowPlace | None:
    """The first row of `older` that `newer` doesn't have at the same number, in the history or in
    the book; none if it has them all.
    """
    try:
        with opened(newer.path) as database, attached(database, older.path):
            places = (lacked_in(database, its) for its in LISTS)
            return next(filter(None, places), None)
    except sqlite3.Error as fault:
        raise Damaged(f"{newer.path} and {older.path} can't be compared: {fault}") from fault


def lacked_in(database: sqlite3.Connection, its: DeskList) -> RowPlace | None:
    """The same of one list. It is `EXCEPT`, row by row in the order of numbers, so that the first
    difference ends it.
    """
    if not has(database, its, "other"):
        return None
    if not has(database, its):
        query = f"SELECT min({its.key}) FROM other.{its.table}"
    else:
        newer, older = (", ".join(f"{of}.{its_} " for its_ in its.columns) for of in ("n", "o"))
        query = (
            f"SELECT o.{its.key} FROM other.{its.table} o"
            f" LEFT JOIN main.{its.table} n ON n.{its.key} = o.{its.key}"
            f" WHERE ({newer}) IS NOT ({older}) ORDER BY o.{its.key} LIMIT 1"
        )
    rows = database.execute(query).fetchall()
    return RowPlace(its.table, int(rows[0][0])) if rows and rows[0][0] else None


def continues(newer: Sealed, older: Sealed) -> bool:
    """Whether both lists of `newer` begin with those of `older`."""
    return lacked(newer, older) is None
