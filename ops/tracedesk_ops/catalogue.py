"""The files of a line that are asked, as around.py finds them in its folder, and minutes as texts.

    spelled(29544840)      # 2026-03-05T14:00:00Z
"""
from __future__ import annotations

import contextlib
import csv
import datetime
import io
import os
import pathlib
import sqlite3
from collections.abc import Iterable, Iterator
from typing import Any, NamedTuple

from tracedesk_ops import sealed

RUNNING = "running desk"  # in the place of an archive's name
EPOCH = datetime.datetime(1970, 1, 1)
csv.field_size_limit((1 << 31) - 1)  # a cell is as long as what somebody sent


class CatalogueError(Exception):
    """What is wrong with an archive; the text names the file."""


class Archive(NamedTuple):
    """A sealed file that a desk went on from, or a copy of the running one, which has RUNNING for a
    name. `sha256` is its checksum, or the digits of it in the file's name, if that is believed.
    Minutes are whole minutes since 1970-01-01T00:00Z.
    """

    path: pathlib.Path
    sha256: str
    last_minute: int
    commands: int

    @property
    def file(self) -> str:
        return self.path.name


def spelled(minute: int) -> str:
    """A minute as the program prints times, as 2026-03-02T06:00:00Z."""
    return (EPOCH + datetime.timedelta(minutes=minute)).isoformat() + "Z"


def minute_of(text: str) -> int:
    """The minute of a time, in UTC if it names no offset; a ValueError if it is none."""
    then = datetime.datetime.fromisoformat(text)
    try:
        utc = then.astimezone(datetime.timezone.utc).replace(tzinfo=None) if then.tzinfo else then
    except OverflowError as fault:
        raise ValueError(f"{text} is in a year that UTC doesn't have") from fault
    return (utc - EPOCH) // datetime.timedelta(minutes=1)


# --- The archives themselves


@contextlib.contextmanager
def unchanged(file: pathlib.Path) -> Iterator[sqlite3.Connection]:
    """A sealed file, as a database; it stops if the file changes meanwhile."""
    try:
        before = state_of(file)
        with sealed.opened(file) as database:
            yield database
        after = state_of(file)
    except OSError as fault:
        raise CatalogueError(f"{file}: it can't be read: {fault.strerror}") from fault
    except sqlite3.Error as fault:
        raise CatalogueError(f"{file}: {fault}") from fault
    if after != before:
        raise CatalogueError(f"{file}: it was changed while it was asked: ask again")


def state_of(file: pathlib.Path) -> tuple[int, int, int, int]:
    """What stays the same of a file that nobody changes."""
    it = os.stat(file)
    return it.st_dev, it.st_ino, it.st_size, it.st_mtime_ns


def printable(text: str) -> str:
    """A text in one line, in which what can't be printed is spelled: as \\r, or half a letter."""
    if text.isprintable():
        return text
    spelt = (it if it.isprintable() else it.encode("unicode_escape").decode() for it in text)
    return "".join(spelt)


# --- Tables as CSV: all that the tools write and read again goes through these


class Lines(list[str]):
    """The rows of a table as a csv.writer gives them. It quotes the letters of its line ends alone,
    so these are both; a line of the table has a line feed.
    """

    def write(self, row: str, /) -> None:
        self.append(f"{row[:-2]}\n")


def csv_text(table: Iterable[Iterable[Any]]) -> str:
    """A table as CSV, of which `csv_rows` makes the same table, whatever is in its texts."""
    lines = Lines()
    csv.writer(lines, lineterminator="\r\n").writerows(table)
    return "".join(lines)


def csv_rows(text: str) -> Any:
    """A csv.reader of a table; a csv.Error if it is none."""
    return csv.reader(io.StringIO(text, newline=""), strict=True)


def csv_table(text: str) -> list[dict[str, str]]:
    """The rows of a table with a header; a ValueError if it is none."""
    try:
        return list(csv.DictReader(io.StringIO(text, newline=""), strict=True))
    except csv.Error as fault:
        raise ValueError(f"it is no table: {fault}") from fault
