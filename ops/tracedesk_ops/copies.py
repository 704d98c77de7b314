"""A copy of a desk's file with its log: for tools that read a desk's tables.

The newest commands of a desk may be in its log alone: while it runs, after SIGTERM, by which the
service stops, and after a kill. Who reads the file without its log misses them, and gets no error.
So tools read a copy of both, in a folder of its own, and the desk's own file and log stay as they
are. The copy is one moment of a desk that runs.

    with copies.opened("/var/lib/tracedesk/desk") as database:
        database.execute("SELECT count(*) FROM accepted")
"""
from __future__ import annotations

import contextlib
import fcntl
import os
import pathlib
import shutil
import sqlite3
import struct
from collections.abc import Iterator
from typing import Any, BinaryIO

from tracedesk_ops import files
from tracedesk_ops.files import Room

MAGIC = b"SQLite format 3\0"
# beside a desk's file, and part of it; the second only if its making was cut off
LOGS = ("-wal", "-journal")
LOCKED_FROM, LOCKED = 1 << 30, 512  # the bytes of a file that SQLite locks
LONGEST_EMPTY_LOG = 56  # bytes: the head of a log and that of a page, without the page
TRIES = 30  # of a copy of a running desk: only the first one takes long
FLOCK = "hhqqi0q"  # Linux' struct flock of 64 bits: type, whence, start, length, process


def is_database(path: pathlib.Path) -> bool:
    with contextlib.suppress(FileNotFoundError):
        if path.is_file():
            with open(path, "rb") as file:
                return file.read(len(MAGIC)) == MAGIC
    return False


def log_of(path: pathlib.Path) -> pathlib.Path | None:
    """The log next to a file that may hold commands, or none. A run leaves an empty one."""
    for tail in LOGS:
        with contextlib.suppress(FileNotFoundError):
            if os.stat(f"{path}{tail}").st_size > LONGEST_EMPTY_LOG:
                return pathlib.Path(f"{path}{tail}")
    return None


def logs_of(path: pathlib.Path) -> list[pathlib.Path]:
    """The logs next to a file, empty ones too."""
    there = (pathlib.Path(f"{path}{tail}") for tail in LOGS)
    return [log for log in there if log.exists()]


class InUse(Exception):
    """A run has the file open."""

    def __init__(self) -> None:
        super().__init__("a run has it open: stop that")


def is_locked(file: BinaryIO, kind: int = fcntl.F_RDLCK) -> bool:
    """Whether another process has one of SQLite's locks on an open file: one by which it may write,
    or any if `kind` is a lock to write.
    """
    asked = struct.pack(FLOCK, kind, os.SEEK_SET, LOCKED_FROM, LOCKED, 0)
    answer = struct.unpack(FLOCK, fcntl.fcntl(file, fcntl.F_GETLK, asked))
    return bool(answer[0] != fcntl.F_UNLCK)


class Changing(InUse):
    """A file was changed again and again while it was copied."""

    def __init__(self) -> None:
        Exception.__init__(self, f"it was changed while it was copied, {TRIES} times: ask again")


def copy(file: str | os.PathLike[str], to: pathlib.Path, is_gentle: bool = False) -> None:
    """Makes a copy of the file and the logs of a desk that may run equal to them, as they are now.
    Nobody else may open the copies. A log is written to its end while the file stays, until the
    file takes the log in: if the file changed meanwhile, or the log began anew, what differs is
    copied again.
    """
    path = pathlib.Path(os.path.realpath(file))  # a link has no log of its own
    for _ in range(TRIES):
        before = state_of(path)
        files.make_equal(path, to, is_gentle)
        for tail in LOGS:
            pathlib.Path(f"{to}{tail}").unlink(missing_ok=True)
            with contextlib.suppress(FileNotFoundError):
                shutil.copyfile(f"{path}{tail}", f"{to}{tail}")
        if state_of(path) == before:
            return
    raise Changing()


def state_of(file: pathlib.Path) -> tuple[int, int, int, bytes]:
    """What stays the same of a file and its log while a log is only added to."""
    its, head = os.stat(file), b""
    with contextlib.suppress(FileNotFoundError), open(f"{file}-wal", "rb") as it:
        head = it.read(32)
    return its.st_ino, its.st_size, its.st_mtime_ns, head


@contextlib.contextmanager
def copied(
    file: str | os.PathLike[str], within: pathlib.Path | None = None
) -> Iterator[pathlib.Path]:
    """The path of a copy with its log, in a new folder below `within` or the temporary files'
    folder; the folder is gone afterwards.
    """
    with Room(dir=within) as room:
        to = pathlib.Path(room, "copy")
        copy(file, to)
        yield to


@contextlib.contextmanager
def database(name: str | os.PathLike[str], **how: Any) -> Iterator[sqlite3.Connection]:
    """A database. Damaged bytes in a text are a sqlite3.DatabaseError too."""
    with contextlib.closing(sqlite3.connect(name, **how)) as connection:
        try:
            yield connection
        except UnicodeDecodeError as fault:
            raise sqlite3.DatabaseError(f"it has damaged bytes: {fault}") from fault


def fold(file: pathlib.Path) -> None:
    """Puts the log of a desk's file that no run has open into the file, as an audit does at its
    end. If that is cut off, nothing is lost.
    """
    with database(file, isolation_level=None) as connection:
        busy, *_ = connection.execute("PRAGMA wal_checkpoint(TRUNCATE)").fetchone()
    if busy:
        raise InUse()


@contextlib.contextmanager
def opened(
    file: str | os.PathLike[str], within: pathlib.Path | None = None
) -> Iterator[sqlite3.Connection]:
    """A copy, as a database."""
    with copied(file, within) as copy_of_file, database(copy_of_file) as connection:
        yield connection


def rows(database: sqlite3.Connection, query: str, *values: object) -> list[Any]:
    """All rows of a query with these values."""
    return database.execute(query, values).fetchall()
