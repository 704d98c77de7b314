"""Files that are on disk before what is done next: written whole, synced, locked, and listed by
their names.
"""
from __future__ import annotations

import contextlib
import fcntl
import os
import pathlib
from typing import BinaryIO, Iterator, List, Optional

LONGEST_LINE = 64 << 20  # bytes of a line; none of a message that a desk takes


class SpoolError(Exception):
    """What is wrong with a spool."""


def sync_folder(path: pathlib.Path) -> None:
    handle = os.open(path, os.O_RDONLY | os.O_DIRECTORY)
    try:
        os.fsync(handle)
    finally:
        os.close(handle)


def write_synced(path: pathlib.Path, text: bytes, mode: Optional[int] = None) -> None:
    """Puts a file of this text at its place, whole; it is on disk once its folder is synced."""
    beside = path.with_name(f".{path.name}.new")
    try:
        with open(beside, "wb") as file:
            file.write(text)
            file.flush()
            if mode is not None:
                os.fchmod(file.fileno(), mode)
            os.fsync(file.fileno())
        os.rename(beside, path)
    except OSError:
        with contextlib.suppress(OSError):
            beside.unlink()
        raise


def lock_alone(handle: int, why: str) -> None:
    """Locks an open file or folder; a SpoolError if another process has it."""
    try:
        fcntl.flock(handle, fcntl.LOCK_EX | fcntl.LOCK_NB)
    except BlockingIOError:
        raise SpoolError(why) from None


@contextlib.contextmanager
def locked(path: pathlib.Path, why: str) -> Iterator[None]:
    """Holds a file that is there to be locked."""
    handle = os.open(path, os.O_RDWR | os.O_CREAT, 0o600)
    try:
        lock_alone(handle, why)
        yield
    finally:
        os.close(handle)


def lines_of(stream: BinaryIO) -> Iterator[bytes]:
    """The messages of a stream: its lines, without those of spaces alone. One that is longer than
    any message by far comes in pieces.
    """
    while line := stream.readline(LONGEST_LINE):
        if line.strip():
            yield line.rstrip(b"\r\n")


def files_in(folder: pathlib.Path) -> List[pathlib.Path]:
    """The files of messages in a folder, by their names. What is being written there has another
    ending, or begins with a dot.
    """
    return sorted(
        it
        for it in folder.iterdir()
        if it.suffix in (".json", ".jsonl") and not it.name.startswith(".") and it.is_file()
    )
