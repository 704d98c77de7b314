"""Files that several tools write: each is replaced whole, and stays as it was if that fails.

    files.put(pathlib.Path("/run/tracedesk-clock/desk.json"), "{}\\n", 0o644)
"""
from __future__ import annotations

import contextlib
import errno
import glob
import hashlib
import os
import pathlib
import secrets
import stat
import tempfile
import time
from typing import BinaryIO

CHUNK = 1 << 20
PAGE = 4096  # bytes that are written together at least
ABANDONED = 3600  # seconds after which an unfinished file is one of a call that was killed


class Room(tempfile.TemporaryDirectory[str]):
    """A folder for the time of a block."""

    def __init__(self, prefix: str = "tracedesk-", dir: pathlib.Path | None = None) -> None:
        super().__init__(prefix=prefix, dir=dir)


def put(path: pathlib.Path, text: str, mode: int | None = None) -> None:
    """Replaces a file by one of this text, which is on disk by then; never writes through a link.

    Calls of several processes may meet: each writes a file of its own, and the last one stays.
    """
    for left in path.parent.glob(f"{glob.escape(path.name)}.*.new"):
        with contextlib.suppress(FileNotFoundError):
            if time.time() - left.lstat().st_mtime > ABANDONED:
                left.unlink()
    unfinished = path.with_name(f"{path.name}.{secrets.token_hex(8)}.new")
    try:
        with open(unfinished, "x", encoding="utf-8", newline="") as file:
            if mode is not None:
                os.fchmod(file.fileno(), mode)
            file.write(text)
            file.flush()
            os.fsync(file.fileno())
        os.replace(unfinished, path)
    except BaseException:
        with contextlib.suppress(OSError):
            unfinished.unlink()
        raise
    keep(path.parent)


def read_plain(path: str | pathlib.Path, most: int, folder: int | None = None) -> bytes:
    """The first bytes of a file, so many at most, by its path or its name in an open folder. What
    others put there may be a link, or a pipe that never ends: then this is an OSError.
    """
    how = os.O_RDONLY | os.O_NOFOLLOW | os.O_NONBLOCK | os.O_CLOEXEC
    with open(os.open(path, how, dir_fd=folder), "rb") as file:
        if not stat.S_ISREG(os.fstat(file.fileno()).st_mode):
            raise OSError(errno.EINVAL, "it is no file", str(path))
        return file.read(most)


def keep(path: pathlib.Path) -> None:
    """Waits until a file or a folder is on disk."""
    number = os.open(path, os.O_RDONLY)
    try:
        os.fsync(number)
    finally:
        os.close(number)


def sha256_of(path: pathlib.Path) -> str:
    """The checksum of a file, as sha256sum prints it."""
    with open(path, "rb") as file:
        return sha256_within(file)


def sha256_within(file: BinaryIO) -> str:
    """The checksum of what is left of an open file."""
    checksum = hashlib.sha256()
    while part := file.read(CHUNK):
        checksum.update(part)
    return checksum.hexdigest()


def make_equal(path: pathlib.Path, to: pathlib.Path, is_gentle: bool = False) -> int:
    """Makes a copy equal to a file by writing the pages that differ; how many chunks had some. A
    gentle one waits for the disk after each of these: so whoever else waits for the disk meanwhile
    waits for no more than a chunk.
    """
    chunk, there, at, written = bytearray(CHUNK), bytearray(CHUNK), 0, 0
    how = os.O_RDWR | os.O_CREAT | os.O_CLOEXEC
    with open(path, "rb", buffering=0) as source, open(os.open(to, how, 0o600), "r+b", 0) as target:
        while count := source.readinto(chunk):
            known = os.preadv(target.fileno(), [there], at)
            del chunk[count:], there[min(known, count) :]
            if chunk != there:
                written += 1
                write_pages(target.fileno(), chunk, there, at)
                if is_gentle:
                    os.fdatasync(target.fileno())
            at += count
        target.truncate(at)
    return written


def write_pages(number: int, chunk: bytearray, there: bytearray, at: int) -> None:
    """Writes the pages of a chunk that an open file doesn't have."""
    size = PAGE if there else CHUNK
    for place in range(0, len(chunk), size):
        page = chunk[place : place + size]
        if page != there[place : place + size]:
            write_at(number, page, at + place)


def write_at(number: int, content: bytearray, at: int) -> None:
    while content:
        written = os.pwrite(number, content, at)
        del content[:written]
        at += written
