"""What keeps the program from a file, as far as that is seen without its tables."""
from __future__ import annotations

import contextlib
import fcntl
import os
import pathlib
import pwd
import stat
from collections.abc import Iterator
from typing import NamedTuple

from tracedesk_ops import copies

ROOM_OF_AN_OPENING = 65_536  # bytes that an opening may write to its log
RIGHTS, NO_ROOM, OTHER_NAME, JOURNAL = "no permission", "no room", "another name", "half written"
NO_FILE, IN_USE = "no file", "in use"
# programs that have a desk open, as they are installed or built
OWN = ("(tracedesk)", "(tracedesk-line)", "(tracedesk_line)")
RESTORE = "restore the newest sealed file"
REMEDIES = {  # by the cause
    RIGHTS: "give the file and its log back to the owner of their folder, by chown",
    NO_ROOM: "make room there; a disk that is mounted read only mostly failed: journalctl --dmesg",
    OTHER_NAME: "take the other name away, and not the file; put the log where its link is",
    JOURNAL: f"delete neither of both: move them aside together, and {RESTORE}",
    IN_USE: "end it, as it ends otherwise",
    NO_FILE: f"is the name right, and is its disk there (findmnt)? Else {RESTORE}",
}


class Finding(NamedTuple):
    """What keeps the program from a file: the cause, and words of its own."""

    cause: str
    words: str

    def text(self) -> str:
        return f"{self.cause}: {self.words}: {REMEDIES[self.cause]}"


def openers(file: str) -> list[str]:
    """The other processes that have a file open, in words. A lock of the program's names no
    process, so all are looked at.
    """
    wanted, found = os.stat(file), set()
    for it in pathlib.Path("/proc").glob("[0-9]*/fd/*"):
        with contextlib.suppress(OSError):
            process = it.parent.parent
            if os.path.samestat(it.stat(), wanted) and process.name != str(os.getpid()):
                found.add(f"process {process.name} ({(process / 'comm').read_text().strip()})")
    return sorted(found)


def in_use(file: str) -> Iterator[Finding]:
    """Which programs have a lock of the file that keeps the desk's from it, unless one is that."""
    with open(file, "rb") as it:
        found = openers(file) if copies.is_locked(it, fcntl.F_WRLCK) else []
    if found and not any(it.endswith(OWN) for it in found):
        yield Finding(IN_USE, f"{', '.join(found)} has {file} open")


def rights(file: str) -> Iterator[str]:
    """What the owner of the desk's folder, as whom this is called, may not do that an opening does,
    in words.
    """
    who, log = name_of(os.geteuid()), f"{file}-wal"
    for it in [file] + ([log] if os.path.lexists(log) else []):
        for right, word in ((os.R_OK, "read"), (os.W_OK, "write")):
            if not os.access(it, right, effective_ids=True):
                about = os.stat(it)
                yield (
                    f"{who} may not {word} {it}, which belongs to user {name_of(about.st_uid)} and"
                    f" has mode {stat.S_IMODE(about.st_mode):o}"
                )
    folder = os.path.dirname(file)
    if not os.path.lexists(log) and not os.access(folder, os.W_OK | os.X_OK, effective_ids=True):
        yield f"{who} may not make the log in {folder}"


def name_of(number: int) -> str:
    try:
        return pwd.getpwuid(number).pw_name
    except KeyError:
        return str(number)


def names(file: str) -> Iterator[str]:
    """Other names of a file, and what stands at the name of its log and is none; the program takes
    neither.
    """
    if os.stat(file).st_nlink > 1:
        yield (
            f"{file} has {os.stat(file).st_nlink} names (hard links), and the program opens a file"
            f" of one name alone: find {os.path.dirname(file)} -samefile {file}"
        )
    if os.path.lexists(f"{file}-wal") and (
        os.path.islink(f"{file}-wal") or not os.path.isfile(f"{file}-wal")
    ):
        yield f"{file}-wal is a link or no file, and the log is a file"


def journal(file: str) -> Iterator[str]:
    """Whether another program was cut off while it wrote the file, in words. The log of tracedesk's
    is another one.
    """
    if os.path.exists(f"{file}-journal") and os.stat(f"{file}-journal").st_size:
        yield (
            f"{file}-journal holds what another program, as sqlite3, was about to change when it"
            " was cut off"
        )


def room(file: str) -> Iterator[str]:
    """What an opening lacks on the disk, in words."""
    disk = os.statvfs(file)
    if disk.f_flag & os.ST_RDONLY:
        yield f"the disk of {file} is mounted read only"
    elif disk.f_bavail * disk.f_frsize < ROOM_OF_AN_OPENING or disk.f_files and not disk.f_favail:
        yield (
            f"the disk of {file} has {disk.f_bavail * disk.f_frsize:,} bytes and"
            f" {disk.f_favail:,} files free"
        )


def outside(file: str) -> Iterator[Finding]:
    """What is found without reading the file's tables."""
    for cause, found in (
        (NO_ROOM, room(file)),
        (OTHER_NAME, names(file)),
        (JOURNAL, journal(file)),
    ):
        yield from (Finding(cause, it) for it in found)
    if not any(room(file)):  # a disk that is read only refuses everybody
        yield from (Finding(RIGHTS, it) for it in rights(file))


def no_file(file: str) -> Finding | None:
    """What stands at the name in the place of a file, or none."""
    try:
        mode = os.stat(file).st_mode
    except FileNotFoundError:
        return Finding(
            NO_FILE,
            f"there is no {file}: feed and serve make a new desk there, all others say NotADesk",
        )
    return (
        None
        if stat.S_ISREG(mode)
        else Finding(NO_FILE, f"{file} is a folder, a pipe, a socket or a device")
    )
