"""Takes the lines of a stream, or of a file that grows and is renamed."""
from __future__ import annotations

import contextlib
import glob
import os
import pathlib
import threading
import time
from typing import Any, BinaryIO, Dict, Iterator, Optional

import fronts
from bridge import Bridge, Came
from keeping import digest
from tracedesk import console, disk

LOOK = 0.2  # seconds between two looks at what is followed
OFTEN = 2.0  # seconds between two looks at the names of its folder
PIECE = 1 << 16  # bytes that are read at a time, and more where a line is longer
BEFORE = 4096  # bytes at the beginning of a file, and before a position, by which it is known again
# Seconds without a line more, after which nobody writes to a file that was renamed.
STAYS = 600.0
PACKED = (".gz", ".bz2", ".xz", ".zst")  # endings of files that are no lines any more
KNOWN = 500  # renamed files that are remembered
UNFINISHED = 5.0  # seconds that the next file waits for the end of a line of a renamed one

Told = Dict[str, Any]  # what is kept of a file


def take_lines(bridge: Bridge, stream: BinaryIO) -> None:
    """Takes a stream, and says of each line what came of it."""
    heading, waits = b"", threading.Event()

    def live() -> None:
        """The stream is open: somebody has its other end, also while he says nothing."""
        while True:
            if waits.wait():
                bridge.kept.live()
            time.sleep(LOOK)

    threading.Thread(target=live, daemon=True).start()
    waits.set()
    for line in disk.lines_of(stream):
        waits.clear()
        if bridge.form == "csv" and not heading:
            heading = line
        else:
            for told in take_line(bridge, line, "", heading).told:
                console.say(told)
        waits.set()


def take_line(bridge: Bridge, line: bytes, source: str, heading: bytes) -> Came:
    """Takes a line; a row of CSV below its heading."""
    if bridge.form == "csv":
        return bridge.take(line, source, lambda data: fronts.csv_line(data, heading))
    return bridge.take(line.strip(), source)


# --- A file


class Opened:
    """An open file, and how far it was read. What it had last before that place is looked at again
    with each piece: other bytes there are other lines, which are read from the beginning."""

    def __init__(self, path: pathlib.Path, told: Optional[Told] = None) -> None:
        self.file = open(path, "rb", buffering=0)
        self.inode = os.fstat(self.file.fileno()).st_ino
        self.begin()
        if told:
            size = min(told["At"], BEFORE)
            last = os.pread(self.file.fileno(), size, told["At"] - size)
            if digest(last) == told["Before"]:
                self.at, self.last = told["At"], last

    def begin(self) -> None:
        """Nothing of it is read."""
        self.at, self.last, self.rest, self.since = 0, b"", b"", time.monotonic()
        self.taken = b""  # what was taken of a line that has no end

    def told(self) -> Told:
        """What is kept of it."""
        return {"At": self.at, "Before": digest(self.last), "Inode": self.inode}

    def identity(self) -> Told:
        return identity(self.inode, os.pread(self.file.fileno(), BEFORE, 0))

    def next_lines(self) -> bytes:
        """The next whole lines, as bytes; they aren't counted as read yet."""
        size, handle = PIECE, self.file.fileno()
        while True:
            begin = self.at - len(self.last)
            got = os.pread(handle, len(self.last) + size, begin)
            if got[: len(self.last)] != self.last:
                self.begin()
                continue
            got = got[len(self.last) :]
            whole = got[: got.rfind(b"\n") + 1]
            if whole or len(got) < size:
                self.grown(got[len(whole) :])
                return whole
            size *= 2

    def heading(self) -> bytes:
        """The first line."""
        return os.pread(self.file.fileno(), PIECE, 0).partition(b"\n")[0]

    def grown(self, rest: bytes) -> None:
        if rest != self.rest:
            self.rest, self.since = rest, time.monotonic()

    def read(self, lines: bytes) -> None:
        """Counts these lines as read."""
        if lines:
            self.last = (self.last + lines)[-BEFORE:]
            self.at, self.since = self.at + len(lines), time.monotonic()


def identity(inode: int, head: bytes) -> Told:
    """By what a renamed file is known again: its inode, which may be another file's later, and its
    first bytes.
    """
    return {"Head": digest(head), "Inode": inode, "Size": len(head)}


class Following:
    """The file of a path, and those that were renamed and may still get lines, the oldest first.

    A file is read on by its inode, whatever its name is now. One that was never read is a gap if
    its name begins with that of the path; those that are there at the first run with a spool are
    known."""

    def __init__(self, bridge: Bridge, path: pathlib.Path, position: dict[str, Any]) -> None:
        self.bridge, self.path, self.all = bridge, path.absolute(), position
        self.files: list[Opened] = []
        mine = position.get(str(self.path))
        self.known: list[Told] = mine["Known"] if mine else []
        if mine:
            self.files = [it for it in map(self.found, mine["Files"]) if it]
        else:
            self.known = [it for _, it in self.new_ones()]
        self.kept: Optional[Told] = None
        self.is_told, self.next_look = False, 0.0
        self.keep()

    def gap(self, why: str) -> None:
        self.bridge.counts["gaps"] += 1
        console.tell(f"a gap: {why}")

    def found(self, told: Told) -> Optional[Opened]:
        """The file of which this was kept, by its inode. One that is there and can't be read now is
        an OSError, and no gap: it is waited for."""
        for path in self.path.parent.iterdir():
            with contextlib.suppress(FileNotFoundError):
                if path.stat().st_ino == told["Inode"] and path.is_file():
                    it = Opened(path, told)
                    if it.at == told["At"]:
                        return it
                    it.file.close()
        if told["At"]:
            self.gap(
                f"{self.path}: the file that was read to byte {told['At']} is not there any more."
                " What it had is given by its new name"
            )
        return None

    def new_ones(self) -> Iterator[tuple[str, Told]]:
        """The renamed files that were never read: with something in them, and a name that begins
        with that of the path.
        """
        open_ones = [it.inode for it in self.files]
        for path in self.path.parent.glob(f"{glob.escape(self.path.name)}?*"):
            with contextlib.suppress(FileNotFoundError):
                there = path.stat()
                is_read = there.st_ino in open_ones or self.bridge.kept.is_own(path)
                is_one = path.is_file() and there.st_size and path.suffix not in PACKED
                if is_one and not is_read:
                    with open(path, "rb") as file:
                        head = file.read(BEFORE)
                    mine = identity(there.st_ino, head)
                    if not any(
                        it == {**mine, "Head": digest(head[: it["Size"]]), "Size": it["Size"]}
                        for it in self.known
                    ):
                        yield path.name, mine

    def look_for_another(self) -> None:
        """Opens the file of the path, if that is another one than before. Reports each renamed file
        that was never read, once.
        """
        if os.stat(self.path).st_ino not in [it.inode for it in self.files[-1:]]:
            self.files.append(Opened(self.path))
        if time.monotonic() >= self.next_look:
            self.next_look = time.monotonic() + OFTEN
            for name, it in list(self.new_ones()):
                self.gap(f"{name} was never read: its lines are given by that name")
                self.known = [*self.known, it][-KNOWN:]

    def take_data(self, file: Opened, data: bytes) -> None:
        """Takes lines of a file that stand where it was read to."""
        is_csv, at = self.bridge.form == "csv", file.at
        heading = file.heading() if is_csv else b""
        for line in data.split(b"\n"):
            if line.strip() and not (is_csv and at == 0):
                take_line(self.bridge, line, self.path.name, heading)
            at += len(line) + 1
            self.bridge.look()

    def look(self) -> bool:
        """Takes what is there of each file; whether that was anything. The newest is read first and
        taken last: a writer that goes on to a new file has written to the old one before."""
        try:
            self.look_for_another()
        except FileNotFoundError:
            if not self.files and not self.is_told:
                console.tell(f"{self.path} is not there yet: it is waited for")
                self.is_told = True
        pieces = [it.next_lines() for it in reversed(self.files)][::-1]
        for it, lines in zip(self.files, pieces):
            is_old = it is not self.files[-1]
            while lines:
                self.take_data(it, lines)
                it.read(lines)
                self.keep()
                lines = it.next_lines() if is_old else b""
            if is_old and it.rest != it.taken:
                if time.monotonic() - it.since < UNFINISHED:
                    break
                self.take_data(it, it.rest)
                it.taken = it.rest
        for it in self.files[:-1]:
            if time.monotonic() - it.since >= STAYS and it.rest == it.taken:
                self.known = [*self.known, it.identity()][-KNOWN:]
                it.file.close()
                self.files.remove(it)
        if self.files:
            self.keep()
        return any(pieces)

    def keep(self) -> None:
        """Keeps how far the files were read, and which are known."""
        told = {"Files": [it.told() for it in self.files], "Known": self.known}
        if told != self.kept:
            self.all[str(self.path)] = self.kept = told
            self.bridge.kept.spool.remember("position", self.all)


def take_file(bridge: Bridge, path: pathlib.Path, follows: bool) -> None:
    """Takes a file; one that is followed, and then those that take its place, without an end."""
    if not follows:
        path.stat()
    position = bridge.kept.spool.recall("position") or {}
    following = console.patiently(lambda: Following(bridge, path, position))
    while True:
        is_news = console.patiently(following.look)
        if following.files:  # else nobody hears the machine
            bridge.look()
        if not is_news:
            if not follows:
                break
            time.sleep(LOOK)
    for it in following.files:
        following.take_data(it, it.rest)  # and once more by who reads on from that place
