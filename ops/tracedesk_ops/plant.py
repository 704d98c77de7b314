"""What the tools of a line share: faults, locks, the owner of a desk's folder, and the program."""
from __future__ import annotations

import contextlib
import ctypes
import fcntl
import io
import os
import pathlib
import re
import shutil
import signal
import sqlite3
import subprocess
import sys
import time
from collections.abc import Callable, Iterator
from typing import Any, NamedTuple

from tracedesk_ops import catalogue, copies, files, places, sealed

NAME = pathlib.Path(sys.argv[0]).name
SECONDS_A_MILLION = 19  # of a start, for a million placed pieces: docs/figures.md, "A file's start"
PATIENCE = 120  # seconds that a start may take beside what the pieces ask for
NEXT = "\n"
LIBC, PR_SET_PDEATHSIG = ctypes.CDLL(None), 1
TEXT: dict[str, Any] = {
    "encoding": sys.getfilesystemencoding(),
    "errors": "surrogateescape",
}  # of what a program prints: it may name files
LOW = ("nice", "-n", "10", "ionice", "-t", "-c", "3")  # runs a program at low priority
KILL_AFTER = "TRACEDESK_KILL_AFTER"  # a step of a tool, for its test


class Fault(Exception):
    """Why something was not done; the text says what to do."""


FAULTS = (
    Fault,
    catalogue.CatalogueError,
    places.NotSetUp,
    sealed.FilesFault,
    copies.InUse,
    OSError,
    sqlite3.Error,
)


def tell(text: str) -> None:
    """Says something on standard error. Where nobody reads that any more the work goes on, so that
    its end is the same.
    """
    try:
        if sys.stderr:
            lines = map(catalogue.printable, text.split("\n"))  # it may be of another computer
            print(f"{NAME}: {NEXT.join(lines)}", file=sys.stderr, flush=True)
    except OSError:
        os.dup2(os.open(os.devnull, os.O_WRONLY), 2)


def write_out(text: str) -> None:
    """Prints what was asked for; where that fails, the end of the tool doesn't try it again."""
    if not sys.stdout:
        raise Fault("standard output is closed")
    try:
        if isinstance(sys.stdout, io.TextIOWrapper):
            sys.stdout.reconfigure(errors="backslashreplace")
        sys.stdout.write(text)
        sys.stdout.flush()
    except OSError as fault:
        os.dup2(os.open(os.devnull, os.O_WRONLY), sys.stdout.fileno())
        raise Fault(f"standard output: {fault.strerror}") from fault


def replaced(to: str, text: str, option: str, said: str = "") -> int:
    """Prints a text, or replaces the file by it that an option names; the tool's status."""
    if to == "-":
        write_out(text)
        return 0
    try:
        files.put(pathlib.Path(to).absolute(), text, 0o644)
        return 0
    except OSError as fault:
        tell(
            f"{said}{to} was not written: {fault}. The one before it stays; make room, or name"
            f" another by {option}"
        )
        return 1


def reached(step: str) -> None:
    """A step of a tool is done: its test kills it there."""
    if os.environ.get(KILL_AFTER) == step:
        os.kill(os.getpid(), signal.SIGKILL)


def want_room(folder: str | pathlib.Path, size: float, what: str) -> None:
    """Stops where a disk can't hold what is to be made, before anything is stopped for it."""
    free = shutil.disk_usage(folder).free
    if free < size:
        raise Fault(
            f"{free:,} bytes are free in {folder}, and {size:,.0f} are wanted for {what}: make room"
        )


def chain_of(program: str) -> str | None:
    """tracedesk-chain, or none."""
    return next_to(program, "chain")


def line_of(program: str) -> str | None:
    """tracedesk-line, or none."""
    return next_to(program, "line")


def next_to(program: str, word: str) -> str | None:
    """tracedesk-WORD, or none: that of WORD in the environment, as CHAIN, else the one next to this
    program, installed or built.
    """
    at = pathlib.Path(shutil.which(program) or program).resolve().parent
    its = [f"{at}/tracedesk-{word}", f"{at.parent.parent}/tracedesk_{word}/out/tracedesk_{word}"]
    named = os.environ.get(word.upper())
    return next(filter(None, map(shutil.which, [named] if named else its)), None)


class BySignal(Fault):
    """A signal that ends the tool."""


def ends_by_exception() -> None:
    """Lets SIGTERM and SIGHUP end the tool as a fault does, so that all is put back."""
    numbers = signal.SIGTERM, signal.SIGHUP

    def end(number: int, _: object) -> None:
        for it in numbers:
            signal.signal(
                it, lambda *_: None
            )  # what is ignored, the service that is started would ignore too
        raise BySignal(f"it was stopped by {signal.Signals(number).name}")

    for number in numbers:
        signal.signal(number, end)


@contextlib.contextmanager
def as_owner(db: pathlib.Path) -> Iterator[None]:
    """Works as the owner of the desk's folder, where the caller is root: so a link in it leads to
    nothing that is not the owner's.
    """
    about = db.parent.stat()
    if about.st_uid == 0 and db.exists():  # in a folder of root's
        about = db.lstat()
    if os.geteuid() or about.st_uid == 0:
        yield
        return
    groups = os.getgroups()
    os.setgroups([])
    os.setegid(about.st_gid)
    os.seteuid(about.st_uid)
    try:
        yield
    finally:
        os.seteuid(0)
        os.setegid(os.getgid())
        os.setgroups(groups)


@contextlib.contextmanager
def as_caller() -> Iterator[None]:
    """Within `as_owner`, what is the caller's to do."""
    user, group = os.geteuid(), os.getegid()
    os.seteuid(os.getuid())
    os.setegid(os.getgid())
    try:
        yield
    finally:
        os.setegid(group)
        os.seteuid(user)


def is_open(db: pathlib.Path) -> bool:
    """Whether a run has a file open. This takes no lock: a run that starts at this moment would end
    for it.
    """
    try:
        with open(db, "rb") as file:
            return copies.is_locked(file)
    except FileNotFoundError:
        return False


class Held:
    """A file that no run can open until it is let go: this tool has the range of bytes that SQLite
    locks. Nothing else in this process may open the file meanwhile: the lock ends with the first
    closing of it."""

    def __init__(self, db: pathlib.Path) -> None:
        self.file = open(db, "r+b")
        take = lambda: fcntl.lockf(
            self.file, fcntl.LOCK_EX | fcntl.LOCK_NB, copies.LOCKED, copies.LOCKED_FROM
        )
        try:
            wait_for_lock(take, 5, f"a run has {db} open that was started meanwhile")
        except Fault:
            self.file.close()
            raise

    def sha256(self) -> str:
        self.file.seek(0)
        return files.sha256_within(self.file)

    def copy_to(self, path: pathlib.Path) -> None:
        self.file.seek(0)
        with open(path, "xb") as target:
            shutil.copyfileobj(self.file, target)

    def spoil(self) -> None:
        """Makes the file that has lost its name no database any more: so nothing serves it that had
        opened it before.
        """
        if os.fstat(self.file.fileno()).st_nlink == 0:
            os.pwrite(self.file.fileno(), bytes(100), 0)

    def let_go(self) -> None:
        self.file.close()


def wait_until_closed(db: pathlib.Path, seconds: float) -> None:
    """Waits until no run has a file open: a service that is still ending, or an audit whose caller
    was killed.
    """

    def take() -> None:
        if is_open(db):
            raise BlockingIOError

    wait_for_lock(take, seconds, f"a run has {db} open")


def wait_for_lock(take: Callable[[], object], seconds: float, held: str) -> None:
    end, is_told = time.monotonic() + seconds, False
    while True:
        try:
            take()
            return
        except BlockingIOError:
            if time.monotonic() > end:
                raise Fault(f"{held}, for {seconds} seconds now: end it, or wait for it") from None
        if not is_told and time.monotonic() > end - seconds + 10:
            tell(f"{held}; it is waited for")
            is_told = True
        time.sleep(0.1)


def start_seconds(pieces: int) -> int:
    """How long a start takes of a desk with so many placed pieces."""
    return round(pieces * SECONDS_A_MILLION / 1_000_000)


def without_log(file: pathlib.Path) -> None:
    """Takes the empty log away that a run left beside a file."""
    if log := copies.log_of(file):
        raise Fault(f"{log} holds something after a run that ended well")
    for tail in copies.LOGS:
        pathlib.Path(f"{file}{tail}").unlink(missing_ok=True)


class Lawful(NamedTuple):
    """How many rows each list of a lawful file has."""

    commands: int
    entries: int


class Program:
    """A program, run as the owner of the desk's file where root calls, so that nothing beside
    that file is root's. A run ends with the tool, also where that is killed: else it would have a
    file open that the next call of the tool wants.
    """

    def __init__(self, program: str, db: pathlib.Path, is_low: bool = False) -> None:
        self.before: tuple[str, ...] = LOW if is_low else ()
        self.program, owner = program, (db if db.exists() else db.parent).stat()
        self.uid, self.gid = owner.st_uid, owner.st_gid
        self.how: dict[str, Any] = (
            {}
            if os.geteuid() or not self.uid
            else {"user": self.uid, "group": self.gid, "extra_groups": []}
        )
        self.parent = os.getpid()

    def give(self, path: str | pathlib.Path) -> None:
        """Makes a file or a folder the owner's."""
        if self.how:
            os.chown(path, self.uid, self.gid, follow_symlinks=False)

    def end_with_the_tool(self) -> None:
        """What a run does before it is the program: within `as_owner` it is the owner for good."""
        os.setresgid(*[os.getegid()] * 3)
        os.setresuid(*[os.geteuid()] * 3)
        LIBC.prctl(PR_SET_PDEATHSIG, signal.SIGKILL)
        if os.getppid() != self.parent:
            os._exit(1)

    def run(self, *words: object, **how: Any) -> subprocess.CompletedProcess[str]:
        return subprocess.run(self.words(words), **self.start(how))

    def started(self, *words: object) -> "subprocess.Popen[str]":
        """A run that goes on; what it says on standard error is kept."""
        streams = {"stdin": subprocess.DEVNULL, "stdout": subprocess.DEVNULL}
        how = {**streams, "stderr": subprocess.PIPE, **TEXT}
        return subprocess.Popen(self.words(words), **self.start(how))

    def words(self, words: tuple[object, ...]) -> list[str]:
        return [*self.before, self.program, *map(str, words)]

    def start(self, how: dict[str, Any]) -> dict[str, Any]:
        return {"preexec_fn": self.end_with_the_tool, **self.how, **how}

    def audit(self, file: pathlib.Path) -> Lawful:
        """How many commands and entries a lawful file has, by tracedesk-line; a Fault says what
        else the audit found.
        """
        done = self.run(
            "audit", "--db", file, stdin=subprocess.DEVNULL, capture_output=True, **TEXT
        )
        lawful = re.fullmatch(r"lawful (\d+) book (\d+)\n", done.stdout)
        if done.returncode or not lawful:
            said = " ".join((done.stdout + done.stderr).split())
            raise Fault(
                f"the audit of {file} ended with status {done.returncode}: {said};"
                " operations-faults.html, 'What is said, and what to do'"
            )
        return Lawful(int(lawful[1]), int(lawful[2]))
