"""Runs of the program that fault injection repeats: what it is given, what it has to answer, and
how it is judged.
"""
from __future__ import annotations

import argparse
import collections
import contextlib
import hashlib
import os
import pathlib
import re
import select
import shutil
import sqlite3
import struct
import subprocess
import threading
from typing import Any, NamedTuple, Sequence
from tracedesk_dev.trial import Difference as Found
from tracedesk_dev.trial import rows_in

KINDS = ("memory", "input", "output", "read", "write", "sync", "call")
UNAVAILABLE = b'{"Answer":"Unavailable"}'
EINTR, EIO, ENOSPC, EPIPE = 4, 5, 28, 32
EVER = 10**9
Files = dict[str, bytes]
Env = dict[str, str] | None
Seen = collections.Counter[str]
Points = list[Any]
Taken = tuple[list[bytes], bytes, bytes, int]


class Change(NamedTuple):
    """A change of the disk, or bytes that went out."""

    what: str
    name: str
    number: int
    text: bytes


class Got(NamedTuple):
    """What came of a run."""

    answers: list[bytes]
    rest: bytes
    told: bytes
    status: int
    files: Files
    counts: dict[str, int]
    record: bytes


class Known(NamedTuple):
    """What an undisturbed desk answers."""

    answers: list[bytes]
    status: int
    audit: Any
    tables: dict[str, list[Any]] | None


class Rooms:
    """A folder for each thread, emptied for each run."""

    def __init__(self, folder: str) -> None:
        self.folder, self.count = pathlib.Path(folder), 0
        self.own, self.lock = threading.local(), threading.Lock()

    def room(self, files: Files) -> pathlib.Path:
        if not hasattr(self.own, "room"):
            with self.lock:
                self.count += 1
                self.own.room = self.folder / f"room{self.count}"
            self.own.room.mkdir()
        for old in self.own.room.iterdir():
            old.unlink()
        for name, text in files.items():
            (self.own.room / name).write_bytes(text)
        return pathlib.Path(self.own.room)


def bytes_of(file: pathlib.Path) -> bytes:
    """What a file has; nothing where there is none."""
    return file.read_bytes() if file.exists() else b""


def files_in(room: pathlib.Path) -> Files:
    return {it.name: it.read_bytes() for it in room.iterdir() if it.name.startswith("desk")}


def tables(text: bytes) -> dict[str, list[Any]]:
    """All rows of a desk's file, which has taken its log in. SQLite reads it from memory, and so
    without a log.
    """
    with contextlib.closing(sqlite3.connect(":memory:")) as database:
        database.deserialize(text[:18] + b"\1\1" + text[20:])
        return rows_in(database)


def ended(process: subprocess.Popen[bytes], patience: float) -> None:
    """Waits for the end of a process, without looking for it again and again."""
    if process.poll() is not None:
        return
    handle = os.pidfd_open(process.pid)
    ready, _none, _failed = select.select([handle], [], [], patience)
    os.close(handle)
    if not ready:
        process.kill()
    process.wait()
    if not ready:
        raise Found(f"had not ended after {patience:.0f} seconds")


class Story:
    """What the program is asked, in parts that get an answer each: the lines of `feed`, requests,
    or one command.

    `start` has the desk's files before it, `beside` other files, and `wanted` the answers that a
    worked case has.
    """

    def __init__(
        self,
        asked: argparse.Namespace,
        name: str,
        words: list[str],
        parts: list[bytes],
        start: Files | None = None,
        beside: Files | None = None,
        wanted: list[bytes] | None = None,
    ) -> None:
        self.asked, self.name, self.words, self.parts = asked, name, words, parts
        self.start, self.beside, self.wanted = start or {}, beside or {}, wanted
        self.program, self.has_desk = asked.program, "--db" in words
        self.all = tuple(range(len(parts)))
        self.refusals: tuple[bytes, ...] = (UNAVAILABLE,)
        self.cache: dict[Any, Known] = {}
        self.judged: set[Any] = set()
        self.lock = threading.Lock()

    def process(
        self, room: pathlib.Path, words: list[str], env: Env = None, **how: Any
    ) -> subprocess.Popen[bytes]:
        at = {word: str(room / word) for word in ("desk", *self.beside)}
        words = [self.program, *(at.get(word, word) for word in words)]
        return subprocess.Popen(words, cwd=room, env=env, **how)

    def ran(
        self,
        room: pathlib.Path,
        words: list[str],
        given: bytes = b"",
        env: Env = None,
        patience: float | None = None,
    ) -> tuple[bytes, bytes, int]:
        """One run: what it put out, and told, and how it ended. All of it goes through files."""
        (room / "given").write_bytes(given)
        source = room / "given" if self.reads else pathlib.Path(os.devnull)
        with open(source) as it, open(room / "out", "w") as out, open(room / "told", "w") as told:
            process = self.process(room, words, env, stdin=it, stdout=out, stderr=told)
            ended(process, patience or self.asked.patience)
        return (room / "out").read_bytes(), (room / "told").read_bytes(), process.returncode

    def once(self, room: pathlib.Path, order: Sequence[int], env: Env = None) -> Taken:
        """One run on these parts: the whole answers, what is behind them, what was told, and the
        status.
        """
        given = b"".join(self.parts[part] for part in order)
        return self.taken(*self.ran(room, self.words, given, env))

    def taken(self, out: bytes, told: bytes, status: int, _answered: bytes = b"") -> Taken:
        return *self.split(out), told, status

    def split(self, out: bytes) -> tuple[list[bytes], bytes]:
        *answers, rest = out.split(b"\n")
        return answers, rest

    def is_unavailable(self, answer: bytes) -> bool:
        return answer == UNAVAILABLE

    def statuses(self, answers: list[bytes]) -> tuple[int, ...]:
        """How a run ends that gave these answers, and in which nothing failed but what was answered
        Unavailable.
        """
        taken = rb'{"Answer":"(Accepted|Ignored|Held)"'
        return (int(any(not re.match(taken, it) for it in answers)),)

    def faults(self, kind: str) -> list[Any]:
        """What is told, and how a run ends, where calls of this kind failed and no answer could say
        so.
        """
        of_wire = {"input": ("tracedesk: Read\n", 4), "output": ("tracedesk: Write\n", 4)}
        return [of_wire.get(kind, ("tracedesk: Unavailable\n", 3))]

    def is_whole(self, got: Got) -> bool:
        """Whether a run that told nothing has answered all that it had to."""
        return len(got.answers) == len(self.parts) and not got.rest

    def put_out(self, change: Change) -> bytes:
        return change.text

    def failing(self, room: pathlib.Path, fail: str) -> dict[str, str]:
        return {
            **os.environ,
            "LD_PRELOAD": self.asked.library,
            "FAIL": fail,
            "FAIL_DESK": str(room / "desk"),
            "FAIL_COUNTS": str(room / "counts"),
        }

    def failed(self, fail: str = "", record: bool = False, files: Files | None = None) -> Got:
        """A run of all parts in which these calls fail."""
        room = self.asked.rooms.room({**(self.start if files is None else files), **self.beside})
        env = self.failing(room, fail)
        if record:
            env["FAIL_RECORD"] = str(room / "record")
        answers, rest, told, status = self.once(room, self.all, env)
        counts = dict(zip(KINDS, struct.unpack(f"{len(KINDS)}q", (room / "counts").read_bytes())))
        recorded = (room / "record").read_bytes() if record else b""
        return Got(answers, rest, told, status, files_in(room), counts, recorded)

    def branched(self, base: str, points: Points) -> Any:
        """One run in which the calls of `base` fail, and at each point a copy of it, in which the
        calls of the point fail: what each copy gave, in the order of the points; where the run came
        to no such point, what it gave itself.
        """
        room = self.asked.rooms.room({**self.start, **self.beside})
        copies = room.with_name(room.name + ".copies")
        shutil.rmtree(copies, ignore_errors=True)
        copies.mkdir()
        words = ((*fail.split()[:2], name, fail) for name, fail in enumerate(points))
        order = sorted((kind, int(number), *rest) for kind, number, *rest in words)
        (room / "points").write_text("".join("{} {} {} {}\n".format(*it) for it in order))
        env = {
            **self.failing(room, base),
            "FAIL_POINTS": str(room / "points"),
            "FAIL_ROOMS": str(copies),
            "FAIL_GIVEN": str(room / "given"),
            "FAIL_SECONDS": f"{self.asked.patience:.0f}",
        }
        patience, given = self.asked.patience * (1 + len(points)), b"".join(self.parts)
        all_words = [*self.words, *self.port(20_000)]
        own = self.got(room, self.ran(room, all_words, given, env, patience)[2])
        known = self.known(self.all)
        if not base and own[:4] != (known.answers, b"", b"", known.status):
            raise Found(f"a run with copies: status {own.status}, {own.told!r}, {own.answers!r}")
        ended_so = map(str.split, (copies / "ended").read_text().splitlines())
        statuses = {int(name): os.waitstatus_to_exitcode(int(it)) for name, it in ended_so}
        gots = [
            self.got(copies / str(name), statuses[name]) if name in statuses else own
            for name in range(len(points))
        ]
        shutil.rmtree(copies)
        return gots

    def got(self, room: pathlib.Path, status: int) -> Got:
        """What a run gave that put its answers into files."""
        try:
            if status == -14:
                raise Found(f"had not ended after {self.asked.patience:.0f} seconds")
            out, told, answered = (bytes_of(room / it) for it in ("out", "told", "answered"))
            return Got(*self.taken(out, told, status, answered), files_in(room), {}, b"")
        except Found as it:
            return Got([], b"", str(it).encode(), status, {}, {}, b"")

    reads = True
    may_be_done_unsaid = False  # whether a part may be done where memory was refused behind it

    def port(self, _number: int) -> tuple[str, ...]:
        return ()

    def plainly(self, order: Sequence[int], files: Files) -> Any:
        """A run of these parts on these files in which nothing fails: its answers, its status, and
        the files after it.
        """
        room = self.asked.rooms.room({**files, **self.beside})
        answers, rest, told, status = self.once(room, order)
        if rest or told:
            raise Found(f"a run in which nothing fails: {rest!r} {told!r}")
        return answers, status, files_in(room)

    def audit(self, files: Files) -> Any:
        """What `audit` puts out, tells and ends with, and the files after it."""
        room = self.asked.rooms.room(files)
        return self.ran(room, ["audit", "--db", "desk"]), files_in(room)

    def known(self, order: Sequence[int]) -> Known:
        """What a run of these parts that nothing disturbs answers, and leaves."""
        with self.lock:
            if order in self.cache:
                return self.cache[order]
        answers, status, files = self.plainly(order, self.start)
        audit, after = self.audit(files) if self.has_desk else (None, {})
        it = Known(answers, status, audit, tables(after["desk"]) if self.has_desk else None)
        with self.lock:
            return self.cache.setdefault(order, it)

    def is_new(self, files: Files, may: Any) -> bool:
        """Whether these files have not been judged yet as what these parts may have left."""
        digest = hashlib.sha256(repr(may).encode())
        for name, text in sorted(files.items()):
            digest.update(b"%s %d\n" % (name.encode(), len(text)) + text)
        with self.lock:
            size = len(self.judged)
            self.judged.add(digest.digest())
            return len(self.judged) > size


class Command(Story):
    """One command: an import, an audit, a migration, a report. A fault of the desk's file counts as
    its answer.
    """

    def once(self, room: pathlib.Path, order: Sequence[int], env: Env = None) -> Taken:
        answers, rest, told, status = [], b"", b"", 0
        for _part in order:
            more, rest, told, status = self.taken(*self.ran(room, self.words, env=env))
            answers += more
            if status not in (0, 1, 3):
                break
        return answers, rest, told, status

    reads = False

    def taken(self, out: bytes, told: bytes, status: int, _answered: bytes = b"") -> Taken:
        if status == 3 and not out:
            return [UNAVAILABLE if told == b"tracedesk: Unavailable\n" else told], b"", b"", status
        its = ([out], b"") if status in (0, 1, 3) else self.split(out)
        return *its, told, status

    def split(self, out: bytes) -> tuple[list[bytes], bytes]:
        lines = self.wanted[0].count(b"\n") if self.wanted else 1
        return ([out], b"") if out.endswith(b"\n") and out.count(b"\n") == lines else ([], out)

    def is_unavailable(self, answer: bytes) -> bool:
        return answer.strip() == UNAVAILABLE

    def statuses(self, answers: list[bytes]) -> tuple[int, ...]:
        if answers[0].startswith(b"{"):
            return (1, 3) if answers == [UNAVAILABLE] else super().statuses(answers)
        return (0,)


class LineCommand(Command):
    """A command of `tracedesk-line`, whose book has a fault of its own."""

    def taken(self, out: bytes, told: bytes, status: int, answered: bytes = b"") -> Taken:
        return super().taken(out, told.replace(b": book ", b": "), status, answered)


class Served(Story):
    """Requests on one connection to `serve`. What it answered is what it wrote: a connection that
    breaks loses more.
    """

    def __init__(self, *its: Any, **more: Any) -> None:
        super().__init__(*its, **more)
        head = b"HTTP/1.1 503 Service Unavailable\r\nContent-Type: application/json\r\n"
        head += b"Content-Length: 24\r\n"
        ends = (b"", b"Connection: close\r\n")
        self.refusals = tuple(head + end + b"\r\n" + UNAVAILABLE for end in ends)

    def once(self, room: pathlib.Path, order: Sequence[int], env: Env = None) -> Taken:
        given = b"".join(self.parts[part] for part in order)
        env = {**(env or self.failing(room, "")), "FAIL_GIVEN": str(room / "given")}
        told = self.ran(room, [*self.words, *self.port(20_000)], given, env)
        return self.taken(*told, bytes_of(room / "answered"))

    reads = False

    def port(self, number: int) -> tuple[str, ...]:
        return "--port", str(number), "--connections", "1"

    def taken(self, out: bytes, told: bytes, status: int, answered: bytes = b"") -> Taken:
        answers, rest = self.split(answered)
        if status in (0, 1) and not re.fullmatch(
            rb"1 %d( Read| Write| TooManyReads)?\n" % len(answers), out
        ):
            raise Found(
                f"of the connection is told {out!r}, where {len(answers)} requests were answered"
            )
        return answers, rest, told, status

    def put_out(self, change: Change) -> bytes:
        return change.text if change.number != 1 else b""

    def split(self, out: bytes) -> tuple[list[bytes], bytes]:
        answers = []
        while (head := out.find(b"\r\n\r\n")) >= 0:
            length = re.search(rb"Content-Length: (\d+)\r\n", out[: head + 2])
            assert length, "an answer has its length"
            end = head + 4 + int(length[1])
            if len(out) < end:
                break
            answers.append(out[:end])
            out = out[end:]
        return answers, out

    def is_unavailable(self, answer: bytes) -> bool:
        return answer in self.refusals

    def statuses(self, answers: list[bytes]) -> tuple[int, ...]:
        return 0, 1

    def faults(self, kind: str) -> list[Any]:
        """Where no connection can be accepted, that is told as a failed read."""
        return [*super().faults(kind), *super().faults("input" if kind == "call" else kind)]

    def is_whole(self, got: Got) -> bool:
        """A connection that breaks is no fault of the run: the line that tells of it has the
        fault.
        """
        return True


class ServedLine(Served):
    """The same by `tracedesk-line serve`, whose book has a fault of its own."""

    def faults(self, kind: str) -> list[Any]:
        return [*super().faults(kind), ("tracedesk: book Unavailable\n", 3)]
