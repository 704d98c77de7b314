"""Processes that are killed while the messages of a machine go to a desk.

What has to hold after that: none is lost, none acts twice, and their order is kept.
"""
from __future__ import annotations

import collections
import contextlib
import json
import os
import pathlib
import random
import signal
import sqlite3
import subprocess
import threading
import time
from typing import Any, Sequence

from at_port import rows_in, texts_in
from tracedesk_dev import program as programs
from tracedesk_dev import trial

PATIENCE = 900  # seconds without an answer more, after which it stands still


def serving(program: pathlib.Path, folder: pathlib.Path, port: int) -> list[Any]:
    """The words of a desk that is served."""
    where = ["--db", folder / "desk", "--port", str(port)]
    return [program, "serve", *where, "--connections", "1000000"]


def fed(program: pathlib.Path, file: pathlib.Path, given: bytes) -> bytes:
    """The answers of `feed` to these lines."""
    words: list[Any] = [program, "feed", "--db", file]
    return subprocess.run(words, input=given, stdout=subprocess.PIPE).stdout


def tables(file: pathlib.Path) -> dict[str, list[Any]]:
    with contextlib.closing(sqlite3.connect(file)) as database:
        return trial.rows_in(database)


def is_as_fed(program: pathlib.Path, folder: pathlib.Path) -> None:
    """Compares the desk with that of a clean run."""
    words: list[Any] = [program, "audit", "--db", folder / "desk"]
    audit = subprocess.run(words, capture_output=True, text=True)
    assert audit.returncode == 0, audit.stdout + audit.stderr
    got, wanted = tables(folder / "desk"), tables(folder / "clean")
    assert [name for name in wanted if got.get(name) != wanted[name]] == []


def kept(spool: pathlib.Path, what: str, which: str) -> list[bytes]:
    """What a spool has of messages, but of those about dead letters."""
    those = f"SELECT {what} FROM message WHERE {which} AND uid NOT LIKE 'unread-%' ORDER BY n"
    return [it for (it,) in rows_in(spool, those)]


class Run:
    """A machine that writes lines, what takes them to a desk, and who kills that.

    `kinds` are the parts that a kill hits, in turn.
    """

    kinds: Sequence[Sequence[str]] = (("sender",), ("desk",), ("sender", "desk"))

    def __init__(self, program: pathlib.Path, at: pathlib.Path, seed: int, kills: int) -> None:
        self.program, self.at, self.seed, self.most_kills = program, at, seed, kills
        self.spool, self.chance = at / "spool", random.Random(seed)
        self.running: dict[str, subprocess.Popen[bytes]] = {}
        self.kills: collections.Counter[str] = collections.Counter()
        self.is_written = False
        # What the machine writes, and the answers that a clean run gives.
        self.lines: list[bytes] = []
        self.clean: list[bytes] = []

    def words(self) -> dict[str, list[Any]]:
        """Of each part its command line, in the order in which they are started."""
        raise NotImplementedError

    def write(self) -> None:
        """What the machine does, in a thread of its own."""
        raise NotImplementedError

    def is_done(self) -> bool:
        """Whether nothing is left to do."""
        raise NotImplementedError

    def keep_up(self) -> None:
        """Starts what ended, as a supervisor does: a port that isn't free yet ends a start."""
        for part, words in self.words().items():
            if part not in self.running or self.running[part].poll() is not None:
                self.kill(part)
                with open(self.at / f"{part}.txt", "ab") as told:
                    self.running[part] = subprocess.Popen(
                        words,
                        stdin=subprocess.DEVNULL,
                        stdout=subprocess.DEVNULL,
                        stderr=told,
                        process_group=0,
                    )

    def kill(self, part: str) -> None:
        """Ends a part with its workers, as a power cut does."""
        if part in self.running:
            with contextlib.suppress(ProcessLookupError):
                os.killpg(self.running[part].pid, signal.SIGKILL)
            self.running.pop(part).wait()

    def answered(self) -> int:
        """How many messages have an answer: the number of the last one in the spool."""
        its = rows_in(self.spool, "SELECT max(n) FROM message WHERE answer NOT NULL")
        return its[0][0] or 0 if its else 0

    def waits(self) -> bool:
        """Whether a message waits."""
        return bool(texts_in(self.spool, "waiting"))

    def go(self) -> None:
        """Kills whenever so many answers more are there, and a moment after; until all is done."""
        threading.Thread(target=self.write, daemon=True).start()
        ticks, due, seen, since = programs.Ticks(), 0, 0, time.monotonic()
        count = len(self.clean)
        while not self.is_done():
            self.keep_up()
            now = self.answered()
            if now > seen:
                seen, since = now, time.monotonic()
            if self.most_kills > 12:  # a short run says nothing on its way
                ticks.tell(f"{now} of {count} answers, {self.kills.total()} kills")
            assert time.monotonic() - since <= PATIENCE, f"it stands still at {now}: {self.told()}"
            if due < self.most_kills and now >= count * (due + 1) // (self.most_kills + 2):
                time.sleep(self.chance.uniform(0, 0.05))
                for part in self.kinds[due % len(self.kinds)]:
                    self.kill(part)
                    self.kills[part] += 1
                due += 1
            time.sleep(0.01)

    def told(self) -> str:
        """What the parts said last."""
        return "".join(file.read_text()[-300:] for file in self.at.glob("*.txt"))

    def end(self) -> None:
        for part in list(self.running):
            self.kill(part)

    def look_at(self, given: Sequence[bytes]) -> None:
        """What holds of the desk and the spool, if these messages were wanted in this order."""
        self.end()
        answers = kept(self.spool, "answer", "answer NOT NULL")
        assert list(map(json.loads, answers)) == list(map(json.loads, self.clean))
        is_as_fed(self.program, self.at)
        assert kept(self.spool, "text", "state = 'aside'") == [
            line
            for line, answer in zip(given, self.clean)
            if json.loads(answer)["Answer"] in ("Refused", "Faulty")
        ]
