"""A desk of the program: its file, and the service that serves it, as tracedesk-line does."""
import contextlib
import http.client
import json
import os
import pathlib
import signal
import sqlite3
from typing import Any, Iterable, Iterator, Optional, Sequence

from lab import Answer, messages
from lab.tools import Word, run
from lab.waits import PATIENCE, wait_for
from tracedesk_dev import processes
from tracedesk_dev.ports import free_port
from tracedesk_ops import copies, plant

START = """#!/bin/sh
ulimit -S -f unlimited
exec > /dev/null 2>&1 < /dev/null
setsid "{program}" serve --db "{file}" --port {port} &
echo $! > "{file}-pid"
"""
STOP = 'kill $(cat "{file}-pid") || true'
TAILS = ("", "-wal")  # of a desk's file, and of its log


class Desk:
    """A desk in a file. Its service is started by a script beside it, as tools that stop it do
    too."""

    def __init__(self, program: pathlib.Path, file: pathlib.Path, port: int = 0) -> None:
        self.program, self.file = program, file
        file.parent.mkdir(parents=True, exist_ok=True)
        self.port = port or free_port()
        self.start_script = file.with_name(f"{file.name}-start")
        self.pid_file = file.with_name(f"{file.name}-pid")
        self.write_start()
        # that of the messages that tests say by `say` or `more`
        self.said, self.time = (0, messages.EPOCH)

    def write_start(self) -> None:
        serves = plant.line_of(str(self.program))
        text = START.format(program=serves, file=self.file, port=self.port)
        self.start_script.write_text(text, encoding="utf-8")
        self.start_script.chmod(0o755)

    @property
    def url(self) -> str:
        return f"http://127.0.0.1:{self.port}"

    @property
    def stop_command(self) -> str:
        return STOP.format(file=self.file)

    # --- The service

    def start(self) -> None:
        """Starts the service, and doesn't wait for it."""
        run([self.start_script]).expect()

    def serve(self) -> None:
        self.start()
        self.wait_until_ready()

    def wait_until_ready(self) -> None:
        wait_for(f"an answer on port {self.port}", self.answers_or_ended)

    def answers_or_ended(self) -> bool:
        """Whether it answers; a service that has ended never will."""
        has_ended = processes.has_ended(int(self.pid_file.read_text()))
        if (answers := self.answers()) or not has_ended:
            return answers
        raise AssertionError(f"the service has ended: {self.start_script.read_text()}")

    def answers(self) -> bool:
        try:
            return self.get("/reel?reel=-")[0] in (200, 404)
        except (OSError, http.client.HTTPException):
            return False

    def end(self, how: int = signal.SIGKILL) -> None:
        """Ends the service by this signal, if it runs, and waits until it has: its file is free
        before its port is."""
        with contextlib.suppress(FileNotFoundError, ProcessLookupError, ValueError):
            pid = int(self.pid_file.read_text())
            if any(os.fsencode(self.file) in word for word in processes.words_of(pid)):
                os.kill(pid, how)  # else it has ended, and that number may be another's by now
                processes.wait_until_ended(pid)
        plant.wait_until_closed(self.file, PATIENCE)

    @contextlib.contextmanager
    def stopped(self) -> Iterator[pathlib.Path]:
        """The service is stopped meanwhile."""
        self.end()
        try:
            yield self.file
        finally:
            self.serve()

    # --- What is said to it

    def feed(self, lines: Iterable[bytes], statuses: Sequence[int] = (0, 1)) -> list[Answer]:
        """Has the program take these messages into the file, and returns its answers."""
        words: list[Word] = [self.program, "feed", "--db", self.file]
        done = run(words, given=b"".join(line + b"\n" for line in lines))
        assert done.status in statuses, f"feed ended with status {done.status}: {done.said}"
        return [json.loads(line) for line in done.out.splitlines()]

    def post(self, lines: Iterable[bytes]) -> list[Answer]:
        """Posts messages to the service, and returns its answers."""
        told = []
        with self.link() as link:
            for line in lines:
                link.request("POST", "/messages", line)
                told.append(json.loads(link.getresponse().read()))
        return told

    def say(self, word: str, uid: str = "", time: str = "", **body: Any) -> Answer:
        """Posts a message, and returns its answer."""
        self.said += 1
        uid = uid or f"{self.file.name}-{self.said}"
        return self.post([messages.message(word, uid, time or self.time, **body)])[0]

    def note(self, what: str, **said: Any) -> int:
        """Decides, holds or releases; the number of the entry in the book."""
        body = json.dumps({**said, "By": "A. Person", "Reason": "looked at"})
        with self.link() as link:
            link.request("POST", f"/line/{what}", body)
            answer = json.loads(link.getresponse().read())
        return int(answer["Entry"])

    def accept(self, *lines: bytes) -> None:
        """Posts messages, which the desk has to accept."""
        for line, answer in zip(lines, self.post(lines)):
            assert answer["Answer"] == "Accepted", f"{line[:300]!r} was answered {answer}"

    def link(self) -> "contextlib.closing[http.client.HTTPConnection]":
        return contextlib.closing(
            http.client.HTTPConnection("127.0.0.1", self.port, timeout=PATIENCE)
        )

    # --- What it says

    def get(self, target: str) -> tuple[int, str]:
        """The status and the text of a report of the service."""
        with self.link() as link:
            link.request("GET", target, headers={"Connection": "close"})
            answer = link.getresponse()
            return answer.status, answer.read().decode()

    def report(self, target: str, file: Optional[pathlib.Path] = None) -> str:
        """What the program reports of the file, or of another one."""
        done = run([self.program, "report", "--db", file or self.file, "--get", target])
        assert done.status in (0, 1), f"report {target} ended with status {done.status}: {done.err}"
        return done.out

    def lawful(self) -> int:
        """How many commands the file has, by an audit of a copy."""
        with copies.copied(self.file) as file:
            done = run([self.program, "audit", "--db", file])
        assert done.out.startswith("lawful "), f"the audit of {self.file} says {done.said}"
        return int(done.out.split()[1])

    def rows(self, query: str, *values: Any) -> list[tuple[Any, ...]]:
        """The rows of a query on a copy of the file and its log."""
        return rows_of(self.file, query, *values)

    def bytes(self) -> list[bytes]:
        """What is in the file, and in its log."""
        return [path.read_bytes() for path in self.paths() if path.exists()]

    def paths(self) -> list[pathlib.Path]:
        return [pathlib.Path(f"{self.file}{tail}") for tail in TAILS]

    def remove(self) -> None:
        """Removes the file and its log."""
        for path in self.paths():
            path.unlink(missing_ok=True)

    def copy_from(self, file: pathlib.Path) -> None:
        """Takes the content of another desk's file and log, which no run has open."""
        copies.copy(file, self.file)


def rows_of(file: pathlib.Path, query: str, *values: Any) -> list[tuple[Any, ...]]:
    """The rows of a query on a copy of a desk's file and its log."""
    with copies.opened(file) as database:
        return list(database.execute(query, values))


def rows_of_archive(file: pathlib.Path, query: str, *values: Any) -> list[tuple[Any, ...]]:
    """The rows of a query on a file that nobody writes, which has no log."""
    name = f"file:{file}?mode=ro&immutable=1"
    with contextlib.closing(sqlite3.connect(name, uri=True)) as database:
        return database.execute(query, values).fetchall()


def log_into_file(file: pathlib.Path) -> None:
    """Writes what is in a file's log into the file."""
    with contextlib.closing(sqlite3.connect(file, isolation_level=None)) as database:
        database.execute("PRAGMA wal_checkpoint(TRUNCATE)")
    pathlib.Path(f"{file}-wal").unlink(missing_ok=True)


def change(file: pathlib.Path, sql: str) -> None:
    """Changes a desk's file by SQL, and leaves no log."""
    with contextlib.closing(sqlite3.connect(file, isolation_level=None)) as database:
        database.executescript(sql)
    log_into_file(file)
