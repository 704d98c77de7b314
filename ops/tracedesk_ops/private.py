"""What tracedesk-line says of a file that nobody else serves: a server of the tool's own answers
one connection, and ends.

    private.lists_of(program, copy).standing
"""
from __future__ import annotations

import contextlib
import http.client
import json
import pathlib
import socket
import subprocess
import time
import urllib.parse
from collections.abc import Iterator, Sequence
from typing import NamedTuple

from tracedesk_ops import copies, entries, plant

STARTS = 5  # of a server: another process may take its port meanwhile
SERVED, NO_PORT = (0, 1), 4  # statuses of the program
SECONDS = 3600.0  # for an opening: it judges each command
MACHINES = "SELECT DISTINCT machine FROM sheet_row ORDER BY machine"


class Lists(NamedTuple):
    """What follows from both lists of a file: which entries are open or undecided, which reels and
    lots are held, and which entries stop which machine.
    """

    standing: dict[int, str]
    held: dict[entries.Stock, int]
    causes: set[tuple[str, str, int]]  # the machine, the cause, and the number of the entry

    def renumbered(self, numbers: dict[int, int]) -> Lists:
        """The same of a file in which these entries have these numbers; 0 stands for no number."""
        return Lists(
            {numbers.get(number, 0): state for number, state in self.standing.items()},
            {stock: numbers.get(number, 0) for stock, number in self.held.items()},
            {(machine, cause, numbers.get(n, 0)) for machine, cause, n in self.causes},
        )

    def reopened(self, those: set[int]) -> Lists:
        """The same once these entries are open again, but for what they stop."""
        standing = {n: entries.OPEN if n in those else state for n, state in self.standing.items()}
        causes = {its for its in self.causes if its[2] not in those}
        return Lists(standing, self.held, causes)


EMPTY = Lists({}, {}, set())


def lists_of(program: plant.Program, file: pathlib.Path) -> Lists:
    """The same as a server of tracedesk-line says it."""
    with copies.database(file) as database:
        machines = [machine for (machine,) in copies.rows(database, MACHINES)]
    states = [f"/line/state?machine={urllib.parse.quote(its, safe='')}" for its in machines]
    book, *told = answers(program, file, ["/line/book?after=0", *states])
    causes = {
        (machine, cause["Cause"], int(cause["Entry"]))
        for machine, text in zip(machines, told)
        for cause in json.loads(text)["Causes"]
        if "Entry" in cause
    }
    found, standing = entries.told(book)
    return Lists(standing, entries.held(found), causes)


def free_port() -> int:
    with socket.socket() as its:
        its.bind(("127.0.0.1", 0))
        return int(its.getsockname()[1])


def answers(program: plant.Program, file: pathlib.Path, targets: Sequence[str]) -> list[str]:
    """The bodies of its answers, each with status 200; the file may have its log behind it."""
    for _ in range(STARTS):
        found: list[str] = []
        with served(program, file) as (server, port):
            if link := linked(server, port):
                with contextlib.closing(link):
                    found = [body_of(link, target) for target in targets]
        if found and server.returncode in SERVED:  # so they are its own
            return found
        if server.returncode != NO_PORT:
            break
    said = server.stderr.read().strip() if server.stderr else ""
    raise plant.Fault(f"{program.program} doesn't serve {file}: {said}")


@contextlib.contextmanager
def served(
    program: plant.Program, file: pathlib.Path
) -> Iterator[tuple["subprocess.Popen[str]", int]]:
    """A server of a file, which ends with the block, and has closed the file then."""
    port = free_port()
    words = ("serve", "--db", file, "--port", port, "--connections", 1)
    server = program.started(*words)
    try:
        yield server, port
        with contextlib.suppress(subprocess.TimeoutExpired):
            server.wait(plant.PATIENCE)
    finally:
        server.kill()
        server.wait()


def linked(server: "subprocess.Popen[str]", port: int) -> http.client.HTTPConnection | None:
    """A connection to a server, or none if it ended before."""
    end = time.monotonic() + SECONDS
    while server.poll() is None and time.monotonic() < end:
        link = http.client.HTTPConnection("127.0.0.1", port, timeout=SECONDS)
        with contextlib.suppress(ConnectionRefusedError):
            link.connect()
            return link
        time.sleep(0.02)
    return None


def body_of(link: http.client.HTTPConnection, target: str) -> str:
    try:
        link.request("GET", target)
        answer = link.getresponse()
        body = answer.read().decode("utf-8", "surrogateescape")
    except (OSError, http.client.HTTPException) as fault:
        raise plant.Fault(f"tracedesk-line doesn't answer {target}: {fault}") from fault
    if answer.status != 200:
        raise plant.Fault(f"tracedesk-line answers {target} with {answer.status}: {body:.300}")
    return body
