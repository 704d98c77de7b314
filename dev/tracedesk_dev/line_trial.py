"""Runs a stream of line_streams.py by `tracedesk-line serve`, and compares each answer, and after
each step each state, the book and the counts, with those of line_model.py. `tracedesk serve`, which
is sent the same messages, says what a desk answers.
"""
from __future__ import annotations

import contextlib
import csv
import http.client
import io
import json
import pathlib
import statistics
import subprocess
import tempfile
import time
import urllib.parse
from typing import Iterator

from tracedesk_dev import line_doubts, trial
from tracedesk_dev.line_entries import Body, Command, envelope
from tracedesk_dev.line_model import Answer, Line, Live, text
from tracedesk_dev.line_messages import MACHINES, Step
from tracedesk_dev.trial import Difference

ASKED = (*MACHINES, "O")
BAD_QUERY = {"Answer": "Faulty", "Fault": "BadQuery"}
FAULTS: dict[str, Answer] = {  # what else is asked below /line
    "/line/state": (400, text({**BAD_QUERY, "Member": "machine"})),
    "/line/book": (400, text({**BAD_QUERY, "Member": "after"})),
    "/line/none": (404, text({"Answer": "NotFound", "Kind": "Path"})),
}
MOST_RUNS = 150  # to make a stream shorter


def asked(link: http.client.HTTPConnection, target: str, body: bytes | None = None) -> Answer:
    link.request("GET" if body is None else "POST", target, body)
    answer = link.getresponse()
    return answer.status, answer.read()


def same(what: object, wanted: Answer, got: Answer) -> None:
    if wanted != got:
        raise Difference(f"{what}\n  the model says {wanted}\n  the program     {got}")


def rows_of(file: bytes) -> list[Body]:
    """The rows of a sheet, by a setup file."""
    return [
        {"Slot": it["slot"], "PartNumber": it["part"], "Designators": it["designators"].split()}
        for it in csv.DictReader(io.StringIO(file.decode()))
    ]


class Trial:
    """A line, a desk that hears the same, and the model."""

    def __init__(self, programs: tuple[str, str], folder: pathlib.Path, model: Line) -> None:
        self.program, self.line = programs
        self.file, self.other = folder / "line.db", folder / "desk.db"
        self.model = model
        self.took = [0.001]
        self.desk: http.client.HTTPConnection
        self.serving = contextlib.ExitStack()

    @contextlib.contextmanager
    def running(self) -> Iterator[None]:
        with trial.served(self.program, self.other) as (_, self.desk), self.serving:
            self.start()
            yield

    def start(self) -> None:
        self.process, self.link = self.serving.enter_context(trial.served(self.line, self.file))

    def restart(self) -> None:
        """The server has ended, and begins anew. Between, the file is audited."""
        self.serving.close()
        words = [self.line, "audit", "--db", str(self.file)]
        done = subprocess.run(words, capture_output=True)
        told = f"lawful {len(self.model.history)} book {len(self.model.book)}\n"
        same("audit", (0, told.encode()), (done.returncode, done.stdout + done.stderr))
        for within in (0, 1, 3):
            self.doubted(within)
        self.start()

    def doubted(self, within: int) -> None:
        """The pieces in doubt of the file, which nobody serves."""
        words = [self.line, "doubt", "--db", str(self.file)]
        words += ["--within", str(within)] if within else []
        done = subprocess.run(words, capture_output=True, text=True)
        if done.returncode:
            raise Difference(f"{words}: status {done.returncode}, {done.stderr}")
        line_doubts.compare(self.file, within, done.stdout)

    # --- What has to be answered

    def live(self, machine: str) -> list[Live]:
        """The live reels on a machine."""
        target = f"/slots?machine={urllib.parse.quote(machine)}"
        status, told = asked(self.desk, target)
        rows = csv.DictReader(io.StringIO(told.decode())) if status == 200 else ()
        return [Live(*(row[it] for it in Live._fields)) for row in rows]

    def wanted(self, step: Step) -> Answer:
        """The answer to a request, after which the model has heard it."""
        target, body = step.target, step.body
        if target in FAULTS:
            return FAULTS[target]
        if target.startswith("/line/"):
            return self.model.say(target.removeprefix("/line/"), body or b"")
        machine = envelope(body or b"").get("MessageBody")
        on_machine = str(machine.get("Machine", "M")) if isinstance(machine, dict) else "M"
        live = self.live(on_machine)
        answer = asked(self.desk, target, body)
        reply = json.loads(answer[1]) if answer[1].startswith(b"{") else {}
        if target == "/messages" and body is not None:
            self.model.hear(body, *answer, live)
        elif reply.get("Answer") == "Accepted" and reply["Number"] > len(self.model.history):
            self.imported(target, body or b"")
        return answer

    def imported(self, target: str, file: bytes) -> None:
        """A file that is accepted now."""
        its = dict(urllib.parse.parse_qsl(target.partition("?")[2]))
        if "product" in its:
            body = {"Product": its["product"], "Machine": its["machine"], "Rows": rows_of(file)}
            self.model.history.append(Command("SheetDefined", body))
        else:
            self.model.history.append(Command("CountsTaken", {}))

    # --- Steps

    def check(self, after: object) -> None:
        """All that is asked of a line."""
        questions = {
            f"/line/state?machine={it}": self.model.state_of(it, self.live(it)) for it in ASKED
        }
        half = len(self.model.book) // 2
        for number in {0, half}:
            questions[f"/line/book?after={number}"] = self.model.book_after(number)
        questions["/line/undecided"] = self.model.undecided()
        questions["/line/counts"] = self.model.counts()
        for target, wanted in questions.items():
            same(f"after {after}\nGET {target}", wanted, asked(self.link, target))

    def ask(self, step: Step) -> None:
        began = time.perf_counter()
        got = asked(self.link, step.target, step.body)
        self.took.append(time.perf_counter() - began)
        same(step, self.wanted(step), got)

    def killed(self, step: Step) -> None:
        """A request in which the server is killed. What isn't answered is sent again, but for a
        decision that is in the book.
        """
        got = None
        with contextlib.suppress(OSError, http.client.HTTPException):
            self.link.request("GET" if step.body is None else "POST", step.target, step.body)
            time.sleep(step.share * statistics.median(self.took[-9:]))
            self.process.kill()
            answer = self.link.getresponse()
            got = answer.status, answer.read()
        self.process.kill()
        self.serving.close()
        self.start()
        is_kept = asked(self.link, "/line/counts") != self.model.counts()
        if got or is_kept:
            wanted = self.wanted(step)
            same(step, wanted, got or wanted)
        self.check(step)
        if not got and (not is_kept or step.target == "/messages"):
            self.ask(step)

    def take(self, step: Step) -> None:
        if step.what in ("ask", "tell"):
            self.ask(step)
        elif step.what == "killed":
            self.killed(step)
        else:
            if step.what == "kill":
                self.process.kill()
            self.restart()
        if step.what != "tell":
            self.check(step)


def difference(
    programs: tuple[str, str], steps: list[Step], kind: type[Line] = Line
) -> Difference | None:
    """What differs first, if anything does."""
    with tempfile.TemporaryDirectory(prefix="line-", dir=trial.in_memory()) as folder:
        its = Trial(programs, pathlib.Path(folder), kind())
        with its.running():
            try:
                for step in steps:
                    its.take(step)
            except Difference as found:
                return found
            except (OSError, http.client.HTTPException) as why:
                return Difference(f"{step}\n  the server ended: {why!r}")
    return None


def shortest(
    programs: tuple[str, str], steps: list[Step], found: Difference, kind: type[Line] = Line
) -> str:
    """A stream that shows a difference, with as many steps left out as can be, and the
    difference.
    """
    runs, size = 0, len(steps) // 2
    while size and runs < MOST_RUNS:
        at = 0
        while at < len(steps) and runs < MOST_RUNS:
            fewer = steps[:at] + steps[at + size :]
            runs += 1
            if other := difference(programs, fewer, kind):
                steps, found = fewer, other
            else:
                at += size
        size //= 2
    return "\n".join([*map(str, steps), "", str(found)])
