"""Runs the steps of a test: what each came to, what it cost, and what it skipped, with the
reasons.
"""
import os
import re
import resource
import subprocess
import sys
import time
from typing import NamedTuple

from tracedesk_dev import ROOT, packages

CORES = str(os.cpu_count() or 1)
ENDED = re.compile(r"(\d+) (passed|failed|errors?|skipped)\b")
SKIPPED = re.compile(r"(?i:skipped):? +(.*)")  # of a tool, or of pytest by -rs
MISSING = re.compile(r"apt-get install ([a-z0-9.+ -]+)")
NO_SKIP = "TRACEDESK_NO_SKIP"
PROOFS = "rt ci"


class Step(NamedTuple):
    """A command of the test, or a folder of pytest. `counts` says whether its last line has its
    numbers; else it is one.
    """

    name: str
    words: tuple[str, ...]
    counts: bool = True
    needs_program: bool = True


class Count(NamedTuple):
    passed: int
    failed: int
    skipped: int = 0

    def __str__(self) -> str:
        skipped = f", {self.skipped} skipped" if self.skipped else ""
        return f"{self.passed} passed, {self.failed} failed{skipped}"


def python_with(module: str) -> str | None:
    """A Python that has the module: the one that runs, or Debian's."""
    for python in (sys.executable, "/usr/bin/python3"):
        if not subprocess.run([python, "-c", f"import {module}"], capture_output=True).returncode:
            return python
    return None


def counted(last: str, status: int) -> Count | None:
    """The numbers of a last line; none where it has none, or where the status says otherwise."""
    its = {kind.rstrip("s"): int(number) for number, kind in ENDED.findall(last)}
    count = Count(its.get("passed", 0), its.get("failed", 0) + its.get("error", 0))
    is_one = bool(its) and status in (0, 1) and bool(status) == bool(count.failed)
    return count._replace(skipped=its.get("skipped", 0)) if is_one else None


class Gate:
    """Runs the steps, and keeps what each came to, what it cost, and what was skipped."""

    def __init__(self) -> None:
        self.counts: list[Count] = []
        self.costs: list[tuple[str, float, float]] = []
        self.skips: list[str] = []

    def run(self, step: Step) -> None:
        began, cost = time.monotonic(), processor_seconds()
        print(f"--- {step.name}", flush=True)
        words = self.tests(step) if step.words[0] == "pytest" else list(step.words)
        if not words:
            why = f"{step.name}: {packages.lacking('python:pytest')}"
            print(f"skipped: {why}", flush=True)
            self.skips.append(why)
        self.counts.append(self.called(step, words) if words else Count(0, 0, 1))
        self.costs.append((step.name, time.monotonic() - began, processor_seconds() - cost))

    def tests(self, step: Step) -> list[str]:
        """The words that run pytest over folders; none where there is no pytest."""
        if not (python := python_with("pytest")):
            return []
        spread = ["-n", CORES, "--dist=loadgroup"] if python_with("xdist") == python else []
        return [python, "-m", "pytest", "-q", "-rfEs", "-m", "gate", *spread, *step.words[1:]]

    def called(self, step: Step, words: list[str]) -> Count:
        """Runs a command, passes its lines on, and takes its numbers from its last line."""
        words[0] = str(ROOT / words[0]) if words[0].startswith("dev/") else words[0]
        last = ""
        with subprocess.Popen(
            words, cwd=ROOT, stdin=subprocess.DEVNULL, stdout=subprocess.PIPE, text=True
        ) as process:
            for line in process.stdout or ():
                last = line.rstrip("\n")
                print(last, flush=True)
                if skipped := SKIPPED.match(last):
                    self.skips.append(f"{step.name}: {skipped[1]}")
        status = process.returncode
        count = counted(last, status) if step.counts else Count(int(not status), int(bool(status)))
        print(f"{step.name}: {count or f'ended with status {status}'}", flush=True)
        return count or Count(0, 1)

    def total(self) -> Count:
        passed, failed, skipped = (sum(numbers) for numbers in zip(*self.counts))
        return Count(passed, failed, skipped)


def processor_seconds() -> float:
    """What the processes that have ended cost, on all processors."""
    used = resource.getrusage(resource.RUSAGE_CHILDREN)
    return used.ru_utime + used.ru_stime


def ended(gate: Gate) -> int:
    """Prints what each step cost, the proofs apart, the skips and the last line; the status."""
    rest = [cost for cost in gate.costs if cost[0] != PROOFS]
    together = ("all but the proofs", sum(c[1] for c in rest), sum(c[2] for c in rest))
    print(f"{'step':30} {'seconds':>8} {'of processors':>14}")
    for name, seconds, processors in [*gate.costs, together]:
        print(f"{name:30} {seconds:8.0f} {processors:14.0f}")
    for skip in gate.skips:
        print(f"skipped: {skip}")
    missing = {name for skip in gate.skips for it in MISSING.findall(skip) for name in it.split()}
    if missing:
        print(f"what is missing: apt-get install {' '.join(sorted(missing))}")
    total = gate.total()
    if total.skipped and os.environ.get(NO_SKIP):
        print(f"{NO_SKIP} is set: what was skipped has failed")
        total = Count(total.passed, total.failed + total.skipped)
    print(total)
    return 1 if total.failed else 0
