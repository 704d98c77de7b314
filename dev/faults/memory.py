"""Runs tests as often as they ask for memory, each time with another of their allocations refused.

A test may then go well, or fail as out of memory, and for nothing else.

usage: dev/faults/run memory [--jobs N] (CRATE [WORD] | --gate)

examples:
  dev/faults/run memory store_tests            all tests of a crate, as `rt test` built them
  dev/faults/run memory store_tests refused    those that have this in their names
  dev/faults/run memory --gate                 the tests of `make test` that are made for it

Wanted is a C compiler, cc, for dev/faults/memory.c; without one --gate is told as skipped. A line
for each test; the last one is 'N passed, M failed'. Some tests tell on standard error what a
refusal came to. Where that never came, the test has failed: SHOWN names them.
"""
import argparse
import concurrent.futures
import os
import pathlib
import re
import subprocess
import tempfile

from tracedesk_dev import program
from tracedesk_dev.trial import Difference as Found

GATE = {
    "store_tests": "refused_memory",
    "desk_tests": "memory_was_refused",
    "stream_tests": "memory_was_refused",
}
SHOWN = {"refused_memory_is_made_good": "the desk was made again"}
OUT_OF_MEMORY = re.compile(
    r"^error: (AllocError|AllocFailed|out of memory|(Kind|SqliteFailure)\(OutOfMemory\))", re.M
)
SECONDS = 600  # for one run


class Tests:
    """The tests of a crate, run with a library that refuses an allocation."""

    def __init__(self, crate: str, library: str) -> None:
        self.crate, self.library = crate, library
        self.file = program.CRATES / crate / "out" / f"{crate}_tests"
        if not program.can_run(self.file):
            program.stop(f"there is no {self.file}: rt test in crates/{crate}")

    def names(self, word: str) -> list[str]:
        listed = subprocess.run([self.file, "--list"], capture_output=True, text=True, check=True)
        names = [name for name in re.findall(r"^(.*): test$", listed.stdout, re.M) if word in name]
        return names or program.stop(f"{self.crate} has no tests named {word}")

    def refused(self, name: str, number: int) -> tuple[bool, str]:
        """Refuses the allocation of this number, with 0 none: whether the test went well, and what
        it told.
        """
        env = {**os.environ, "REFUSED": str(number), "LD_PRELOAD": self.library}
        try:
            done = subprocess.run(
                [self.file, name],
                env=env,
                stdin=subprocess.DEVNULL,
                stdout=subprocess.PIPE,
                stderr=subprocess.STDOUT,
                timeout=SECONDS,
            )
        except subprocess.TimeoutExpired:
            raise Found(f"allocation {number} refused: no end after {SECONDS} s") from None
        text = done.stdout.decode(errors="replace")
        if done.returncode and not (number and OUT_OF_MEMORY.search(text)):
            raise Found(f"allocation {number} refused: not answered as out of memory\n{text}")
        return not done.returncode, text

    def tried(self, pool: concurrent.futures.Executor, name: str) -> str:
        """Refuses each allocation of a test; what came of it, in words."""
        asked = re.search(r"^asked (\d+)$", self.refused(name, 0)[1], re.M)
        if not asked:
            raise Found("its allocations were not counted")
        numbers = range(1, int(asked[1]) + 1)
        its = list(pool.map(lambda number: self.refused(name, number), numbers))
        well, shown = sum(is_well for is_well, _ in its), SHOWN.get(name.split("::")[-1])
        times = sum(shown is not None and shown in text for _, text in its)
        if shown and not times:
            raise Found(f"each of {len(its)} allocations was refused, and never told that {shown}")
        return (
            f"{len(its)} allocations, each refused once: {well} times it went well,"
            f" {len(its) - well} times it said that it is out of memory"
            + (f"; {times} times {shown}" if shown else "")
        )


def words(reader: argparse.ArgumentParser) -> None:
    reader.add_argument("--jobs", type=int, default=os.cpu_count() or 1)
    reader.add_argument("--gate", action="store_true")
    reader.add_argument("crate", nargs="?")
    reader.add_argument("word", nargs="?", default="")


def main(asked: argparse.Namespace, reader: argparse.ArgumentParser) -> int:
    if asked.gate == (asked.crate is not None):
        reader.error("a crate, or --gate")
    if asked.gate and not program.can_compile():
        why = "there is no C compiler here with the C library's headers"
        print(f"skipped: {why}: apt-get install gcc libc6-dev\n0 passed, 0 failed")
        return 0
    program.want("cc", "gcc libc6-dev")
    passed, failed = 0, 0
    with tempfile.TemporaryDirectory() as room:
        library = str(pathlib.Path(room, "refuse.so"))
        source = program.ROOT / "dev/faults/memory.c"
        subprocess.run(["cc", "-shared", "-fPIC", "-O1", "-o", library, source], check=True)
        with concurrent.futures.ThreadPoolExecutor(asked.jobs) as pool:
            for crate, word in GATE.items() if asked.gate else [(asked.crate, asked.word)]:
                tests = Tests(crate, library)
                for name in tests.names(word):
                    try:
                        told = tests.tried(pool, name)
                        passed += 1
                    except Found as it:
                        told = str(it)
                        failed += 1
                    print(f"{crate}, {name}: {told}", flush=True)
    print(f"{passed} passed, {failed} failed")
    return 1 if failed else 0
