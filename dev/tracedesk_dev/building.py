"""The build of a program: its crates are proved side by side, each once those below it are.

rt keeps others out of a crate's folder and of those below it. So each lane but the first proves in
a checkout of its own in the program's out/, and rt takes what the other lanes have proved.
"""
import contextlib
import os
import pathlib
import re
import shutil
import signal
import subprocess
import sys
import time
from concurrent.futures import FIRST_COMPLETED, Future, ThreadPoolExecutor, wait
from typing import Callable, Sequence

from tracedesk_dev import ROOT, rattle

MEMORY = 5 * 1024**3  # that a proof may take, in bytes
MOST_JOBS = 4  # of one crate: more gain nothing
MADE_BY_HAND = ("src", "specs", "proofs")


class NotProved(Exception):
    """A crate that was not proved: rt's status, and all that it said."""

    def __init__(self, crate: str, status: int, said: str) -> None:
        super().__init__(f"{crate} is not proved: rt ended with status {status}")
        self.status, self.said = status, said


def tell(text: str) -> None:
    print(text, file=sys.stderr, flush=True)


# --- The order


def lanes() -> int:
    """How many proofs this machine holds at once: one a processor, as far as its memory goes."""
    known = re.search(r"MemAvailable: *(\d+)", pathlib.Path("/proc/meminfo").read_text())
    free = int(known[1]) * 1024 if known else 0
    return max(1, min(len(os.sched_getaffinity(0)), free // MEMORY))


def lines_of(crate: str, root: pathlib.Path = ROOT) -> int:
    """A crate's lines of code and half of those of its definitions and proofs: they stand for the
    work of its proof.
    """
    folder = root / "crates" / crate
    code = sum(it.text.count("\n") for it in rattle.sources(folder) if not rattle.is_test(it.path))
    proofs = [it for part in ("specs", "proofs") for it in (folder / part).rglob("*.antt")]
    return code + sum(it.read_bytes().count(b"\n") for it in proofs) // 2


def behind(crates: dict[str, list[str]], work: dict[str, int]) -> dict[str, int]:
    """Of each crate the most work that waits for it, with its own: along one chain of crates."""
    found: dict[str, int] = {}
    for name in reversed(crates):
        above = [found[it] for it in found if name in crates[it]]
        found[name] = work[name] + max(above, default=0)
    return found


def side_by_side(
    crates: dict[str, list[str]],
    work: dict[str, int],
    number: int,
    prove: Callable[[str, int, int], None],
    stop: Callable[[], None] = lambda: None,
) -> None:
    """Calls `prove` with each crate, lowest first, its lane, and how many jobs it may have. That
    with the longest chain behind it comes first, and gets the lanes that no other waits for. If one
    fails, or this is interrupted, it calls `stop` and waits for those that run.
    """
    first = behind(crates, work)
    left, free, done = [*crates], [*range(number)], set[str]()
    running: dict[Future[None], tuple[str, list[int]]] = {}
    with ThreadPoolExecutor(number) as pool:
        try:
            while left or running:
                ready = [it for it in left if {*crates[it]} & {*crates} <= done]
                ready.sort(key=lambda it: -first[it])
                for at, crate in enumerate(ready[: len(free)]):
                    jobs = max(1, min(MOST_JOBS, len(free) // (len(ready) - at)))
                    taken, free = free[:jobs], free[jobs:]
                    left.remove(crate)
                    running[pool.submit(prove, crate, taken[0], jobs)] = crate, taken
                for ended in wait(running, return_when=FIRST_COMPLETED).done:
                    crate, taken = running.pop(ended)
                    ended.result()
                    free = sorted(free + taken)
                    done.add(crate)
        except BaseException:
            stop()
            raise


# --- The lanes


class Lanes:
    """Checkouts in which libraries are proved at the same time: the repository, and copies."""

    def __init__(self, program: str, number: int, root: pathlib.Path = ROOT) -> None:
        self.room = root / "crates" / program / "out" / "lanes"
        self.roots = [root, *(self.room / str(it) for it in range(1, number))]
        self.running: set[subprocess.Popen[str]] = set()
        self.is_stopped = False
        shutil.rmtree(self.room, ignore_errors=True)
        for copy in self.roots[1:]:
            for crate in (root / "crates").iterdir():
                copied(crate, copy / "crates" / crate.name)
            for name in ("crates.txt", "HANDLES"):
                shutil.copy(root / name, copy / name)

    def run(self, words: list[str], crate: str, lane: int) -> None:
        """Runs a command in the crate's folder of a lane."""
        with subprocess.Popen(
            words,
            cwd=self.roots[lane] / "crates" / crate,
            stdin=subprocess.DEVNULL,
            stdout=subprocess.PIPE,
            stderr=subprocess.STDOUT,
            text=True,
            errors="replace",
            start_new_session=True,
        ) as started:
            self.running.add(started)
            try:
                if self.is_stopped:
                    self.stop()
                said, _ = started.communicate()
            except BaseException:
                self.stop()
                raise
            finally:
                self.running.discard(started)
        if started.returncode:
            raise NotProved(crate, started.returncode, said)

    def stop(self) -> None:
        """Ends what runs, and what is still to run."""
        self.is_stopped = True
        for it in [*self.running]:
            with contextlib.suppress(ProcessLookupError):  # it has just ended
                os.killpg(it.pid, signal.SIGKILL)

    def close(self) -> None:
        shutil.rmtree(self.room, ignore_errors=True)


def copied(crate: pathlib.Path, to: pathlib.Path) -> None:
    """Copies what a crate is made of, and links the library that is kept of it."""
    for part in MADE_BY_HAND:
        if (crate / part).is_dir():
            shutil.copytree(crate / part, to / part)
    if (crate / "out/rlib/stamp").is_file():
        shutil.copytree(crate / "out/rlib", to / "out/rlib", copy_function=os.link)


def build(
    program: str, last: Sequence[str] = ("run", "--", "--help"), root: pathlib.Path = ROOT
) -> None:
    """Proves all crates below a program and then the program, which rt runs once, for its help."""
    known = rattle.crates(root)
    crates = {it: known[it] for it in rattle.below(program, root)}
    work = {it: lines_of(it, root) for it in crates}
    at_once = Lanes(program, max(1, min(lanes(), len(crates))), root)
    began, done = time.monotonic(), 0

    def prove(crate: str, lane: int, jobs: int) -> None:
        nonlocal done
        tell(f"  proving {crate}" + (f" with {jobs} jobs" if jobs > 1 else ""))
        alone = len(at_once.roots) == 1  # rt chooses its jobs by itself
        at_once.run(["rt", "lib", *([] if alone else ["--jobs", str(jobs)])], crate, lane)
        done += work[crate]
        minutes = (time.monotonic() - began) / 60
        tell(f"{crate} is proved: {100 * done // sum(work.values())} % in {minutes:.0f} min")

    try:
        side_by_side(crates, work, len(at_once.roots), prove, at_once.stop)
        tell(f"  proving and building {program}")
        # (it takes what the copies have proved, before they go)
        at_once.run(["rt", *last], program, 0)
    finally:
        at_once.close()
