"""Wrong bodies and wrong programs, tried on copies of the repository."""
import collections
import contextlib
import fcntl
import hashlib
import os
import pathlib
import re
import shutil
import signal
import subprocess
import tempfile
import threading
import time
from concurrent.futures import ThreadPoolExecutor
from typing import Sequence

from tracedesk_dev import ROOT, rattle
from tracedesk_dev.edit_names import want_names
from tracedesk_dev.edits import (
    Edit,
    NotApplied,
    edits_below,
    edits_of,
    files_of,
    find_functions,
    read,
    texts_of,
    with_edits,
)
from tracedesk_dev.program import stop
from tracedesk_dev.verdicts import (
    CALLS,
    GOAL,
    MISFIT,
    PROVED,
    first_error,
    judged,
    short,
    told_of,
    unread,
)

TOP = str(ROOT)
PROGRAM = "tracedesk"
FAULTS = ["--only", "feed first_run", "memory"]
FAILS = "dev/cases or dev/faults/run calls fails"
PASSES = "every case passes, and nothing is found where memory is refused"
MOST_TOGETHER, CASES_MAY_TAKE = 24, 1200  # edits, seconds
# A search without end is cut off by the processor's seconds, which a busy machine doesn't change.
CHECK = ["prlimit", "--cpu=1500", "rt", "check", "--jobs", "1"]
STOPPED = threading.Event()


def run(words: Sequence[str], folder: str, seconds: float = float("inf")) -> tuple[int | None, str]:
    """Runs a command, and returns its status and all that it printed, or no status where it had not
    ended in time.
    """
    if STOPPED.is_set():
        return None, ""
    ends = time.monotonic() + seconds
    with subprocess.Popen(
        words,
        cwd=folder,
        errors="replace",
        start_new_session=True,
        stdin=subprocess.DEVNULL,
        stdout=subprocess.PIPE,
        stderr=subprocess.STDOUT,
    ) as started:
        while True:
            try:
                said, _ = started.communicate(timeout=1)
                return started.returncode, said
            except subprocess.TimeoutExpired:
                if STOPPED.is_set() or time.monotonic() > ends:
                    os.killpg(started.pid, signal.SIGKILL)
                    return None, started.communicate()[0]


REFUSED, PROOF_ONLY, CAUGHT, LET_THROUGH = "refused", "proof only", "caught", "NOT REFUSED"
WORDS = {GOAL: REFUSED, CALLS: REFUSED, MISFIT: PROOF_ONLY}
KEPT = re.compile(rf"([0-9a-f]{{16}}) ({REFUSED}|{PROOF_ONLY}|{CAUGHT}|{LET_THROUGH}) ")


class Outcomes:
    """What came of the edits, and the file that keeps it for a later run."""

    def __init__(self, file: str | None = None) -> None:
        self.lock, self.file = threading.Lock(), None
        self.known: dict[str, str] = {}
        self.counts: dict[str, int] = collections.Counter()
        self.before = 0
        if file:
            try:
                self.file = open(file, "a+", encoding="utf-8")
                self.file.seek(0)
                lines = self.file.read().split("\n")[:-1]
            except (OSError, UnicodeDecodeError) as why:
                stop(f"--kept {file}: {why}")
            for found in map(KEPT.match, lines):
                if not found:
                    stop(f"--kept {file}: this tool did not write that file. Give a new name")
                self.known[found[1]] = found[2]

    def is_known(self, edit: Edit) -> bool:
        """Whether an earlier run told of an edit that the checker refuses, which then counts."""
        outcome = self.known.get(edit.sum, LET_THROUGH)
        with self.lock:
            self.before += outcome != LET_THROUGH
            self.counts[outcome] += outcome != LET_THROUGH
        return outcome != LET_THROUGH

    def tell(self, edit: Edit, outcome: str, why: str = "") -> None:
        """Prints an edit's line, and keeps it. What was cut short tells nothing."""
        with self.lock:
            if not STOPPED.is_set():
                self.counts[outcome] += 1
                because = f": {' '.join(why.split())[:300]}" if why else ""
                line = f"{outcome} {edit.label}{because}"
                print(line, flush=True)
                if self.file and edit.sum:
                    print(edit.sum, line, file=self.file, flush=True)

    def in_words(self) -> str:
        return (
            f"{self.counts[REFUSED]} refused by a goal, {self.counts[PROOF_ONLY]} only since a"
            f" proof by hand no longer fits, {self.counts[CAUGHT]} caught by a test,"
            f" {self.counts[LET_THROUGH]} not refused"
        )


# --- Copies of the repository, and edits of them


def copied(room: str) -> None:
    """Copies the repository's files, and nothing that runs made."""
    shutil.copytree(
        TOP, room, ignore=shutil.ignore_patterns("out", ".git", "__pycache__"), dirs_exist_ok=True
    )


def copy_kept(crate: str, parts: Sequence[str], room: str) -> None:
    """Copies parts of what a crate keeps in out/, while no check of rt is at work there."""
    folder = f"{TOP}/crates/{crate}"
    held = os.open(folder, os.O_RDONLY)
    try:
        fcntl.flock(held, fcntl.LOCK_SH)
        for part in parts:
            if os.path.isdir(f"{folder}/out/{part}"):
                shutil.copytree(f"{folder}/out/{part}", f"{room}/crates/{crate}/out/{part}")
    finally:
        os.close(held)


def that_apply(edits: list[Edit], folder: str, outcomes: Outcomes) -> list[Edit]:
    """Returns those of these edits that can be applied to the folder's files. Tells of others."""
    found = []
    for it in edits:
        try:
            want_names(it, folder, f"{TOP}/crates")
            found.append(it)
        except NotApplied as why:
            outcomes.tell(it, LET_THROUGH, f"the edit cannot be applied: {why}")
    return found


# --- The functions that an edit changes


def check_of(functions: set[str], crate: str, folder: str) -> tuple[str, dict[str, str]]:
    """Returns a check's words, and what it tells of each function by its short name."""
    only = [word for it in sorted(functions) for word in ("--only", short(it))]
    _, said = run([*CHECK, *only], folder)
    return said, told_of(said, crate, folder)


def batch_of(todo: list[Edit], folder: str) -> list[Edit]:
    """Returns those of these edits, from the first on, that one check can tell apart."""
    batch = todo[:1]
    for it in todo[1:]:
        if len(batch) == MOST_TOGETHER or batch[0].is_apart:
            break
        if not it.is_apart and not any(it.meets(other) for other in batch):
            with contextlib.suppress(NotApplied):
                texts_of([*batch, it], folder)
                batch.append(it)
    return batch


def try_batch(batch: list[Edit], crate: str, folder: str, outcomes: Outcomes) -> list[Edit]:
    """Tells of the edits of a batch that their functions are refused, and returns those of which
    they do not tell.
    """
    functions = set().union(*(it.functions for it in batch))
    changed, (said, told) = with_edits(
        batch, folder, lambda after: (after, check_of(functions, crate, folder))
    )
    fault = unread(said, changed)
    if len(batch) > 1 and (fault or not told):
        half = len(batch) // 2
        halves = batch[:half], batch[half:]
        return [it for some in halves for it in try_batch(some, crate, folder, outcomes)]
    if fault:
        outcomes.tell(batch[0], LET_THROUGH, fault)
        return []
    left = []
    for it in batch:
        heard = {told.get(short(function), "") for function in it.functions}
        if GOAL in heard or CALLS in heard and len(batch) == 1:
            outcomes.tell(it, REFUSED)
        elif MISFIT in heard:
            outcomes.tell(it, PROOF_ONLY)
        elif heard != {PROVED} and len(batch) > 1:
            left += try_batch([it], crate, folder, outcomes)
        else:
            left.append(it)
    return left


def try_bodies(crate: str, edits: list[Edit], folder: str, outcomes: Outcomes) -> None:
    """Tries a crate's wrong bodies in batches, and what these do not tell by the whole crate."""
    edits = that_apply(edits, folder, outcomes)
    # (where the library is there, rt only looks whether it is of these files)
    is_library = os.path.isfile(f"{folder}/src/lib.rt")
    if run(["rt", "lib", "--jobs", "1"] if is_library else CHECK, folder)[0]:
        for it in edits:
            outcomes.tell(it, LET_THROUGH, "the crate itself is not proved")
        return
    for it in edits:
        find_functions(it, folder)
    todo = [it for it in edits if it.functions]
    whole = [it for it in edits if not it.functions]
    while todo:
        batch = batch_of(todo, folder)
        todo = [it for it in todo if it not in batch]
        whole += try_batch(batch, crate, folder, outcomes)
    for edit in whole:
        verdict, why = with_edits(
            [edit], folder, lambda after: judged(*run(CHECK, folder), after, crate, folder)
        )
        outcomes.tell(edit, WORDS.get(verdict, LET_THROUGH), why)


def bodies_of(crate: str, names: list[str], below: list[str], outcomes: Outcomes) -> None:
    """Tries in a copy the named wrong bodies of a crate that were not refused before."""
    edits = edits_of(crate, f"{TOP}/crates/{crate}")
    if crate not in names:
        edits = [it for it in edits if it.label in names]
    if not edits or STOPPED.is_set():
        return
    with tempfile.TemporaryDirectory(prefix="wrong-bodies-") as room:
        copied(room)
        folder = f"{room}/crates/{crate}"
        texts = [(it, read(it)) for it in files_of(folder, "src", "specs", "proofs")]
        # (a check reads no body and no proof of the crates below)
        for name in below:
            place = f"{room}/crates/{name}"
            texts += [(it.path, it.seen_above()) for it in rattle.sources(pathlib.Path(place))]
            texts += [(it, read(it)) for it in files_of(place, "specs")]
        for it in edits:
            seen = repr(texts).replace(room, "") + repr(it.changes)
            it.sum = hashlib.sha256(seen.encode()).hexdigest()[:16]
        left = [it for it in edits if not outcomes.is_known(it)]
        if left:
            for name in below:
                copy_kept(name, ["rlib"], room)
            copy_kept(crate, ["incremental", "rlib"], room)
            try_bodies(crate, left, folder, outcomes)


# --- Wrong programs


def program_fails(room: str) -> tuple[bool, str]:
    """Proves and builds the program in a copy, and returns whether dev/cases or dev/faults/run
    calls fails on it, and why they may not.
    """
    folder = f"{room}/crates/{PROGRAM}"
    status, said = run(["rt", "run", "--jobs", "2", "--", "--help"], folder)
    if status != 0:
        return False, f"the program was not built: {first_error(said)}"
    no_calls: list[str] = []
    for tool, calls, fault in (
        (["dev/cases"], no_calls, r"^\d+ passed, [1-9]\d* failed$"),
        (["dev/faults/run", "calls"], FAULTS, r"^  FOUND "),
    ):
        words = [f"{room}/{tool[0]}", *tool[1:], "--program", f"{folder}/out/{PROGRAM}", *calls]
        status, said = run(words, room, CASES_MAY_TAKE)
        if status is None or status == 1 and re.search(fault, said, re.M):
            return True, ""
        if status:
            ended = f"ended with status {status}, and tells of no fault: {said[-200:]}"
            return False, f"{' '.join(tool)} {ended}"
    return False, PASSES


def programs(names: list[str], outcomes: Outcomes) -> None:
    """Tries the wrong programs in a copy."""
    edits = edits_below("wrong-programs", f"{TOP}/wrong-programs")
    edits = [it for it in edits if not names or it.label.partition("/")[2] in names]
    if len(edits) < len({*names}):
        stop("wrong-programs has no edit of that name")
    with tempfile.TemporaryDirectory(prefix="wrong-programs-") as room:
        copied(room)
        for name in [*rattle.below(PROGRAM), PROGRAM]:
            copy_kept(name, ["incremental", "rlib"], room)
        fails, why = program_fails(room)
        for it in that_apply(edits, room, outcomes):
            if fails or why != PASSES:
                outcomes.tell(it, LET_THROUGH, why or f"{FAILS} on the program as it is")
            else:
                is_caught, passes = with_edits([it], room, lambda _: program_fails(room))
                outcomes.tell(it, CAUGHT if is_caught else LET_THROUGH, passes)


def bodies(names: list[str], lanes: int, outcomes: Outcomes) -> None:
    """Tries the wrong bodies of these names, those of the crates with the most work first."""

    def work(crate: str) -> int:
        return sum(read(it).count("\n") for it in files_of(f"{TOP}/crates/{crate}", "src"))

    with ThreadPoolExecutor(lanes) as pool:
        given = [
            pool.submit(bodies_of, it, names, rattle.below(it), outcomes)
            for it in sorted({name.partition("/")[0] for name in names}, key=work, reverse=True)
        ]
        try:
            for it in given:
                it.result()
        except BaseException:
            STOPPED.set()
            raise
