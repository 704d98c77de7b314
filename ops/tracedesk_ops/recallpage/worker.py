"""Works off the queue of the page: one question at a time, at low priority, each of them to its
end.
"""
from __future__ import annotations

import dataclasses
import os
import pathlib
import resource
import shutil
import signal
import subprocess
import sys
import time

from tracedesk_ops import places, plant
from tracedesk_ops.recallpage import holds, pages, papers, view
from tracedesk_ops.recallpage.jobs import HOLDS, SAID, Asked, Job, Queue
from tracedesk_ops.recallpage.view import ShownAnswer
from tracedesk_ops.recalls.surveyed import BY_MIRRORS

NICE = 15
SECONDS_BETWEEN_LOOKS = 1.0
LEAST_FREE = 1 << 30  # bytes, without which no recall begins
# bytes of each program of a recall: docs/figures.md has 230 MB for 27 M pieces
MOST_MEMORY = 4 << 30
MOST_SECONDS = 4 * 3600  # of a recall: 27 M pieces take five minutes
DONE, NO_QUESTION, NOT_DONE, FULL, FAILED, STOPPED = 0, 2, 3, 4, 9, 124


@dataclasses.dataclass(frozen=True)
class Worker:
    """Who works off a queue by tracedesk-recall."""

    queue: Queue
    recall: pathlib.Path
    seconds: float = MOST_SECONDS
    # the names of those that can't be ended
    left: set[str] = dataclasses.field(default_factory=set)

    def work(self, is_once: bool = False) -> None:
        """Answers what waits; for ever, or until nothing does."""
        while True:
            waiting = [job for job in self.queue.waiting() if job.name not in self.left]
            for job in waiting[:1]:
                self.run(job)
            if is_once and not waiting:
                return
            if not waiting:
                time.sleep(SECONDS_BETWEEN_LOOKS)

    def run(self, job: Job) -> None:
        """Answers a question to its end, whatever happens: the others wait for it. One that can't
        be ended, as on a full disk, is left to the next worker.
        """
        try:
            try:
                status, answer = self.answered(job)
            except Exception as fault:
                plant.tell(f"{job.name}: {fault!r}")
                status, answer = FAILED, view.failed("Recall", f"It failed: {fault!r:.500}")
            job.end(status, answer.headline, pages.shown(answer, papers.in_folder(job.folder)))
        except Exception as fault:
            plant.tell(f"{job.name}: it can't be ended, and is left: {fault!r}")
            self.left.add(job.name)

    def answered(self, job: Job) -> tuple[int, ShownAnswer]:
        """How a question ends, and its answer. What is left of a run that was killed goes."""
        shutil.rmtree(job.folder, ignore_errors=True)
        job.folder.mkdir()
        try:
            asked = job.asked
        except (OSError, ValueError) as fault:
            return NO_QUESTION, view.failed("Recall", f"It can't be read: {fault}")
        if asked.kind in HOLDS and job.is_old:  # as if somebody deleted its answer
            return NOT_DONE, view.failed(asked.title, "NOT DONE: it is of another day. Ask again.")
        if asked.kind in HOLDS:
            places.files.cache_clear()  # a line may have been set up since
            answer = holds.answer_to(asked, places.lines(), places.mirrors())
            return (DONE if answer.is_complete else NOT_DONE), answer
        if shutil.disk_usage(job.folder).free < LEAST_FREE:
            why = "The disk of the desk's machine is nearly full: make room."
            return FULL, view.failed(asked.title, why)
        status = self.recalled(job, asked)
        plant.reached("recalled")
        evidence = job.folder / "evidence"
        if status == STOPPED or not evidence.is_dir():
            said = (job.folder / SAID).read_text(encoding="utf-8", errors="replace")
            lines = ["It ended without an answer.", *said.splitlines()]
            lines += ["It took too long. Ask again, or for less."] * (status == STOPPED)
            return status, view.failed(f"Recall of {asked.title}", *lines)
        answer = view.answer_of(evidence)
        lacking = papers.make(evidence, answer)
        return status, dataclasses.replace(answer, notes=[*lacking, *answer.notes])

    def recalled(self, job: Job, asked: Asked) -> int:
        """The status of tracedesk-recall, or STOPPED."""
        options = [f"--evidence={job.folder / 'evidence'}", f"--as-of={BY_MIRRORS}"]
        if shipped := job.shipped:
            (job.folder / "shipped.csv").write_bytes(shipped)
            options.append(f"--shipped={job.folder / 'shipped.csv'}")
        with open(job.folder / SAID, "wb") as said:
            running = subprocess.Popen(
                [sys.executable, "-B", self.recall, *asked.words(options)],
                stdin=subprocess.DEVNULL,
                stdout=subprocess.DEVNULL,
                stderr=said,
                preexec_fn=low,
                start_new_session=True,  # so that all of its programs end with it
            )
        try:
            return running.wait(self.seconds)
        except subprocess.TimeoutExpired:
            return STOPPED
        finally:
            if running.poll() is None:
                os.killpg(running.pid, signal.SIGKILL)
                running.wait()


def low() -> None:
    """What a recall does before it begins: the line's own programs go first, and it ends with its
    worker, since the next one runs it anew.
    """
    os.nice(NICE)
    plant.LIBC.prctl(plant.PR_SET_PDEATHSIG, signal.SIGKILL)
    resource.setrlimit(resource.RLIMIT_DATA, (MOST_MEMORY, MOST_MEMORY))
