"""Who works off the queue of the page: each question ends, and nothing in the queue is more than
data.
"""
from __future__ import annotations

import ast
import dataclasses
import json
import os
import pathlib
import sys
import time
from typing import Any
from unittest import mock

import pytest
from lab.waits import wait_for
from tracedesk_dev import processes
from tracedesk_ops.recallpage import jobs, pages, papers, view
from tracedesk_ops.recallpage.jobs import Asked, Queue
from tracedesk_ops.recallpage.worker import Worker
from tracedesk_ops.recalls import words

pytestmark = [pytest.mark.needs("python:flask"), pytest.mark.xdist_group("recall_page")]


@pytest.fixture
def queue(folder: pathlib.Path) -> Queue:
    for name in ("asked", "answers"):
        (folder / "queue" / name).mkdir(parents=True)
    return Queue(folder / "queue")


def asked(names: str, kind: str = "lot") -> Asked:
    return Asked(kind, names, "anna", "2026-03-02 06:00 UTC")


def worker(queue: Queue, text: str, **more: Any) -> Worker:
    """One that calls this in place of tracedesk-recall. EVIDENCE is the folder that it makes."""
    script = queue.folder.parent / "recall"
    lines = "import os, sys, pathlib, time\nEVIDENCE = [pathlib.Path(it[11:]) for it in sys.argv"
    script.write_text(f"{lines} if it.startswith('--evidence=')][0]\n{text}\n")
    return Worker(queue, script, **more)


def ended(queue: Queue) -> list[int]:
    return [int((job.ended or {"status": -1})["status"]) for job in queue.all()]


ENDS = {  # what happens in the first of two recalls, and the status with which it ends
    "its evidence is none": (
        "'L-1' in sys.argv and (EVIDENCE.mkdir(), sys.exit(0)); sys.exit(1)",
        9,
    ),
    "it wants all memory": ("'L-1' in sys.argv and [b'x' * (1 << 40)]; sys.exit(1)", 1),
    "it is killed": ("os.kill(os.getpid(), 9) if 'L-1' in sys.argv else sys.exit(1)", -9),
}


@pytest.mark.parametrize("name", ENDS)
def test_each_recall_ends_and_the_next_one_is_run(queue: Queue, name: str) -> None:
    text, status = ENDS[name]
    for lot in ("L-1", "L-2"):
        queue.add(asked(lot))
    worker(queue, text).work(is_once=True)
    assert ended(queue) == [status, 1]


def test_a_recall_that_hangs_is_stopped_with_its_programs(queue: Queue) -> None:
    queue.add(asked("L-1"))
    file = queue.folder.parent / "number"
    hangs = "child = os.fork() or time.sleep(9_999)\n"
    hangs += f"pathlib.Path({str(file)!r}).write_text(str(child))"
    its = worker(queue, f"{hangs}\ntime.sleep(9_999)", seconds=0.5)
    its.work(is_once=True)
    assert ended(queue) == [124]
    if text := file.read_text() if file.exists() else "":  # else it was stopped before
        wait_for("its end", lambda: processes.has_ended(int(text)))


def test_no_question_is_answered_by_an_earlier_recall(queue: Queue) -> None:
    """It may have asked the desk before the boards were placed that the reader is after."""
    assert queue.add(asked("L-1")) != queue.add(asked("L-1"))
    assert len(queue.waiting()) == 2


def test_a_recall_that_cannot_be_ended_holds_none_up(
    queue: Queue, monkeypatch: pytest.MonkeyPatch
) -> None:
    first, _ = queue.add(asked("L-1")), queue.add(asked("L-2"))
    end = jobs.Job.end

    def full(job: jobs.Job, *how: Any) -> None:
        if job == first:
            raise OSError("No space left on device")
        end(job, *how)

    monkeypatch.setattr(jobs.Job, "end", full)
    worker(queue, "sys.exit(1)").work(is_once=True)
    assert ended(queue) == [-1, 1]


def test_a_paper_has_limits_of_its_own(monkeypatch: pytest.MonkeyPatch) -> None:
    monkeypatch.setattr(papers, "MOST_CPU", 1)
    monkeypatch.setattr(papers, "MOST_MEMORY", 1 << 30)

    def endless(*_: Any) -> None:
        while True:
            pass

    def greedy(*_: Any) -> None:
        bytearray(1 << 32)

    for maker in (endless, greedy):
        assert papers.apart(maker) != 0


def test_long_cells_are_set_in_moderate_time(folder: pathlib.Path) -> None:
    """As those of a refused install of some hundred places. The processor's time is looked at."""
    pytest.importorskip("weasyprint")
    long = " ".join(f"C{number}" for number in range(1_500))
    rows = [[f"B{number}", long, "x" * 1_500] for number in range(20)]
    tables = [view.Table("Untraced work", ["Board", "Work", "Reels"], rows)]
    answer = view.ShownAnswer("lot L", False, "NOT COMPLETE", [long], [long], tables)
    before = time.process_time()
    papers.write_pdf(folder, answer, str(folder / "a.pdf"))
    assert time.process_time() - before < papers.MOST_CPU / 4


def test_a_cell_says_what_it_is_without_markup() -> None:
    assert pages.cell("<b>") == "&lt;b&gt;"
    assert pages.cell("x" * 20) == f"{'x' * 16}<wbr>xxxx"
    assert pages.cell("x " * 200).endswith(".. (400 letters)")


HOSTILE: dict[str, dict[str, Any]] = {  # what a question has in place of its own fields
    "a program": {"names": "L, --program, /bin/true"},
    "a key": {"names": "--key=/etc/tracedesk/recall-key"},
    "evidence": {"names": "--evidence, /var/lib/tracedesk/x"},
    "a part": {"part": "--key=/tmp/key"},
    "a kind": {"kind": "--evidence=/tmp/x"},
    "a list": {"names": ["L"]},
    "a number": {"within": 7},
    "none": {"names": ""},
    "no attribute": {"kind": "where", "names": "x"},
    "a control": {"names": "L\n--program"},
    "a field more": {"program": "/bin/true"},
}
SHOWS = "pathlib.Path(EVIDENCE.parents[3], 'argv').write_text(repr(sys.argv[1:])); sys.exit(1)"


@pytest.mark.parametrize("name", HOSTILE)
def test_a_name_in_the_queue_is_no_option(
    queue: Queue, monkeypatch: pytest.MonkeyPatch, name: str
) -> None:
    """Whoever writes into the queue may only ask."""
    job, told = queue.add(asked("L")), {**dataclasses.asdict(asked("L")), **HOSTILE[name]}
    (queue.folder / f"asked/{job.name}.json").write_text(json.dumps(told))
    worker(queue, SHOWS).work(is_once=True)
    shown = queue.folder.parent / "argv"
    assert ended(queue) == [1 if shown.exists() else 2]
    if not shown.exists():
        return
    argv = ast.literal_eval(shown.read_text())
    monkeypatch.delenv("PROGRAM", raising=False)
    with mock.patch.object(sys, "argv", ["tracedesk-recall", *argv]):
        asks = words.parse("")
    its = [name.strip() for name in told["names"].split(",")]
    assert (asks.kind, asks.names, asks.part) == (told["kind"], its, told["part"] or None)
    assert (asks.program, asks.key, asks.evidence) == ("tracedesk", None, job.folder / "evidence")


def test_deep_json_in_the_queue_ends_no_page_and_no_worker(queue: Queue) -> None:
    job = queue.add(asked("L"))
    (queue.folder / f"asked/{job.name}.json").write_text("[" * 60_000)
    assert not [*queue.questions(queue.all())] and queue.job(job.name) is None
    worker(queue, "sys.exit(1)").work(is_once=True)
    assert ended(queue) == [2]


def test_no_link_in_the_queue_is_followed(queue: Queue) -> None:
    """Nothing elsewhere is read, and each recall ends."""
    secret = queue.folder.parent / "secret"
    secret.write_text("board,customer,date\nSECRET,x,2026\n")
    for number, end in enumerate(("json", "csv")):
        job = queue.add(asked(f"L-{number}"), b"board,customer,date\n")
        (queue.folder / f"asked/{job.name}.{end}").unlink()
        (queue.folder / f"asked/{job.name}.{end}").symlink_to(secret)
    os.mkfifo(queue.folder / "asked/20200101T000000.000000Z-00000000.json")
    worker(queue, "sys.exit(1)").work(is_once=True)
    assert ended(queue) == [2, 2, 9]
    for path in queue.folder.glob("answers/*/*"):
        assert "SECRET" not in path.read_text("latin-1")
