"""The page of recalls: what a reader sees, and what the queue does."""
from __future__ import annotations

import csv
import html
import importlib
import io
import json
import multiprocessing
import os
import pathlib
import shutil
import types
import zipfile
from typing import Any

import pytest
from lab import OPS
from lab.line import Line
from lab.recalls import last_minute
from lab.tools import KILL_AFTER, KILLED, Word, run, tool
from lab.waits import wait_for
from tracedesk_dev import processes
from tracedesk_ops import places
from tracedesk_ops.recallpage import jobs, papers, view
from tracedesk_ops.recallpage.jobs import Queue
from tracedesk_ops.recallpage.worker import Worker

pytestmark = [
    pytest.mark.needs("python:flask", "python:waitress", "ssh-keygen"),
    pytest.mark.xdist_group("recall_page"),
]

SHIPPED = b"board,customer,date\nSN-3,Customer A,2026-03-09\n"


class Site:
    """The page over a small line that is set up, and who works off its queue."""

    def __init__(self, line: Line, folder: pathlib.Path, monkeypatch: pytest.MonkeyPatch) -> None:
        self.line, self.folder, self.etc = line, folder, folder / "etc"
        self.queue = Queue(folder / "queue")
        for name in ("asked", "answers"):
            (self.queue.folder / name).mkdir(parents=True)
        self.etc.mkdir()
        monkeypatch.setattr(places, "FOLDER", self.etc)
        monkeypatch.setenv("TRACEDESK_SET_UP", str(self.etc))
        monkeypatch.setenv("PROGRAM", str(line.program))
        self.set_up("L1", db=line.file, port=line.port)
        made = importlib.import_module("tracedesk_ops.recallpage.app").make(self.queue.folder)
        self.client = made.test_client()

    def set_up(self, name: str, **words: object) -> None:
        rows = [f"{word} = {words[word]}\n" for word in words]
        (self.etc / f"{name}.conf").write_text(f"line = {name}\n{''.join(rows)}")

    def worker(self) -> Worker:
        return Worker(self.queue, tool("recall"))

    def worked_off(self, at: str) -> str:
        """The page of an answer, once all are worked off."""
        self.worker().work(is_once=True)
        return self.page(at)

    def get(self, target: str, reader: str = "anna") -> Any:
        return self.client.get(target, headers={"X-Reader": reader} if reader else {})

    def ask(self, kind: str, names: str, reader: str = "anna", **more: Any) -> Any:
        data = {"kind": kind, "names": names, **more}
        return self.client.post("/recall/", data=data, headers={"X-Reader": reader})

    def asked(self, kind: str, names: str, **more: Any) -> str:
        """Asks, and returns where the answer will be."""
        told = self.ask(kind, names, **more)
        assert told.status_code == 303, told.get_data(as_text=True)
        return str(told.headers["Location"])

    def page(self, target: str) -> str:
        told = self.get(target)
        assert told.status_code == 200
        return str(told.get_data(as_text=True)).replace("<wbr>", "")


@pytest.fixture(scope="module")
def line(small_line: Line) -> Line:
    return small_line


@pytest.fixture
def site(line: Line, tmp_path: pathlib.Path, monkeypatch: pytest.MonkeyPatch) -> Site:
    return Site(line, tmp_path, monkeypatch)


# --- A whole recall


def test_a_reader_finds_the_boards(site: Site) -> None:
    at = site.asked("lot", "L-3", shipped=(io.BytesIO(SHIPPED), "s.csv"))
    second = site.asked("lot", "L-4")
    assert "Is next." in site.page(at) and "Waits behind 1 other." in site.page(second)
    site.worker().run(site.queue.waiting()[0])
    page = site.page(at)
    assert "Complete: 1 board holds a piece of lot L-3, and no other board" in page
    for text in ("Customer A: 1 board", "SN-3", "2026-03-02 06:00 UTC", "Reels in stock", "K-3"):
        assert text in page, text
    assert "Is next." in site.page(second)
    assert "Complete: 1 board" in site.page("/recall/")


def test_a_label_may_be_wrong(site: Site) -> None:
    at = site.asked("lot", "L-3", within=" 2 ")
    assert "--within=2" in site.queue.waiting()[0].asked.words([])
    site.worker().work(is_once=True)
    evidence = site.queue.folder / "answers" / at.split("/")[-2] / "evidence"
    told = json.loads((evidence / "certificate.json").read_text())
    assert told["question"]["within"] == "2 pieces of a splice"
    assert "Complete: 1 board" in site.page(at)
    assert site.ask("lot", "L-3", within="x").status_code == 400


def test_the_papers_have_the_answer(site: Site) -> None:
    pytest.importorskip("weasyprint")
    pytest.importorskip("xlsxwriter")
    at = site.asked("lot", "L-3")
    site.worker().work(is_once=True)
    pdf, sheet, boards, evidence = (site.get(at + name) for name in papers.FILES)
    (site.folder / "a.pdf").write_bytes(pdf.data)
    text = run(["pdftotext", "-layout", site.folder / "a.pdf", "-"]).expect().out
    assert "Complete: 1 board" in text and "SN-3" in text
    (site.folder / "a.xlsx").write_bytes(sheet.data)
    with zipfile.ZipFile(site.folder / "a.xlsx") as book:
        strings = book.read("xl/sharedStrings.xml").decode()
    assert "SN-3" in strings and "First minute" in strings
    assert [row["board"] for row in csv.DictReader(boards.get_data(as_text=True).splitlines())] == [
        "SN-3"
    ]
    (site.folder / "a.zip").write_bytes(evidence.data)
    with zipfile.ZipFile(site.folder / "a.zip") as packed:
        assert {"certificate.json", "SHA256SUMS"} <= set(packed.namelist())


def mirror_of(site: Site) -> str:
    """Sets a mirror of the line up in its place; until when its newest file goes."""
    mirror, (file,) = site.folder / "mirror", (site.line.folder / "sealed").glob("*.desk")
    shutil.copytree(file.parent, mirror / "sealed")
    (site.etc / "L1.conf").unlink()
    site.set_up("L2", mirror=mirror)
    return last_minute(file)


def test_an_answer_that_is_not_complete_says_why(site: Site) -> None:
    """As over a mirror of months ago."""
    until = mirror_of(site)
    page = site.worked_off(site.asked("lot", "L-3"))
    assert "NOT COMPLETE: 0 boards hold a piece of lot L-3, and more may be missing." in page
    assert f"L2: {site.folder / 'mirror'} has no desk" in page
    assert f"{view.spelled(until)}, are not in the answer. Ask on" in page


PATIENT = f"""import runpy, sys; sys.path.insert(0, {str(OPS)!r})
from tracedesk_ops.recalls import surveyed; surveyed.OLDEST = 1 << 40
runpy.run_path({str(tool("recall"))!r}, run_name="__main__")"""


def test_over_a_mirror_an_answer_is_complete_until_it_ends(site: Site) -> None:
    """Here mirrors of months ago count."""
    until = mirror_of(site)
    at = site.asked("lot", "240131")
    (site.folder / "patient").write_text(PATIENT)
    Worker(site.queue, site.folder / "patient").work(is_once=True)
    assert f"Complete as of {view.spelled(until)}: 2 boards hold a piece" in site.page(at)


def test_without_the_libraries_the_other_papers_are_there(
    site: Site, monkeypatch: pytest.MonkeyPatch
) -> None:
    def missing(name: str) -> Any:
        raise ImportError(name=name)

    at = site.asked("reel", "K-1")
    monkeypatch.setattr(importlib, "import_module", missing)
    site.worker().work(is_once=True)
    page = site.page(at)
    assert "the package weasyprint is missing" in page
    assert "the package python3-xlsxwriter is missing" in page
    assert site.get(at + papers.PDF).status_code == 404
    assert site.get(at + papers.BOARDS).status_code == 200


def test_a_kill_amid_a_recall_loses_nothing(site: Site) -> None:
    at = site.asked("lot", "L-3")
    words: list[Word] = [tool("recall-page"), "work", "--once", "--queue", site.queue.folder]
    killed = run(words, env={KILL_AFTER: "recalled"})
    assert killed.status == KILLED and "It is worked off." in site.page(at)
    run(words).expect()
    assert "Complete: 1 board" in site.page(at)


SLOW = """import os, pathlib, time
new = pathlib.Path({!r} + ".new")
new.write_text(str(os.getpid()))
new.rename(new.with_suffix(""))
time.sleep(600)
"""


def test_a_recall_ends_with_its_worker(site: Site) -> None:
    """Else two would write the same evidence."""
    site.asked("lot", "L-3")
    slow, file = site.folder / "slow", site.folder / "number"
    slow.write_text(SLOW.format(str(file)))
    worker = multiprocessing.get_context("fork").Process(
        target=Worker(site.queue, slow).run, args=site.queue.waiting()
    )
    worker.start()
    wait_for("the recall runs", file.exists)
    running = int(file.read_text())
    assert os.fsencode(slow) in processes.words_of(running)
    worker.kill()
    worker.join()
    wait_for("its end", lambda: processes.has_ended(running))


def test_a_full_disk_begins_no_recall(site: Site, monkeypatch: pytest.MonkeyPatch) -> None:
    monkeypatch.setattr(shutil, "disk_usage", lambda _: types.SimpleNamespace(free=0))
    at = site.asked("lot", "L-3")
    site.worker().work(is_once=True)
    assert "nearly full: make room." in site.page(at)


# --- Who asks, and what


def test_without_a_reader_nothing_is_shown(site: Site) -> None:
    at = site.asked("lot", "L-3")
    for target in ("/recall/", at, at + papers.PDF):
        assert site.get(target, reader="").status_code == 403
    assert site.client.post("/recall/", data={"kind": "lot", "names": "X"}).status_code == 403
    assert len(site.queue.all()) == 1


@pytest.mark.parametrize("name", ["<script>alert(1)</script>", "{{ 7 * 7 }}", '"><b>x', "a&b"])
def test_a_name_with_markup_is_text(site: Site, name: str) -> None:
    for page in (site.page(site.asked("lot", name)), site.page("/recall/")):
        assert html.escape(name, quote=False) in page.replace("&#34;", '"')
        assert name == "a&b" or name in ("{{ 7 * 7 }}",) or name not in page


def test_a_customer_with_markup_or_a_formula_is_text(site: Site) -> None:
    pytest.importorskip("weasyprint")
    pytest.importorskip("xlsxwriter")
    shipped = b"board,customer,date\nSN-3,<script>alert(1)</script>,=1+1\n"
    at = site.asked("lot", "L-3", shipped=(io.BytesIO(shipped), "<b>.csv"))
    site.worker().work(is_once=True)
    page = site.page(at)
    assert "&lt;script&gt;alert(1)&lt;/script&gt;: 1 board" in page and "<script>" not in page
    (site.folder / "a.pdf").write_bytes(site.get(at + papers.PDF).data)
    text = run(["pdftotext", site.folder / "a.pdf", "-"]).expect().out
    assert "<script>alert(1)</script>" in text
    with zipfile.ZipFile(io.BytesIO(site.get(at + papers.SHEET).data)) as book:
        parts = {name: book.read(name) for name in book.namelist()}
    assert b"=1+1" in parts["xl/sharedStrings.xml"]
    assert not [name for name, part in parts.items() if b"<f>" in part]


@pytest.mark.parametrize("text", [b"a,b\n1,2\n", b"\xff\xfe", b"board\n", b'"'])
def test_a_list_that_is_none_is_named(site: Site, text: bytes) -> None:
    at = site.asked("lot", "L-3", shipped=(io.BytesIO(text), "s.csv"))
    site.worker().work(is_once=True)
    page = site.page(at)
    assert "shipped.csv: it" in page and "It ended without an answer." in page


def test_a_list_that_is_too_large_is_refused(site: Site) -> None:
    most = importlib.import_module("tracedesk_ops.recallpage.app").MOST_BYTES
    told = site.ask("lot", "L-3", shipped=(io.BytesIO(bytes(most)), "s.csv"))
    assert told.status_code == 413 and "capacity limit" in told.get_data(as_text=True)
    assert not site.queue.all()


BAD = (
    ("lot", ""),
    ("lot", ","),
    ("lot", "x" * 65),
    ("lot", "a\nb"),
    ("board", "A, B"),
    ("part", "X"),
    ("where", "date=1"),
    ("hold lot", "L-3"),
)


@pytest.mark.parametrize(("kind", "names"), BAD)
def test_a_question_that_is_none_is_refused(site: Site, kind: str, names: str) -> None:
    told = site.ask(kind, names)
    assert told.status_code == 400 and 'id="refused"' in told.get_data(as_text=True)
    assert not site.queue.all()


def test_no_path_leads_out_of_the_queue(site: Site) -> None:
    at = site.asked("lot", "L-3")
    (site.folder / "secret").write_text("secret")
    names = (
        "../secret",
        "..%2f..%2fsecret",
        "ended.json",
        "said.txt",
        "evidence/boards.csv",
        "%00",
    )
    for target in (*(at + name for name in names), "/recall/../secret", "/recall/x/"):
        told = site.get(target)
        assert told.status_code in (404, 308) and b"secret" not in told.data, target


def test_a_queue_takes_no_more_than_it_can_work_off(site: Site) -> None:
    told = [site.ask("lot", f"L-{n}").status_code for n in range(60)]
    assert told == [303] * jobs.MOST_WAITING + [429] * (60 - jobs.MOST_WAITING)
    assert len(site.queue.waiting()) == jobs.MOST_WAITING


@pytest.mark.parametrize("end", [".json.0123.new", ".csv"])
def test_half_a_question_is_none(site: Site, end: str) -> None:
    """What a killed page left of a question is not in the queue."""
    (site.queue.folder / f"asked/20260302T060000.000000Z-00000000{end}").touch()
    assert not site.queue.all() and "<td>" not in site.page("/recall/")
