"""The papers of a recall for downloads: PDF, spreadsheet, the table of boards, and the evidence in
one file. If a library is missing, or a paper can't be made in its time, it is left out.
"""
from __future__ import annotations

import importlib
import multiprocessing
import os
import pathlib
import resource
import shutil
import signal
import sys
from collections.abc import Callable
from typing import Any

from tracedesk_ops import plant
from tracedesk_ops.recallpage import pages, view

PDF, SHEET, PACKED, BOARDS = "recall.pdf", "recall.xlsx", "evidence.zip", "boards.csv"
FILES = {PDF: "PDF", SHEET: "Spreadsheet", BOARDS: "CSV of the boards", PACKED: "Evidence"}
TABLES = ("boards", "pieces", "reels", "doubtful", "untraced")
MOST_CPU = 300  # seconds of the processor for the papers, whatever else the machine does
MOST_SECONDS = 3600
MOST_MEMORY = 2 << 30  # bytes
MOST_ROWS = 1_048_575  # of a sheet, without its header
PLAIN = {"strings_to_formulas": False, "strings_to_urls": False, "strings_to_numbers": False}

Maker = Callable[[pathlib.Path, view.ShownAnswer, str], None]


def in_folder(folder: pathlib.Path) -> dict[str, str]:
    """The papers that are there, with the texts of their links."""
    return {name: text for name, text in FILES.items() if (folder / name).exists()}


def make(evidence: pathlib.Path, answer: view.ShownAnswer) -> list[str]:
    """Makes the papers of a recall next to its evidence; what is said of those that lack."""
    folder = evidence.parent
    shutil.make_archive(str(folder / pathlib.Path(PACKED).stem), "zip", evidence)
    shutil.copy(evidence / BOARDS, folder / BOARDS)
    lacking = []
    for name, maker, package in MADE:
        made = folder / f"{name}.new"
        if apart(maker, evidence, answer, str(made)):
            lacking.append(
                f"There is no {FILES[name]}: the package {package} is missing on the desk's"
                " machine, or it took too much time or memory. The evidence has all of it."
            )
        else:
            os.rename(made, folder / name)
    return lacking


def apart(maker: Maker, *given: Any) -> int:
    """The status of a process that makes a paper, with limits of its own; 0 if it is made."""

    def make_it() -> None:
        plant.LIBC.prctl(plant.PR_SET_PDEATHSIG, signal.SIGKILL)
        resource.setrlimit(resource.RLIMIT_CPU, (MOST_CPU, MOST_CPU))
        resource.setrlimit(resource.RLIMIT_DATA, (MOST_MEMORY, MOST_MEMORY))
        try:
            maker(*given)
        except ImportError as fault:
            sys.exit(str(fault))

    its = multiprocessing.get_context("fork").Process(target=make_it, daemon=True)
    its.start()
    its.join(MOST_SECONDS)
    its.kill()
    its.join()
    return its.exitcode or 0


def nothing_from_elsewhere(url: str) -> Any:
    raise ValueError(f"a paper takes nothing from elsewhere: {url}")


def write_pdf(_: pathlib.Path, answer: view.ShownAnswer, to: str) -> None:
    weasyprint: Any = importlib.import_module("weasyprint")
    text = pages.paper(answer)
    weasyprint.HTML(string=text, url_fetcher=nothing_from_elsewhere).write_pdf(to)


def write_sheet(evidence: pathlib.Path, answer: view.ShownAnswer, to: str) -> None:
    """A sheet for each table. A name is text, whatever it begins with."""
    xlsxwriter: Any = importlib.import_module("xlsxwriter")
    with xlsxwriter.Workbook(to, PLAIN) as book:
        bold = book.add_format({"bold": True})
        about = book.add_worksheet("Answer")
        lines = [answer.headline, *answer.reasons, *answer.notes]
        for row, text in enumerate(lines):
            about.write_string(row, 0, text)
        for name in TABLES:
            sheet = book.add_worksheet(name.capitalize())
            for row, its in enumerate(view.rows_in(evidence, name)[:MOST_ROWS]):
                for column, (key, value) in enumerate(its.items()):
                    if not row:
                        sheet.write_string(0, column, view.title_for(key), bold)
                    if key in ("pieces", "remaining") and value.isdecimal():
                        sheet.write_number(row + 1, column, int(value))
                    else:
                        sheet.write_string(row + 1, column, view.spelled(value))
            sheet.freeze_panes(1, 0)


MADE = ((SHEET, write_sheet, "python3-xlsxwriter"), (PDF, write_pdf, "weasyprint"))
