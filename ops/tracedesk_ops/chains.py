"""The proved program over the files of a line, tracedesk-chain: for tracedesk-recall and
tracedesk-ops.

It opens each file as an audit does: for writing, with a log beside it. Nobody writes a sealed file,
so it gets copies, as the file's owner where root calls.

    chains.asked(chain, ["lot", "L-77", "--pieces"], paths, digits).rows

Each desk names the file from which it was begun, by its checksum. After a roll-over with an option
it doesn't carry that on as it was. Then the program is asked about the files before and behind this
link, which is known by the checksum alone.
"""
from __future__ import annotations

import contextlib
import csv
import dataclasses
import os
import pathlib
import re
import shutil
import subprocess
import tempfile
from collections.abc import Iterable, Iterator, Sequence
from typing import IO, Any

from tracedesk_ops import catalogue, plant, sealed
from tracedesk_ops.files import Room

# statuses of the program: no chain; the first file was begun from another
NO_CHAIN, BEGUN = (1, 5)
OPTION = re.compile(
    ": differs (minute|slot|board .* in work old)"
)  # what --at and --with-board-in-work make, and made --no-loads of 1.0.0
FILE = re.compile(
    r"[^:]*: .*: \d+ commands, last minute (?:\d+|none)(?:, begun from (.*))?; \d+ to go"
)
CHECKED, PIECES = (
    "file,begun,commands,minute",
    "board,designator,part,lot,reel,machine,slot,overdue,minute,file",
)


@dataclasses.dataclass(frozen=True)
class Answer:
    """What the program answered: the rows by their columns, `file` being the place of a row's file;
    of each file the mark of the one it was begun from, or an empty one; and links that are known by
    the checksum alone.
    """

    rows: list[dict[str, Any]]
    marks: list[str]
    options: list[str]


NOTHING = Answer([], [], [])


class NoAnswer(Exception):
    """Why there is none, with the status of the program, and the marks of the files before."""

    def __init__(self, why: str, status: int | None = None, marks: Sequence[str] = ()) -> None:
        super().__init__(why)
        self.status, self.marks = status, marks


Files = Sequence[pathlib.Path]
Digits = Sequence[str]  # of files, by which marks name them


def found(program: str) -> str:
    """tracedesk-chain, which is next to the program; a NoAnswer if there is none."""
    if chain := plant.chain_of(program):
        return chain
    raise NoAnswer("there is no tracedesk-chain next to tracedesk: CHAIN names it")


class Asker:
    """The program, and the words by which it is asked a question."""

    def __init__(self, program: str, question: Iterable[str]) -> None:
        self.program, self.words = program, [*question, "--pieces"]

    def ask(self, files: Files, digits: Digits, is_middle: bool = False) -> Answer:
        """What it answers about files, from the oldest on; a NoAnswer or a Fault where it has no
        answer.
        """
        return asked(found(self.program), self.words, files, digits, is_middle)


def asked(
    chain: str,
    words: list[str],
    files: Files,
    digits: Digits,
    is_middle: bool = False,
) -> Answer:
    """What the program answers to these words about files, from the oldest on, that have these
    digits; the last may have none. A NoAnswer if there is none, a Fault if a file changes
    meanwhile. With `is_middle` the first file may have been begun from another, which isn't named.
    """
    middle = ["--from-middle"] * is_middle
    runs: list[tuple[int, Answer]] = []
    options: list[str] = []
    first, last = 0, len(files)
    while first < len(files):
        try:
            runs.append((first, asked_of(chain, [*words, *middle], files[first:last])))
            first, last, middle = last, len(files), ["--from-middle"]
        except NoAnswer as fault:
            if (
                fault.status == BEGUN and not middle and not sealed.begun_in(files[0])
            ):  # a sender's UniqueIDs begin as those of a beginning do
                middle = ["--from-middle"]
                continue
            last = first + len(fault.marks) - 1
            if (
                fault.status != NO_CHAIN
                or not OPTION.search(str(fault))
                or last <= first
                or fault.marks[-1] != digits[last - 1]
            ):
                raise
            options.append(str(fault))
    marks = [mark for _, its in runs for mark in its.marks]
    want_links(files, digits, marks)
    rows = [{**row, "file": first + row["file"]} for first, its in runs for row in its.rows]
    return Answer(rows, marks, options)


def want_links(files: Files, digits: Digits, marks: Sequence[str]) -> None:
    """A NoAnswer if a file doesn't name the one before it."""
    for before, named, file, mark in zip(files, digits, files[1:], marks[1:]):
        if mark != named:
            raise NoAnswer(
                f"{file.name} doesn't say that it was begun from {before.name}", NO_CHAIN
            )


def asked_of(chain: str, words: list[str], files: Files) -> Answer:
    """The same of files without such links."""
    with copies_of(chain, files) as (run, copies):
        return said_of(run, words, copies)


def printed(chain: str, words: list[str], file: pathlib.Path, out: IO[bytes]) -> None:
    """Has the program print what it answers about one file, from the beginning of `out` on."""
    with copies_of(chain, [file]) as (run, copies):
        run_to(out, run, words, copies)
    out.seek(0)


@contextlib.contextmanager
def copies_of(chain: str, files: Files) -> Iterator[tuple[plant.Program, Files]]:
    """The program, and copies of files that it may open; a Fault if a file changes meanwhile."""
    run = plant.Program(chain, files[0])
    before = [*map(catalogue.state_of, files)]
    with Room() as room:
        what = "copies of the files: TMPDIR names another folder"
        plant.want_room(room, sum(os.stat(it).st_size for it in files), what)
        run.give(room)
        yield run, [copied(run, it, pathlib.Path(room, str(n))) for n, it in enumerate(files, 1)]
    if changed := [it for it, then in zip(files, before) if catalogue.state_of(it) != then]:
        raise plant.Fault(f"{changed[0]}: it was changed while it was asked: ask again")


def run_to(out: IO[Any], run: plant.Program, words: list[str], files: Files) -> list[str]:
    """Runs the program, which prints into an open file; the marks of the copies."""
    marks: list[str] = []
    errors: list[str] = []
    folders = re.compile("|".join(sorted({f"{re.escape(str(it.parent))}/" for it in files})))
    done = subprocess.run(
        [*plant.LOW, run.program, *words, *files],
        stdin=subprocess.DEVNULL,
        stdout=out,
        stderr=subprocess.PIPE,
        **plant.TEXT,
        **run.how,
    )
    said: list[str] = done.stderr.split("\n")
    for line in filter(None, said):
        if found := FILE.fullmatch(line.strip()):
            marks.append(found[1] or "")
        else:
            errors.append(folders.sub("", line.strip().partition(": ")[2]))
    if status := done.returncode:
        raise NoAnswer("; ".join(errors) or f"it ended with status {status}", status, marks)
    return marks


def said_of(run: plant.Program, words: list[str], files: Files) -> Answer:
    """The answer about copies of files."""
    with tempfile.TemporaryFile("w+", newline="", **plant.TEXT) as out:
        marks = run_to(out, run, words, files)
        out.seek(0)
        header, *rows = [*csv.reader(out)] or [[]]
    if ",".join(header) != (CHECKED if words[0] == "check" else PIECES) or len(marks) != len(files):
        raise NoAnswer(
            f"it answers {words[0]} with {','.join(header)} about {len(marks)} of"
            f" {len(files)} files: it is another version"
        )
    place = {str(it): number for number, it in enumerate(files)}
    at = header.index("file")
    return Answer([{**dict(zip(header, row)), "file": place[row[at]]} for row in rows], marks, [])


def copied(run: plant.Program, file: pathlib.Path, folder: pathlib.Path) -> pathlib.Path:
    folder.mkdir()
    to = folder / file.name
    shutil.copyfile(file, to)
    run.give(folder)
    run.give(to)
    return to
