"""The queue of the page, in two folders of /var/lib/tracedesk-recall:

    asked/NAME.json    what a reader asks, by whom and when; NAME.csv: the boards that were shipped
    answers/NAME       what came of it: said.txt meanwhile, the evidence, the papers, and at last
                       answer.html and ended.json

The page writes into the first alone, and the worker into the second alone. A question without
`ended.json` waits, in the order of the names, or is worked off. A kill loses none: the worker
answers it anew. To the worker a question is data, whoever put it there.
"""
from __future__ import annotations

import argparse
import contextlib
import dataclasses
import datetime
import json
import pathlib
import re
import secrets
from collections.abc import Iterable, Iterator, Sequence
from typing import Any

from tracedesk_ops import files, options
from tracedesk_ops.recalls import sets, words

NAME = re.compile(r"\d{8}T\d{6}\.\d{6}Z-[0-9a-f]{8}")
SAID, ANSWER, ENDED = "said.txt", "answer.html", "ended.json"
LONGEST = 1 << 16  # bytes of a question
MOST_BYTES = 16 << 20  # of a request of the page, with its list of shipped boards
MOST_WAITING, MOST_SHOWN = 50, 50
RECALLS = {  # what can be asked, in words
    "lot": "A lot, or several",
    "reel": "A reel, or several",
    "board": "A board: its pieces",
    "where": "An attribute, as date_code=2614",
}
HOLDS = {
    f"{verb} {what}": f"{verb.capitalize()} a {what}"
    for verb in ("hold", "release")
    for what in ("lot", "reel")
}
MOST_REASON = 1_000  # bytes, as docs/line.md has it


class Full(Exception):
    """Why no more questions are taken now."""


@dataclasses.dataclass(frozen=True)
class Asked:
    """What a reader asks, as it was typed. Names have a comma between two: lots, reels or a board,
    or attributes as `date_code=2614`. `badge` and `reason` are of a hold or a release.
    """

    kind: str
    names: str
    reader: str
    at: str
    part: str = ""
    within: str = ""
    badge: str = ""
    reason: str = ""

    @property
    def listed(self) -> list[str]:
        return [*filter(None, map(str.strip, self.names.split(",")))]

    @property
    def title(self) -> str:
        part = f" of part {self.part}" if self.part else ""
        return f"{self.kind} {self.names}{part}"

    def words(self, more: Sequence[str]) -> list[str]:
        """The words of tracedesk-recall, of which no name is an option."""
        part = [f"--part={self.part}"] if self.part else []
        within = [f"--within={self.within}"] if self.within else []
        return [self.kind, *part, *within, *more, "--", *self.listed]

    def check(self) -> None:
        """A ValueError says what is wrong with it."""
        if self.kind not in (*RECALLS, *HOLDS):
            raise ValueError("say what is recalled or held")
        if not self.listed or self.kind == "board" and len(self.listed) > 1:
            raise ValueError("give one name" if self.kind == "board" else "give a name")
        if self.kind in HOLDS and not (self.badge and self.reason):
            raise ValueError("scan your badge, and give the reason")
        if not self.reason.isprintable() or len(self.reason.encode()) > MOST_REASON:
            raise ValueError("the reason is too long, or has letters that can't be printed")
        try:
            for name in (*self.listed, *filter(None, (self.part, self.badge))):
                options.identifier(name)
            if self.within:
                words.pieces(self.within)
        except argparse.ArgumentTypeError as fault:
            raise ValueError(str(fault)) from fault
        if self.kind == "where":
            sets.terms_of(self.listed)


def asked_in(text: bytes) -> Asked:
    """The question of these bytes; a ValueError if they are none."""
    try:
        its = Asked(**json.loads(text))
    except (TypeError, RecursionError) as fault:
        raise ValueError(f"it is no question of the page: {fault!r:.200}") from fault
    if not all(isinstance(value, str) for value in dataclasses.astuple(its)):
        raise ValueError("a field of the question is no text")
    its.check()
    return its


@dataclasses.dataclass(frozen=True)
class Job:
    """A question in the queue, and what came of it."""

    queue: pathlib.Path
    name: str

    @property
    def folder(self) -> pathlib.Path:
        return self.queue / "answers" / self.name

    @property
    def asked(self) -> Asked:
        """The question; an OSError or a ValueError if there is none that can be read."""
        return asked_in(files.read_plain(self.queue / f"asked/{self.name}.json", LONGEST))

    @property
    def shipped(self) -> bytes:
        """The list of shipped boards; empty if there is none."""
        with contextlib.suppress(FileNotFoundError):
            return files.read_plain(self.queue / f"asked/{self.name}.csv", MOST_BYTES)
        return b""

    @property
    def ended(self) -> dict[str, Any] | None:
        """How it ended: its status and a sentence; None if it hasn't."""
        with contextlib.suppress(FileNotFoundError):
            return dict(json.loads((self.folder / ENDED).read_text(encoding="utf-8")))
        return None

    @property
    def is_begun(self) -> bool:
        return self.folder.is_dir()

    @property
    def is_old(self) -> bool:
        """Whether it was asked more than a day ago."""
        at = datetime.datetime.strptime(f"{self.name[:15]}Z", "%Y%m%dT%H%M%S%z")
        return datetime.datetime.now(datetime.timezone.utc) - at > datetime.timedelta(days=1)

    def end(self, status: int, headline: str, answer: str) -> None:
        """Gives the answer, and says how it ended."""
        self.folder.mkdir(exist_ok=True)
        files.put(self.folder / ANSWER, answer, 0o640)
        told = json.dumps({"status": status, "headline": headline})
        files.put(self.folder / ENDED, f"{told}\n", 0o640)


class Queue:
    """The questions in a folder."""

    def __init__(self, folder: pathlib.Path) -> None:
        self.folder = folder

    def all(self) -> list[Job]:
        """All of them, from the oldest on."""
        names = (path.stem for path in (self.folder / "asked").glob("*.json"))
        return [Job(self.folder, name) for name in sorted(filter(NAME.fullmatch, names))]

    def waiting(self) -> list[Job]:
        return [job for job in self.all() if not (job.folder / ENDED).exists()]

    def questions(self, jobs: Iterable[Job]) -> Iterator[tuple[Job, Asked]]:
        """These with their questions, without those whose question can't be read."""
        for job in jobs:
            with contextlib.suppress(OSError, ValueError):
                yield job, job.asked

    def job(self, name: str) -> Job | None:
        """That of this name, which may come from anybody."""
        its = (job for job in self.all() if job.name == name)
        return next((job for job, _ in self.questions(its)), None)

    def before(self, job: Job) -> int:
        """How many are worked off before it."""
        return sum(1 for other in self.waiting() if other.name < job.name)

    def add(self, asked: Asked, shipped: bytes = b"") -> Job:
        """Puts a question into the queue, whole or not at all."""
        if len(self.waiting()) >= MOST_WAITING:
            raise Full(f"{MOST_WAITING} questions wait already. Come again later.")
        now = datetime.datetime.now(datetime.timezone.utc)
        name = f"{now:%Y%m%dT%H%M%S.%fZ}-{secrets.token_hex(4)}"
        if shipped:
            (self.folder / f"asked/{name}.csv").write_bytes(shipped)
        text = json.dumps(dataclasses.asdict(asked))
        files.put(self.folder / f"asked/{name}.json", f"{text}\n", 0o640)
        return Job(self.folder, name)
