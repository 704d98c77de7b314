"""The boards of questions over random plants, in four ways: by tracedesk-chain, by SQL over the
files, by the page of recalls, and by PostgreSQL. An answer is complete exactly if all was there.

    /usr/bin/python3 -m pytest ops/tests/test_recall_ways.py -m whole -n 2 --seed 7
"""
from __future__ import annotations

import concurrent.futures
import csv
import dataclasses
import os
import pathlib
import random
import shutil
import tempfile
from typing import Iterator

import pytest
from lab import databases, messages, small
from lab.desk import rows_of_archive
from lab.line import Line
from lab.tools import Word, call_tool, run
from lab.world import ArchivedLine
from tracedesk_dev import postgres
from tracedesk_dev.trial import in_memory
from tracedesk_ops import entries, untraced
from tracedesk_ops.recallpage import view

PLANTS, BATCHES = 20, 50  # of a batch; one batch is in the gate
OTHERS = [pytest.param(number, marks=pytest.mark.whole) for number in range(1, BATCHES)]
AT_ONCE = 8  # plants, most of whose time is a wait
MOST_FILES, MOST_BOARDS = 4, 5
PIECES = 8  # of a reel, which is received with one more
PLACED = "SELECT DISTINCT board, reel FROM placement"
REELS = [*small.REELS]
LOTS = sorted({lot for _, lot in small.REELS.values()})
CODES = {"K-1": "2601", "K-2": "2602", "K-3": "2601", "K-4": "2603"}  # date codes of reels
MIRROR, FILE, DECISION, RESTORED = LACKS = (  # why an answer isn't complete
    "a mirror's time",
    "a sealed file",
    "a decision",
    "what a restore took off",
)


@dataclasses.dataclass(frozen=True)
class Asked:
    """A question: what tracedesk-recall is asked, and the reels that it means."""

    words: tuple[str, ...]
    reels: tuple[str, ...]

    @classmethod
    def random(cls, rng: random.Random) -> "Asked":
        kind = rng.choice(("reels", "lots", "a lot of a part", "a date code"))
        if kind == "a date code":
            code = rng.choice([*CODES.values()])
            reels = [reel for reel in REELS if CODES[reel] == code]
            return cls(("where", f"date_code={code}"), tuple(reels))
        if kind == "reels":
            reels = sorted(rng.sample(REELS, rng.randint(2, len(REELS))))
            return cls(("reel", *reels), tuple(reels))
        lots = sorted(rng.sample(LOTS, 1 if kind == "a lot of a part" else 2))
        part = rng.choice([*small.MACHINES]) if kind == "a lot of a part" else ""
        reels = [
            reel
            for reel, (its_part, lot) in small.REELS.items()
            if lot in lots and part in ("", its_part)
        ]
        return cls(("lot", *lots, *(("--part", part) if part else ())), tuple(reels))


class Chain:
    """A line with up to three archives, whose boards have pieces of random reels; it has the name
    of its folder. It may have been restored, have untraced work, and be asked by a mirror; `lacks`
    is why its answer isn't complete, if it isn't.
    """

    def __init__(self, program: pathlib.Path, folder: pathlib.Path, rng: random.Random) -> None:
        name = folder.name
        self.room, self.line = folder, ArchivedLine(program, folder / name, name)
        self.rng, self.lacks = rng, rng.choice(("", "", *LACKS))
        self.placed: set[tuple[str, str]] = set()
        self.left = dict.fromkeys(REELS, PIECES)
        self.begin()
        for part in range(rng.randint(1 + 2 * (self.lacks == FILE), MOST_FILES)):
            if part:
                self.line.archive_it()
            self.line.feed(self.work(part), statuses=(0,))
        if self.lacks == RESTORED or rng.random() < 0.2:
            self.restore()
        self.line.serve()
        self.has_untraced = self.lacks == DECISION or rng.random() < 0.5
        if self.has_untraced:
            self.refuse_work()
        assert self.line.seal().status in (0, 4)
        self.folder = self.line.folder
        if self.lacks == MIRROR or rng.random() < 0.3:
            self.mirror()
        if self.lacks == FILE:  # the first one has the date codes
            file = self.line.archived.pop(rng.randrange(1, len(self.line.archived)))
            for folder in {self.folder, self.line.folder}:
                (folder / "sealed" / file.name).unlink()

    def begin(self) -> None:
        """The line receives its reels, whose date codes are in its book then."""
        own = small.say("PartDefined", f"part-{self.line.name}", PartNumber=self.line.name)
        self.line.feed([own], statuses=(0,))
        Line.serve(self.line)
        self.line.accept(*small.set_up(CODES))
        self.line.end()

    def work(self, part: int) -> list[bytes]:
        """The messages of some boards, which are placed then."""
        lines: list[bytes] = []
        for number in range(self.rng.randint(part >= MOST_FILES, MOST_BOARDS)):
            reel = self.rng.choice([reel for reel in REELS if self.left[reel]])
            self.left[reel] -= 1
            board = self.half_made(reel) or f"{self.line.name}-{part}-{number}"
            lines += small.board(reel, board, uid=f"{board}-{reel}")
            self.placed.add((board, reel))
        return lines

    def restore(self) -> None:
        """Some boards are taken off by a restore; their messages are sent again, or not."""
        self.line.call(self.line.ops("seal")).expect()
        before = {*self.placed}
        lines = self.work(MOST_FILES)
        self.line.feed(lines, statuses=(0,))
        assert self.line.call(self.line.ops("restore")).status in (0, 4)
        if self.lacks == RESTORED:
            self.placed = before
        else:
            self.line.feed(lines, statuses=(0,))

    def refuse_work(self) -> None:
        """A report of work is refused, and its board was scrapped, or nobody has decided yet."""
        body = {"Machine": "M1", "Board": "X", "Designators": ["C1"]}
        (answer,) = self.line.post([small.say("MaterialsInstalled", "x", **body)])
        assert answer["Answer"] == "Refused"
        if self.lacks != DECISION:
            *_, newest = entries.told(self.line.get("/line/book?after=0")[1])[0]
            self.line.note("decisions", Of=newest.n, Became=untraced.SCRAPPED)

    def mirror(self) -> None:
        """The line's files without its desk."""
        self.folder = self.room / "mirror"
        parts = shutil.ignore_patterns("desk*", "last")
        shutil.copytree(self.line.folder, self.folder, ignore=parts)

    def words(self) -> list[Word]:
        """By which a recall asks it."""
        return ["--line", self.line.name, self.folder]

    def half_made(self, reel: str) -> str:
        """A board that has been on the other machine alone, at times, and perhaps in another
        file.
        """
        machine_of = {name: small.REELS[name][0] for name in REELS}
        been = {board: set[str]() for board, _ in self.placed}
        for board, its in self.placed:
            been[board].add(machine_of[its])
        half = sorted(board for board, machines in been.items() if machine_of[reel] not in machines)
        return self.rng.choice(half) if half and self.rng.random() < 0.5 else ""

    def files(self) -> list[pathlib.Path]:
        return [*self.line.archived, self.line.last]

    def by_chain(self, asked: Asked) -> set[str]:
        """tracedesk-chain over copies of the files, which it opens for writing."""
        if self.lacks == FILE:
            return self.by_sql(asked)
        listed = self.room / "listed.txt"
        listed.write_text("".join(f"{reel}\n" for reel in asked.reels))
        words: list[Word] = [*asked.words] if "--part" in asked.words else ["reels", listed]
        copies = [
            shutil.copy(file, self.room / f"file-{number}")
            for number, file in enumerate(self.files())
        ]
        chain = os.environ.get("CHAIN") or self.line.program.with_name("tracedesk-chain")
        done = run([chain, *words, *copies]).expect()
        return {row["board"] for row in csv.DictReader(done.out.splitlines())}

    def by_sql(self, asked: Asked) -> set[str]:
        rows = [row for file in self.files() for row in rows_of_archive(file, PLACED)]
        return {board for board, reel in rows if reel in asked.reels}


@pytest.fixture
def room() -> Iterator[pathlib.Path]:
    with tempfile.TemporaryDirectory(prefix="ways-", dir=in_memory()) as name:
        yield pathlib.Path(name)


def by_page(chains: list[Chain], asked: Asked) -> tuple[bool, set[str]]:
    """Whether the page says that the answer is complete, and the boards in its table."""
    evidence = chains[0].room / "evidence"
    words = [*asked.words, *(word for chain in chains for word in chain.words())]
    if not any(chain.lacks == MIRROR for chain in chains):
        words += ["--as-of", messages.MORNING]
    done = call_tool("recall", *words, "--evidence", evidence)
    if not asked.reels:
        return done.status == 1, set()
    assert done.status in (0, 3), done.said
    answer = view.answer_of(evidence)
    return answer.is_complete, {row[0] for row in answer.tables[0].rows}


def difference(chains: list[Chain], rng: random.Random) -> str:
    """What three ways say of a question over a plant's lines, if it isn't the same."""
    asked = Asked.random(rng)
    by_sql = {board for chain in chains for board in chain.by_sql(asked)}
    by_chain = {board for chain in chains for board in chain.by_chain(asked)}
    is_complete, boards = by_page(chains, asked)
    placed = {its for chain in chains if chain.lacks != FILE for its in chain.placed}
    wanted = {board for board, reel in placed if reel in asked.reels}
    lacks = [chain.lacks for chain in chains]
    if by_sql == by_chain == boards >= wanted and is_complete == (not any(lacks)):
        return "" if FILE in lacks or boards == wanted else f"{asked}: {boards}, and not {wanted}"
    return f"{asked}, {lacks}: {by_sql}, {by_chain}, {is_complete} {boards}, and not {wanted}"


@pytest.mark.parametrize("batch", [0, *OTHERS])
def test_the_boards_of_a_question_are_the_same_in_each_way(
    program: pathlib.Path, server: postgres.Server, room: pathlib.Path, seed: int, batch: int
) -> None:
    def made(number: int) -> tuple[list[Chain], str]:
        rng = random.Random(f"{seed} {batch} {number}")
        names = [f"L{number}", *[f"N{number}"] * (rng.random() < 0.3)]
        chains: list[Chain] = []
        try:
            chains += (Chain(program, room / name, rng) for name in names)
            return chains, difference(chains, rng)
        finally:
            for chain in chains:
                chain.line.end()

    with concurrent.futures.ThreadPoolExecutor(AT_ONCE) as pool:
        plants, texts = zip(*pool.map(made, range(PLANTS)))
    assert not [text for text in texts if text]
    database = databases.create(server, f"ways_{batch}")
    chains = [chain for plant in plants for chain in plant]
    whole = [chain for chain in chains if chain.lacks in ("", MIRROR)]
    database.load(*(chain.line.folder for chain in whole))
    wanted = {(chain.line.name, *placed) for chain in whole for placed in chain.placed}
    assert {*database.rows("SELECT line, board, reel FROM piece")} == wanted
    for reel in REELS:
        boards = {row["board"] for row in database.query("recall", reel=reel).rows}
        assert boards == {board for _, board, its in wanted if its == reel}
    for lacks in LACKS[1:]:
        for chain in [chain for chain in chains if chain.lacks == lacks][:1]:
            is_older = lacks == RESTORED and not chain.has_untraced  # than what was taken off
            database.load(chain.line.folder, status=int(lacks == FILE or is_older))
            database.query("recall", 3, reel=REELS[0])
            database.change(f"DELETE FROM line WHERE name = '{chain.line.name}'")
