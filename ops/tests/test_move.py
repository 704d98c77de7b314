"""tracedesk-ops move between desks of random messages: the new desk reports the same of a reel as
the old one.

Of each seed random messages are fed to an old desk, and the set-up of the same floor to a new one,
whose clock is before or at the old one's, or which has accepted nothing. Each reel of the old desk
is then moved between served copies of both. Whether that is refused, and why, is worked out here
from the tables.

    /usr/bin/python3 -m pytest ops/tests/test_move.py -m whole -n 4
"""
from __future__ import annotations

import contextlib
import json
import pathlib
import urllib.parse
from collections.abc import Iterator
from typing import Any

import pytest

from lab.desk import Desk
from lab.floor import OLD_BOARDS, PARTS, Floor, say, texts
from lab.line import Line, table
from lab.messages import EPOCH, Message, part
from lab.tools import Ended, Word, call_tool, run_tool
from tracedesk_ops import catalogue
from tracedesk_ops.cmd import move

REELS = 6  # of a seed
MET = {  # what comes of the reels of the seeds in the gate, among others
    3: {"moved", "ReelMounted"},
    4: {"ClockAhead", "ReelMounted"},
}
LONG = [seed for seed in range(1, 101) if seed not in MET]
SEEDS = [*MET, *(pytest.param(seed, marks=pytest.mark.whole) for seed in LONG)]
LIMIT = {"2": 525_600, "2a": 40_320, "3": 10_080, "4": 4_320, "5": 2_880, "5a": 1_440}
# How far the new desk's clock is behind the old one's, and how far the move is ahead of both.
BEHIND = (None, -60, -1, 0, 0, 1, 90, 1_500, 4_000, 30_000, 600_000)
AHEAD = (0, 0, 45, 2_000, 45_000)
PAST = ("received", "placed", "scrapped")  # of a card: what each desk counts for itself


def accept(desk: Desk, messages: list[Message]) -> None:
    """Feeds messages that all have to be Accepted."""
    for message, answer in zip(messages, desk.feed(texts(messages)), strict=True):
        assert answer["Answer"] == "Accepted", f"{message} is answered {answer}"


def minute_of(desk: Desk) -> int | None:
    ((minute,),) = desk.rows("SELECT max(effective) FROM accepted")
    return None if minute is None else int(minute)


def card(desk: Desk, reel: str) -> str:
    return desk.report(f"/reel?{urllib.parse.urlencode({'reel': reel})}")


def card_now(desk: Desk, reel: str) -> list[dict[str, str]]:
    """The card of a reel without what is past."""
    return [
        {name: value for name, value in row.items() if name not in PAST}
        for row in table(card(desk, reel))
    ]


def label_of(desk: Desk, reel: str) -> list[Word]:
    rows = desk.rows("SELECT label FROM reel WHERE reel = ? AND level = '6'", reel)
    return ["--label-minutes", rows[0][0]] if rows else []


class Two:
    """Two desks, and copies of them."""

    def __init__(self, program: pathlib.Path, folder: pathlib.Path) -> None:
        self.program, self.folder = program, folder
        self.old, self.new = Desk(program, folder / "old"), Desk(program, folder / "new")

    def copy(self, desk: Desk, name: str) -> Desk:
        """A copy under another name, in the place of an earlier one."""
        made = Desk(self.program, self.folder / name)
        made.remove()
        made.copy_from(desk.file)
        return made

    @contextlib.contextmanager
    def moved(self, reel: str, at: int, *more: Word) -> Iterator[tuple[Desk, Desk, Ended]]:
        """The reel is moved between served copies of both, which are then stopped."""
        goes, arrived = self.copy(self.old, "goes"), self.copy(self.new, "there")
        words = [reel, "--at", catalogue.spelled(at), *label_of(self.old, reel), *more]
        for desk, option in ((goes, "--from"), (arrived, "--to")):
            desk.serve()
            words += [option, desk.url]
        try:
            done = call_tool("move", *words)
        finally:
            goes.end()
            arrived.end()
        yield goes, arrived, done


class Moving(Two):
    """The reels of a random floor."""

    def __init__(self, program: pathlib.Path, folder: pathlib.Path, seed: int) -> None:
        super().__init__(program, folder)
        self.floor = floor = Floor(seed)
        self.random = floor.random
        said = [*floor.set_up(), *floor.many(self.random.randrange(20, 300), "o", OLD_BOARDS)]
        self.old.feed(texts(said))
        behind = self.random.choice(BEHIND)
        there = [] if behind is None else [self.clock(behind)]
        if there and self.random.random() < 0.5:
            there += [
                say("PartDefined", f"part{n}", 0, PartNumber=it) for n, it in enumerate(PARTS)
            ]
        self.new.feed(texts(there))

    def clock(self, behind: int) -> Message:
        return say("ClockSet", "there", (minute_of(self.old) or 0) - behind)

    def reels(self) -> list[str]:
        reels = [reel for (reel,) in self.old.rows("SELECT reel FROM reel ORDER BY reel")]
        return self.random.sample(reels, min(REELS, len(reels)))

    def wanted(self, reel: str, now: int) -> str:
        """The name of the refusal of a move, or none."""
        columns = "level, label, remaining, used, open_since, baked"
        ((level, label, remaining, used, since, baked),) = self.old.rows(
            f"SELECT {columns} FROM reel WHERE reel = ?", reel
        )
        if not remaining:
            return "ReelEmpty"
        if self.old.rows("SELECT 1 FROM mount WHERE reel = ?", reel):
            return "ReelMounted"
        there = minute_of(self.new)
        out = used + (now - since if since >= 0 else 0)
        counts = level != "1" and (level != "6" or baked)
        out = min(out, label or LIMIT[level]) if counts else 0
        return "ClockAhead" if there is not None and now - out < there else ""

    def try_reel(self, reel: str) -> str:
        """Moves a reel, and compares; what came of it."""
        now = max(minute_of(self.old) or 0, minute_of(self.new) or 0) + self.random.choice(AHEAD)
        with self.moved(reel, now) as (goes, arrived, done):
            if refusal := self.wanted(reel, now):
                done.expect(1, f": {refusal}: ")
                assert (done.out, minute_of(arrived)) == ("", minute_of(self.new))
                return refusal
            done.expect()
            for answer in arrived.feed(texts(map(json.loads, done.out.splitlines()))):
                assert answer["Answer"] == "Accepted", "sent again it is answered otherwise"
            stays = self.copy(self.old, "stays")
            accept(stays, [say("ClockSet", "on", now)])
            assert card_now(arrived, reel) == card_now(stays, reel)
            assert minute_of(arrived) == now
            assert table(card(goes, reel))[0]["remaining"] == "0"
        return "moved"


@pytest.mark.parametrize("number", SEEDS)
def test_reels_of_a_random_floor(program: pathlib.Path, folder: pathlib.Path, number: int) -> None:
    moving = Moving(program, folder, number)
    came = {moving.try_reel(reel) for reel in moving.reels()}
    assert came >= MET.get(number, set())


# --- Each refusal by itself


def received(reel: str, level: str = "5a", **more: Any) -> Message:
    body = {"Reel": reel, "PartNumber": "P", "Lot": "L", "Level": level, "Quantity": 9, **more}
    return say("ReelReceived", f"r{reel}", 0, **body)


@pytest.fixture
def two(program: pathlib.Path, folder: pathlib.Path) -> Two:
    """An old desk at minute 1,000, and a new one at minute 970."""
    made = Two(program, folder)
    counts = [{"Reel": "gone", "Quantity": 0}]
    said = [
        say("PartDefined", "p", 0, PartNumber="P"),
        *map(received, ("fresh", "sealed", "gone")),
        received("unbaked", "6", LabelMinutes=60),
        say("ReelOpened", "o1", 100, Reel="sealed"),
        say("ReelSealed", "o2", 160, Reel="sealed"),
        say("ClockSet", "o7", 1_000),
    ]
    accept(made.old, said)
    said = [
        say("PartDefined", "p", 970, PartNumber="P"),
        received("gone"),
        say("CountsTaken", "c", 970, Counts=counts),
    ]
    accept(made.new, said)
    return made


@pytest.mark.parametrize(
    "words, at, status, text",
    [
        ("none", 1_000, 1, "UnknownReel: http"),
        ("gone", 1_000, 1, "ReelExists: http"),
        ("fresh --as gone", 1_000, 1, "with 0 pieces left"),
        ("sealed", 1_000, 1, "out for 60 minutes, so it has to begin at 1970-01-01T15:40:00Z"),
        ("sealed", 1_030, 0, "sealed,P,L,5a,9,0,0,9,1380,sealed"),
        ("unbaked", 1_000, 0, "unbaked,P,L,6,9,0,0,9,unbaked,sealed"),
        ("gone --as gone-b", 1_000, 0, "gone-b,P,L,5a,9,0,0,9,1440,sealed"),
        (f"fresh --as {'K' * 64}", 1_000, 0, "9,1440,sealed"),
    ],
)
def test_a_reel_is_refused_or_taken(two: Two, words: str, at: int, status: int, text: str) -> None:
    reel, *more = words.split()
    with two.moved(reel, at, *more) as (_, _, done):
        done.expect(status, text)


def test_a_reel_of_level_6_wants_the_minutes_of_its_label(two: Two) -> None:
    with two.moved("unbaked", 1_000, "--label-minutes", 0) as (goes, _, done):
        done.expect(1, "NoLabel")
        assert table(card(goes, "unbaked"))[0]["remaining"] == "9"


def test_a_new_desk_that_is_full_ends_with_what_is_to_be_sent(
    two: Two, monkeypatch: pytest.MonkeyPatch
) -> None:
    """As one that gives no answer any more."""
    whole = move.said

    def said(desk: Any, line: str, *known: str) -> Any:
        if "ReelReceived" in line:
            raise OSError("it has gone")
        return whole(desk, line, *known)

    monkeypatch.setattr(move, "said", said)
    with two.moved("fresh", 1_000) as (goes, arrived, done):
        done.expect(4, "send what was printed")
        assert table(card(goes, "fresh"))[0]["remaining"] == "0"
        accept(arrived, [json.loads(line) for line in done.out.splitlines()])
        assert card_now(arrived, "fresh") == card_now(two.old, "fresh")


def test_a_desk_that_gives_no_answer_changes_nothing(
    two: Two, monkeypatch: pytest.MonkeyPatch
) -> None:
    monkeypatch.setattr(move, "PATIENCE", 0.2)
    nobody = Desk(two.program, two.folder / "nobody").url
    done = call_tool("move", "fresh", "--from", nobody, "--to", two.new.url)
    assert (done.status, done.out) == (3, "")


@pytest.mark.parametrize("to", ["http://127.0.0.1:1", "L9", "ftp://x"])
def test_words_that_are_refused(to: str) -> None:
    done = run_tool("ops", "move", "K", "--from", "http://127.0.0.1:1", "--to", to).expect(2)
    assert not done.out and "Traceback" not in done.err


def test_a_held_reel_stays(line: Line, desk: Desk) -> None:
    """Also if its lot is held; once both are released it is moved."""
    line.say("MaterialsUnloaded", Machine="M", Slot="1")
    desk.feed([part("P")])
    desk.serve()
    words = ["K1", "--from", line.url, "--to", desk.url, "--at", EPOCH]
    for stock, name in (("reel", "K1"), ("lot", "L1")):
        line.note("holds", Hold=stock, Name=name)
        done = call_tool("move", *words)
        done.expect(1, "ReelHeld", f"{name} is held: release it there first")
        line.note("releases", Release=stock, Name=name)
    call_tool("move", *words).expect(0, "the new desk's card of it: K1,")
