"""The idle clock: once a minute, if the machine's clock is in sync."""
import json
import pathlib
import random
import time
from typing import Iterator

import pytest
from lab.tools import Ended, Word, run_tool
from lab.watched import Watched, watched

pytestmark = [pytest.mark.needs("nginx", "openssl"), pytest.mark.xdist_group("clock")]


@pytest.fixture(scope="module")
def its(program: pathlib.Path) -> Iterator[Watched]:
    with watched(program) as made:
        yield made


def in_one_minute(its: Watched) -> tuple[str, Ended, int]:
    """The answer to a call, a second call within the same minute, and the first second of that."""
    for _ in range(20):
        minute = int(time.time()) // 60 * 60
        its.clock().expect()
        first, again = its.answer.read_text(), its.clock(answer="-").expect()
        if int(time.time()) // 60 * 60 == minute:
            return first, again, minute
    raise AssertionError("two calls never come within one minute")


def test_the_same_minute_acts_once(its: Watched) -> None:
    first, again, minute = in_one_minute(its)
    assert (json.loads(first)["Answer"], again.out) == ("Accepted", first)
    found = its.metrics()
    assert found["clock_timestamp_seconds"] == minute
    assert found["clock_commands"] == json.loads(first)["Number"]


@pytest.mark.parametrize(
    "synced",
    [
        "echo no",
        "echo",
        "true",
        "echo yes; false",
        "echo 'yes, it is'",
        "exit 3",
        "no-such-command",
    ],
)
def test_nothing_is_sent_by_a_clock_that_is_not_in_sync(its: Watched, synced: str) -> None:
    before = commands(its)
    its.clock(synced).expect(3, "not in sync")
    assert commands(its) == before + 1


def commands(its: Watched) -> int:
    """The number of a command that is sent now."""
    told = its.site.say("ClockSet", {}, 5000, uid=f"count-{random.random()}")
    return int(told["Number"])


def test_a_desk_that_is_down_is_given_up(its: Watched) -> None:
    with its.desk_is_down():
        its.clock(patience=2).expect(1, "given up")


def test_an_answer_that_cannot_be_kept_is_named(its: Watched) -> None:
    its.clock(answer=its.room / "nowhere/answer").expect(1, "the desk accepted it, and ")


@pytest.mark.parametrize(
    ("words", "status", "said"),
    [
        (["--help"], 0, "3 nothing was sent"),
        (["--patience", 0], 2, "takes some time"),
    ],
)
def test_words_of_the_clock(words: list[Word], status: int, said: str) -> None:
    done = run_tool("clock", *words).expect(status)
    assert said in " ".join(done.said.split())
