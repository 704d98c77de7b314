"""After a log-out the page itself asks for the log-in, and no scan is dropped without a word."""
import concurrent.futures
import contextlib
import random
import threading
import time
from typing import Iterator

import pytest
from station_commands import Command, Page, all_answered, done, taken
from station_operator import Operator
from station_plant import whole
from station_site import Site, wait_for
from tracedesk_dev.trial import Difference

pytestmark = pytest.mark.browser
LOG_IN = """const form = document.querySelector('#log-in form'), [user, password] = arguments;
form.elements.user.value = user; form.elements.password.value = password; form.requestSubmit();"""
IS_ASKED = "return !document.getElementById('log-in').hidden"
COMMANDS, ROUND = 1_000, 10  # of two tablets together, and of one between two looks


def log_out(site: Site) -> None:
    for name in ("senders", "readers"):
        (site.room / "etc" / name).write_text("")


def allow(site: Site) -> None:
    site.make_users()


@contextlib.contextmanager
def nobody_may(site: Site) -> Iterator[None]:
    log_out(site)
    try:
        yield
    finally:
        allow(site)


def test_the_log_in_is_asked_on_the_page(site: Site) -> None:
    """Keys reach the page meanwhile; a kept scan is sent after the log-in, and a reload asks
    nothing.
    """
    with Operator(site) as it:
        it.ready().agrees = False
        with nobody_may(site):
            it.scan("A/OPEN", "K-1")
            it.verdict(("asked",))
            wait_for("the log-in is asked for", lambda: it.script(IS_ASKED))
            it.does("A/OPEN", "K-2", kind="refused", holds=("NOT SENT", "Nobody is logged in"))
            it.seen()
        it.script(LOG_IN, "op", "not right")
        wait_for("it is not right", lambda: "not right" in it.text("log-in"))
        it.script(LOG_IN, "op", "op")
        wait_for("it is right", lambda: not it.script(IS_ASKED))
        it.ready().does("A/OPEN", "K-2", holds=("OPENED",))
        whole(site, it, 2)
        it.load()
        it.ready().does("A/SEAL", "K-2", holds=("SEALED",))


def test_a_log_in_that_may_only_read(site: Site) -> None:
    """A reader's screen offers a log-in, by which it may scan."""
    with Operator(site, user="office") as it:
        it.ready().agrees = False
        wait_for("it may only read", lambda: "may only read" in it.text("state"))
        it.script("document.querySelector('#state button').click()")
        it.script(LOG_IN, "op", "op")
        wait_for("it may send", lambda: "may only read" not in it.text("state"))
        it.does("A/OPEN", "K-1", holds=("OPENED",))


def a_round(it: Operator, dice: random.Random, page: Page) -> tuple[int, int]:
    """So many commands of a tablet: how many made a message, and how many were lost with a word."""
    commands = [Command(dice) for _ in range(ROUND)]
    made = [
        page.judged(command, told, False) for command, told in zip(commands, done(it, commands))
    ]
    it.seen()
    return sum(bool(one) for one in made), sum(not one for one in made)


def at_a_tablet(it: Operator, seed: int, count: int) -> tuple[int, int]:
    dice, page, sums = random.Random(seed), Page(), (0, 0)
    it.page.set_script_timeout(600)
    for _ in range(count // ROUND):
        made, lost = a_round(it, dice, page)
        sums = sums[0] + made, sums[1] + lost
    return sums


def goes_and_comes(site: Site, end: threading.Event, dice: random.Random) -> int:
    """Gives all log-ins back and takes them away, again and again; how often they were away."""
    times = 1
    while not end.wait(dice.uniform(1, 6)):
        allow(site)
        if not end.wait(dice.uniform(1, 8)):
            log_out(site)
            times += 1
    allow(site)
    return times


def commands_with_log_outs(site: Site, count: int, seed: int = 1) -> str:
    end = threading.Event()
    with contextlib.ExitStack() as tablets, concurrent.futures.ThreadPoolExecutor(3) as threads:
        operators = [tablets.enter_context(Operator(site, name=f"W{at}")) for at in (1, 2)]
        for it in operators:
            it.ready().agrees = False
        log_out(site)
        for it in operators:
            wait_for("the log-in is asked for", lambda: it.script(IS_ASKED))  # noqa: B023
        away = threads.submit(goes_and_comes, site, end, random.Random(seed))
        try:
            works = [
                threads.submit(at_a_tablet, it, seed + at, count // 2)
                for at, it in enumerate(operators)
            ]
            sums = [work.result() for work in works]
        finally:
            end.set()
        times, acted = away.result(), 0
        for it in operators:
            it.script(LOG_IN, "op", "op")
            acted += taken(site, it, list(all_answered(it)))
    made, lost = (sum(column) for column in zip(*sums))
    if made + lost != count or not lost:
        raise Difference(f"{made} made, {lost} lost with a word, of {count}; {times} log-outs")
    return (
        f"{count} commands at two tablets, {times} log-outs: {made} messages, {acted} accepted"
        f" once, {lost} losses said"
    )


def test_a_few_commands_with_log_outs(site: Site) -> None:
    print(commands_with_log_outs(site, 60))


@pytest.mark.whole
def test_commands_with_log_outs_at_two_tablets(site: Site) -> None:
    """1,000 random commands: each makes its message or its loss is said, and none is dropped
    without a word.
    """
    began = time.monotonic()
    print(commands_with_log_outs(site, COMMANDS), f"in {time.monotonic() - began:.0f} s")
