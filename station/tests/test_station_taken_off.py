"""A refused load shows what was scanned and what is wanted; that its reel was taken off is asked
twice, and lets the machine go on.
"""
import json
import time
from typing import Any

import pytest
from station_operator import Operator
from station_plant import GUARD, book
from station_site import Site, wait_for
from tracedesk_dev.trial import Difference
from tracedesk_ops import doubts

pytestmark = pytest.mark.browser
PRESS = "document.querySelectorAll('#verdict .off button')[arguments[0]]?.click()"
OFF = "return document.querySelector('#verdict .off')?.innerText ?? ''"
# Presses all that is there in the first second of a red screen, whatever is drawn in it.
AT_ONCE = """window.pressed = 0;
let since = null;
new MutationObserver(() => {
  for (const it of document.querySelectorAll('#verdict.refused button')) {
    since ??= performance.now();
    if (performance.now() - since < 900) { window.pressed += 1; it.click(); }
  }
}).observe(document.getElementById('verdict'), { childList: true, subtree: true, attributes: true });"""
GAP = """const [off, seen] = ['.off button', '.close'].map((it) => document.querySelector(`#verdict ${it}`).getBoundingClientRect());
return Math.max(seen.top - off.bottom, off.top - seen.bottom)"""


def decided(site: Site) -> list[Any]:
    return [json.loads(it["told"]) for it in book(site) if it["kind"] == "decision"]


def wait_for_text(it: Operator, text: str) -> None:
    wait_for(text, lambda: text in it.script(OFF))


def press(it: Operator, number: int = 0) -> None:
    time.sleep(GUARD)
    it.script(PRESS, number)


def test_scanned_beside_wanted(site: Site) -> None:
    with Operator(site) as it:
        it.ready().does("S/M1/3", "K-2", kind="refused", holds=("WRONG PART",))
        sides = (
            "return [...document.querySelectorAll('#verdict .sides > div')].map((it) =>"
            " it.innerText.split(/\\s*\\n\\s*/))"
        )
        wanted = [["SCANNED", "RES", "reel K-2"], ["WANTED", "CAP", "slot 3"]]
        wait_for("both sides", lambda: it.script(sides) == wanted)
        if (gap := it.script(GAP)) < 100:
            raise Difference(f"TAKEN OFF is {gap} pixels from SEEN")


def test_a_touch_too_soon_is_none(site: Site) -> None:
    """A touch in the first second of a red screen takes nothing away and decides nothing."""
    with Operator(site) as it:
        it.ready().scan("B/anna")
        it.script(AT_ONCE)
        it.does("S/M1/3", "K-2", kind="refused")
        time.sleep(0.5)
        if it.script("return window.pressed") < 2 or "asked" in it.script(OFF):
            raise Difference(it.text("verdict"))
        it.verdict(("refused",))
        if decided(site) or "TAKEN OFF" not in it.script(OFF):
            raise Difference(it.script(OFF))


def causes(site: Site) -> list[dict[str, Any]]:
    told: dict[str, Any] = json.loads(site.asked("GET", "/line/state?machine=M1", "office")[2])
    return [it for it in told["Causes"] if it["Cause"] == "Open"]


def test_it_is_asked_twice_and_wants_a_badge(site: Site) -> None:
    """No sends nothing; then the entry is decided about, and the machine may go on."""
    with Operator(site) as it:
        it.ready().does("S/M1/3", "K-2", kind="refused")
        press(it)
        wait_for_text(it, "is the reel off")
        press(it, 1)
        wait_for_text(it, "TAKEN OFF")
        press(it)
        press(it)
        wait_for_text(it, "scan your badge")
        if len(causes(site)) != 1 or decided(site):
            raise Difference(f"{causes(site)}")
        it.scan("B/anna")
        press(it)
        press(it)
        wait_for_text(it, "Noted: the reel was taken off")
        (told,) = decided(site)
        if told["Became"] != doubts.TAKEN_OFF or "anna" not in told["By"] or causes(site):
            raise Difference(f"a decision: {told}, {causes(site)}")


def test_a_reel_is_taken_off_after_the_right_one_was_loaded(site: Site) -> None:
    """The entry isn't open any more, but recalls doubt what was placed until then."""
    with Operator(site) as it:
        it.ready().scan("B/anna")
        it.does("S/M1/3", "K-2", kind="refused")
        site.say("MaterialsLoaded", {"Machine": "M1", "Slot": "3", "Reel": "K-7"})
        wait_for("the entry is closed", lambda: not causes(site))
        press(it)
        press(it)
        wait_for_text(it, "Noted: the reel was taken off")
        if [one["of"] for one in book(site)] != ["0", "1"]:
            raise Difference(f"{book(site)}")


def test_a_line_that_is_away_is_said(site: Site) -> None:
    with Operator(site) as it:
        it.ready().scan("B/anna")
        it.does("S/M1/3", "K-2", kind="refused")
        site.kill_desk()
        press(it)
        press(it)
        wait_for_text(it, "NOT noted: no answer")
        site.start_desk()
        press(it)
        press(it)
        wait_for("it is noted", lambda: len(decided(site)) == 1)
