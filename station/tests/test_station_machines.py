"""A line of text for each machine on all screens."""
import pytest
from station_line import view
from station_operator import Operator
from station_plant import SHEET
from station_site import Site, settles, wait_for
from tracedesk_dev.trial import Difference

pytestmark = pytest.mark.browser
SCREENS = ("line", "scan", "receive", "changeover", "trace")
SHOWN = "return [...document.querySelectorAll('#machines li')].map((it) => it.textContent)"
ROOM = """const it = document.getElementById('machines'), box = it.getBoundingClientRect();
return [it.scrollHeight - it.clientHeight, box.bottom <= innerHeight && box.height > 0, parseFloat(getComputedStyle(it.firstChild).fontSize)]"""


def small(room: tuple[float, bool, float], least: int) -> str:
    """What is wrong with the machines' lines, if something is."""
    beyond, is_seen, letters = room
    is_right = beyond <= 0 and is_seen and letters >= least
    return "" if is_right else f"{beyond} below, seen {is_seen}, letters of {letters}"


def shows(it: Operator, *lines: str) -> None:
    wait_for(f"{lines}", lambda: it.script(SHOWN) == list(lines))


def furnished(site: Site) -> None:
    """Reels on M2, which may work on a board; M1 has slot 3 empty, with K-4 for it."""
    for machine in ("M1", "M2"):
        for slot, part, _ in SHEET:
            if (machine, slot) != ("M1", "3"):
                reel = f"{machine}-{slot}"
                body = {"Reel": reel, "PartNumber": part, "Lot": "L", "Level": "1", "Quantity": 99}
                site.say("ReelReceived", body)
                site.say("MaterialsLoaded", {"Machine": machine, "Slot": slot, "Reel": reel})
    site.say("WorkStarted", {"Machine": "M2", "Board": "SN-2041"})


def test_each_machine_on_all_screens(site: Site) -> None:
    """Why it may not work and what to load, what it runs, and since when that is not known; on each
    screen and over a verdict. A decision lets it go on at once.
    """
    furnished(site)
    with Operator(site) as it:
        it.ready()
        wait_for("its slot says so", lambda: "STOPS: LOAD K-" in it.text("main"))
        for screen in SCREENS:
            it.go(screen)
            wait_for("both", lambda: "M2 runs SN-2041" in it.script(SHOWN))
            (stopped, _) = it.script(SHOWN)
            if not stopped.startswith("M1 STOPPED: slot 3 is empty: load K-"):
                raise Difference(stopped)
        for width, height, least in ((1920, 1080, 50), (1280, 800, 36), (360, 640, 18)):
            view(it, width, height)
            settles(f"{width} by {height}", lambda: small(it.script(ROOM), least))  # noqa: B023
        view(it, 1280, 800)
        it.does("S/M2/1", "K-2", kind="refused")
        wait_for("a stop", lambda: "M2 STOPPED: slot 1: WRONG PART" in "".join(it.script(SHOWN)))
        it.seen()
        site.kill_desk()
        wait_for("it is old", lambda: "not known since" in "".join(it.script(SHOWN)))
