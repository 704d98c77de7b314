"""The pictures of docs/station.md: of five sizes of a screen, and in each language of the
package.
"""
import contextlib
import pathlib
import time

import pytest
from station_line import real_line, shown_tiles, view
from station_looks import SCREEN, set_up
from station_operator import Operator
from station_plant import LABEL, SHEET, asks, plant, type_label
from station_site import SETUP, Site, wait_for
from tracedesk_dev.trial import Difference, in_memory

SIZES = {"machines": (1280, 800), "tablet": (768, 1024), "phone": (360, 640)}
LANGUAGES = ("de", "es", "zh")
ESCAPE = "\ue00c"
MORE = (("K-11", "CAP", "3", 2500), ("K-12", "CAP", "5a", 1800), ("K-13", "RES", "1", 5000))
PLACES = {"CAP": "A3-07", "RES": "A1-12", "LED": "B2-01"}


def taken(it: Operator, into: pathlib.Path, name: str) -> None:
    """Takes a picture of the screen as it stands."""
    from selenium.common.exceptions import TimeoutException

    time.sleep(1.5)
    for _ in range(10):
        with contextlib.suppress(TimeoutException):  # of a machine that has much to do
            it.page.save_screenshot(str(into / f"station-{name}.png"))
            return
    raise Difference(f"no picture of {name}")


def more_reels(site: Site) -> None:
    for reel, part, level, pieces in MORE:
        body = {"Reel": reel, "PartNumber": part, "Lot": "L-11", "Level": level, "Quantity": pieces}
        site.say("ReelReceived", body, minutes_ago=3)


def three_boards(site: Site) -> None:
    """Three boards of M1, and one more that is in work."""
    names = [name for _, _, names in SHEET for name in names]
    for number in (1, 2, 3):
        at = {"Machine": "M1", "Board": f"SN-{number:04}"}
        site.say("WorkStarted", at)
        site.say("MaterialsInstalled", at | {"Designators": names})
        site.say("WorkCompleted", at)
    site.say("WorkStarted", {"Machine": "M1", "Board": "SN-2041"})


def screens(it: Operator, into: pathlib.Path) -> None:
    """Each screen, and both answers."""
    it.does("S/M2/1", "K-11")
    wait_for("the line has it", lambda: "M2 STOPPED: slot 2" in it.text("machines"))
    taken(it, into, "accepted")
    it.does("S/M2/3", "K-13", kind="refused")
    wait_for("the free reels", lambda: "K-12" in it.text("verdict"))
    taken(it, into, "refused")
    it.keys(ESCAPE)
    it.go("scan")
    it.scan("S/M1/1")
    taken(it, into, "scan")
    it.keys(ESCAPE)
    type_label(it, LABEL[0])
    it.scan("A/LEVEL-3")
    taken(it, into, "receive")
    it.go("changeover")
    wait_for("the pick list", lambda: it.script("return document.querySelector('.pick table')"))
    taken(it, into, "changeover")
    asks(it, "lot", "L-1", "2")
    taken(it, into, "trace")
    it.page.get(f"{it.site.url}/station/codes.html?station=W1")
    cards = "return document.querySelectorAll('.cards').length > 3"
    wait_for("the codes", lambda: it.script(cards))
    taken(it, into, "codes")


def in_languages(it: Operator, into: pathlib.Path) -> None:
    """The screen Line in each language but English."""
    view(it, *SIZES["machines"])
    for language in LANGUAGES:
        it.load(f"&lang={language}")
        it.ready()
        taken(it, into, f"line-{language}")


def logged_out(it: Operator, into: pathlib.Path) -> None:
    for name in ("senders", "readers"):
        (it.site.room / "etc" / name).write_text("")
    it.scan("A/OPEN", "K-7")
    asked = "return !document.getElementById('log-in').hidden"
    wait_for("the log-in is asked for", lambda: it.script(asked))
    it.keys(ESCAPE)
    taken(it, into, "log-in")


def test_pictures(program: pathlib.Path, browses: None, request: pytest.FixtureRequest) -> None:
    """Takes each picture, into --pictures FOLDER."""
    into: pathlib.Path = request.config.getoption("--pictures")
    into.mkdir(parents=True, exist_ok=True)
    with Site(str(program), in_memory()) as site:
        plant(site)
        more_reels(site)
        site.set_up({**SETUP, "places": PLACES})
        with Operator(site) as it:
            view(it, *SCREEN)
            set_up(it)
            three_boards(site)
            screens(it, into)
            it.load("&lang=en")
            it.ready().seen()
            for name, size in SIZES.items():
                view(it, *size)
                taken(it, into, name)
            in_languages(it, into)
            it.load("&lang=en")
            logged_out(it.ready(), into)
    with Site(str(program), in_memory()) as site:
        told = real_line(site)
        site.say("MaterialsUnloaded", {"Machine": told.machines[0], "Slot": "3"})
        first = told.machines[0]
        with Operator(site) as it:
            view(it, *SCREEN)
            it.ready()
            wait_for("the Line", lambda: len(shown_tiles(it)) > 2)
            wait_for("what to load", lambda: it.text("machines").count("load L1-") == 2)
            taken(it, into, "line")
            it.scan(f"S/{first}/3")
            wait_for("the slot is held", lambda: "is empty" in it.text("held"))
            taken(it, into, "held")
    print("\n".join(sorted(str(it) for it in into.glob("station-*.png"))))
