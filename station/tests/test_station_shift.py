"""A shift as a new operator works it, and what fails in the midst of it: the browser, the desk, a
second tab.
"""
import re

import pytest
from station_line import line_is_as_reported, report
from station_operator import Operator
from station_plant import LABEL, asks, type_label, whole
from station_site import SETUP, Site, wait_for
from tracedesk_dev.trial import Difference

pytestmark = pytest.mark.browser


def test_a_shift_from_the_printed_page(site: Site) -> None:
    """Load, refuse, splice, scrap, unload, open, seal, bake, count, receive by a label: as a new
    operator does it.
    """
    with Operator(site) as it:
        it.ready()
        it.scan("B/anna")
        it.does("S/M1/1", "K-1", holds=("ACCEPTED", "LOADED", "K-1", "slot 1", "7 d 0 h"))
        wait_for("the reel's own part", lambda: "CAP, lot L-1" in it.text("verdict"))
        line_is_as_reported(site, it)
        it.does(
            "S/M1/3",
            "K-2",
            kind="refused",
            holds=("REFUSED", "WRONG PART", "K-2", "Bring a reel of the right part"),
        )
        wait_for("the free reels", lambda: "Slot 3 wants CAP" in it.text("verdict"))
        free = re.findall(r"(K-\d): ", it.text("verdict"))
        if free != ["K-4", "K-3", "K-7"]:
            raise Difference(f"free reels, nearest their end first: {free}")
        it.does("S/M1/1", "K-3", holds=("SPLICED", "K-3"))
        it.does("S/M1/1", "A/SCRAP", "250", holds=("SCRAPPED", "250 pieces taken off"))
        line_is_as_reported(site, it)
        it.does("S/M1/1", "A/UNLOAD", holds=("UNLOADED", "slot 1"))
        it.does("K-5", "A/OPEN", holds=("OPENED", "K-5"))
        it.does("A/SEAL", "K-5", holds=("SEALED",))
        it.does("A/BAKE", "K-6", holds=("BAKED", "K-6"))
        it.does("K-6", "A/COUNT", "A/6", "A/9", "A/0", "A/ENTER", holds=("COUNTED", "690"))
        receives(it)
        it.does("S/M1/10", "R-900", holds=("LOADED", "no limit"))
        line_is_as_reported(site, it)
        scans = whole(site, it, 11)
        if {scan["source"] for scan in scans} != {"W1 anna"}:
            raise Difference(f"sources: {[scan['source'] for scan in scans]}")
        card = report(site, "/reel?reel=K-6")[0]
        if card["remaining"] != "690":
            raise Difference(f"card: {card}")
    print(f"{len(scans)} scans with answers, 1 of them refused; three times as `report` has it")


def receives(operator: Operator) -> None:
    """A supplier's label, as control characters and as a wedge's words; then the level, and
    Enter.
    """
    from selenium.webdriver.common.keys import Keys

    operator.seen()  # the fields are under a refusal
    for label in LABEL:
        type_label(operator, label)
        fields = operator.script(
            "return ['reel', 'part', 'lot', 'quantity'].map((it) =>"
            " document.getElementById(it).value)"
        )
        if fields != ["R-900", "LED", "LOT-77", "3000"]:
            raise Difference(f"{label!r} was read as {fields}")
    after = operator.turn()
    operator.keys(Keys.SPACE, Keys.ENTER)
    kind, text = operator.verdict(after=after)
    if kind != "accepted" or "RECEIVED" not in text:
        raise Difference(f"receive: {kind} {text}")


def test_a_kill_of_the_browser_in_mid_scan(site: Site) -> None:
    """Killed with a scan that the desk didn't read, with one that it took, and with three that
    never left.
    """
    with Operator(site) as it:
        it.ready()
        site.pause_desk()
        it.scan("A/OPEN", "K-1")
        wait_for("it is kept", lambda: len(it.scans()) == 1)
        it.kill()
        site.resume_desk()
        it.open()
        text = it.verdict()[1]
        if "which had no answer until now" not in text or "open K-1" not in text:
            raise Difference(f"after the first kill: {text}")
        site.stop_nginx()
        it.scan("A/OPEN", "K-2", "A/OPEN", "K-3", "A/UNLOAD", "S/M1/1")
        wait_for("they are kept", lambda: len(it.scans()) == 4)
        it.kill()
        site.start_nginx()
        it.open()
        wait_for("late answers", lambda: it.text("verdict").count("which had no answer") == 3)
        if it.verdict()[0] != "refused":
            raise Difference("a late refusal is not red")
        whole(site, it, 4)
    print(
        "4 scans over 2 kills of the browser: each acted once, and each answer was shown as one of"
        " before"
    )


def test_a_desk_that_is_stopped_for_a_copy(site: Site) -> None:
    """Reports are then the last ones, marked as old; a scan waits; and nothing is green."""
    with Operator(site) as it:
        it.ready()
        it.does("S/M1/1", "K-1")
        line_is_as_reported(site, it)
        site.kill_desk()
        wait_for("the page says that it is old", lambda: "OLD" in it.text("state"))
        rows, (status, headers, _) = it.rows(), wait_for(
            "an old answer",
            lambda: (got := site.asked("GET", "/station/desk/slots?machine=M1", "office"))[1].get(
                "X-Station-Cache"
            )
            == "STALE"
            and got,
        )
        if (
            rows[0][2] != "K-1"
            or status != 200
            or float(headers["X-Station-Now"]) <= float(headers["X-Desk-Answered"])
        ):
            raise Difference(f"while it is stopped: {rows[:1]}, {status} {headers}")
        it.scan("S/M1/1", "A/UNLOAD")
        it.verdict(("asked",))
        site.start_desk()
        it.verdict(("accepted",), 60)
        it.ready()
        whole(site, it, 2)
    print("the last answer with its age, a scan that waited, and both screens fresh again")


HOSTILE = [
    "<img src=x onerror=window.hacked=1>",
    '"><script>window.hacked=1</script>',
    "{slot}{reel}{at}",
    '=HYPERLINK("http://x")',
    "javascript:window.hacked=1",
    "${7*7}&amp;&#60;b&#62;",
]


def test_hostile_names(site: Site) -> None:
    """Names of parts, reels, lots, slots, boards, machines and products that are code elsewhere are
    texts here.
    """
    rows = [
        {"Slot": name, "PartNumber": name, "Designators": [f"C{at}"]}
        for at, name in enumerate(HOSTILE)
    ]
    machine = HOSTILE[0]
    for name in HOSTILE:
        site.say("PartDefined", {"PartNumber": name})
        site.say(
            "ReelReceived",
            {"Reel": name, "PartNumber": name, "Lot": name, "Level": "1", "Quantity": 9},
        )
    site.say("SheetDefined", {"Product": HOSTILE[1], "Machine": machine, "Rows": rows})
    site.say("ProductSelected", {"Machine": machine, "Product": HOSTILE[1]})
    site.set_up(
        {**SETUP, "title": HOSTILE[0], "machines": [{"machine": machine, "product": HOSTILE[1]}]}
    )
    with Operator(site, name="<b>W1</b>") as it:
        it.ready()
        for name in HOSTILE:
            it.does(f"S/{machine}/{name}", name, holds=("LOADED", name))
            it.does(f"S/{machine}/{name}", name, holds=("VERIFIED", name))
        site.say("WorkStarted", {"Machine": machine, "Board": HOSTILE[0]})
        site.say(
            "MaterialsInstalled", {"Machine": machine, "Board": HOSTILE[0], "Designators": ["C0"]}
        )
        it.go("line")
        wait_for("the Line has them", lambda: [row[2] for row in it.rows()] == HOSTILE)
        for question, name in (("lot", HOSTILE[0]), ("board", HOSTILE[0]), ("reel", HOSTILE[1])):
            asks(it, question, name, "4")
        it.go("scan")
        it.page.get(f"{site.url}/station/codes.html")
        wait_for(
            "codes", lambda: it.script("return document.querySelectorAll('figure').length > 20")
        )
        bad = it.script(
            "return [window.hacked ?? null, document.querySelectorAll('main img, main script, main"
            " b b').length]"
        )
        logs = [
            log["message"]
            for log in it.page.get_log("browser")
            if "Content Security" in log["message"] or "Trusted" in log["message"]
        ]
    if bad != [None, 0] or logs:
        raise Difference(f"{bad} {logs}")
    print(
        f"{len(HOSTILE)} names on five screens and the codes: none ran, none became an element, the"
        " policy had nothing to stop"
    )


def test_two_tabs_of_one_browser(site: Site) -> None:
    """One sends for both, and each shows the answer to its own scan."""
    with Operator(site) as it:
        it.ready()
        it.page.switch_to.new_window("tab")
        it.load()
        it.ready()
        first, second = it.page.window_handles
        it.does("A/OPEN", "K-1", holds=("open K-1",))
        it.page.switch_to.window(first)
        it.does("A/OPEN", "K-2", holds=("open K-2",))
        it.page.switch_to.window(second)
        if "K-2" in it.text("verdict"):
            raise Difference("the verdict of another tab is shown")
        whole(site, it, 2)
    print("2 scans of 2 tabs, each acted once and was shown where it was scanned")


@pytest.mark.gate
def test_one_accepted_one_refused_one_repeated(site: Site) -> None:
    """A load, a wrong part, and a scan whose desk is killed before it answers."""
    with Operator(site) as it:
        it.ready()
        it.does("S/M1/1", "K-1", holds=("LOADED", "K-1"))
        it.does("S/M1/2", "K-3", kind="refused", holds=("WRONG PART",))
        site.pause_desk()
        it.scan("A/OPEN", "K-2")
        it.verdict(("asked",))
        site.kill_desk()
        site.start_desk()
        it.verdict(("accepted",))
        line_is_as_reported(site, it)
        whole(site, it, 3)
    print("3 scans: accepted, refused, and once over a kill; the Line is as `report` has it")
