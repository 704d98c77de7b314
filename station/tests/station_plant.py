"""A plant in small, and what somebody at a station does again and again."""
import collections
import contextlib
import csv
import datetime
import io
import json
import sqlite3
from typing import Any, Sequence

from station_operator import Operator, chain_of
from station_line import line_is_as_reported
from station_site import SETUP, Site, wait_for
from tracedesk_dev.trial import Difference

SHEET = [
    ("1", "CAP", ["C1", "C2"]),
    ("2", "RES", ["R1"]),
    ("10", "LED", ["D1", "D2", "D3"]),
    ("3", "CAP", ["C3"]),
]
REELS = [
    ("K-1", "CAP", "L-1", "3", 4000),
    ("K-2", "RES", "L-2", "1", 5000),
    ("K-3", "CAP", "L-3", "3", 300),
    ("K-4", "ALT", "L-4", "5a", 900),
    ("K-5", "LED", "L-5", "2a", 40),
    ("K-6", "LED", "L-6", "6", 700),
    ("K-7", "CAP", "L-7", "1", 1),
    ("K-8", "LED", "L-8", "4", 2000),
]
LEVEL_SIX = 2880
DAY_AND_AN_HOUR = 1500  # minutes: a reel of level 5a, which has 1,440, is expired then
# of a long line; of the page's processor time, from a scan to its verdict and after it
MACHINES, SLOTS, SECONDS = (12, 120, 0.3)
GUARD = 1.3  # seconds: a red screen takes no touch before
CLOCKS = """window.asleep = 0; window.later = 0;
const steady = performance.now.bind(performance), wall = Date.now.bind(Date);
performance.now = () => steady() - window.asleep; Date.now = () => wall() + window.later;"""


def plant(site: Site, selected: Sequence[str] = ("M1", "M2")) -> None:
    """Parts, an alternate, a sheet for two machines, and reels."""
    for part in ("CAP", "RES", "LED", "ALT"):
        site.say("PartDefined", {"PartNumber": part}, minutes_ago=5)
    site.say("AlternateAllowed", {"PartNumber": "CAP", "Alternate": "ALT"}, minutes_ago=5)
    for machine in ("M1", "M2"):
        site.say(
            "SheetDefined",
            {
                "Product": "CTRL-A",
                "Machine": machine,
                "Rows": [
                    {"Slot": slot, "PartNumber": part, "Designators": names}
                    for slot, part, names in SHEET
                ],
            },
            minutes_ago=5,
        )
    for machine in selected:
        site.say("ProductSelected", {"Machine": machine, "Product": "CTRL-A"}, minutes_ago=5)
    for reel, part, lot, level, quantity in REELS:
        label = {"LabelMinutes": LEVEL_SIX} if level == "6" else {}
        site.say(
            "ReelReceived",
            {
                "Reel": reel,
                "PartNumber": part,
                "Lot": lot,
                "Level": level,
                **label,
                "Quantity": quantity,
            },
            minutes_ago=5,
        )


def accepted(site: Site) -> collections.Counter[str]:
    """How often each UniqueID is in the desk's file, and the messages' sources."""
    site.report("/overdue")
    with contextlib.closing(sqlite3.connect(site.room / "copy")) as database:
        return collections.Counter(uid for (uid,) in database.execute("SELECT uid FROM accepted"))


def whole(site: Site, operator: Operator, count: int) -> Any:
    """Looks whether all of a station's scans are answered, and each accepted one is in the desk's
    file once.
    """
    scans = wait_for(
        "all scans are answered",
        lambda: (it := operator.scans()) and all(scan["state"] == "answered" for scan in it) and it,
    )
    kept, uids = accepted(site), [it["uid"] for it in scans]
    wrong = [
        it["uid"]
        for it in scans
        if kept[it["uid"]] != (1 if it["answer"]["Answer"] == "Accepted" else 0)
    ]
    if (
        wrong
        or len(scans) != count
        or len(set(uids)) != count
        or any(it > 1 for it in kept.values())
    ):
        raise Difference(
            f"of {count} scans there are {len(scans)}, and wrong in the desk's file are {wrong}"
        )
    return scans


LABEL = [
    "[)>\x1e06\x1dPLED\x1d1PLED-SUPPLIER\x1dQ3000\x1d1TLOT-77\x1dSR-900\x1e\x04",
    "[)>{RS}06{GS}PLED{GS}Q3000{GS}1TLOT-77{GS}SR-900{RS}{EOT}",
]


def type_label(operator: Operator, label: str) -> None:
    """A label as a wedge types it: separators as Ctrl and a letter."""
    from selenium.webdriver.common.keys import Keys

    chain, keys = chain_of(operator.page), {"\x1d": "]", "\x1e": "6", "\x04": "d"}
    for letter in label:
        if letter in keys:
            chain.key_down(Keys.CONTROL).send_keys(keys[letter]).key_up(Keys.CONTROL)
        else:
            chain.send_keys(letter)
    chain.send_keys(Keys.ENTER).perform()


def asks(operator: Operator, question: str, name: str, detail: str = "1") -> Any:
    """Asks a question of the screen Trace, and gives the rows that it shows."""
    operator.go("trace")
    operator.script(
        """const form = document.querySelector('form.trace').elements; form.question.value = arguments[0]; form.name.value = arguments[1]; form.detail.value = arguments[2];
                       document.querySelector('.result').replaceChildren(); document.querySelector('form.trace button[type=submit]').click()""",
        question,
        name,
        detail,
    )
    wait_for(
        "an answer",
        lambda: operator.script(
            "return document.querySelector('.result table') !== null ||"
            " !document.querySelector('form.trace .note').hidden"
        ),
    )
    return operator.rows()


SIZES = [(800, 480), (1024, 600), (1280, 800), (1920, 1080), (800, 1280)]
DISK = """window.stores = []; window.failing = { put: 0, add: 0 };
const open = IDBFactory.prototype.open;
IDBFactory.prototype.open = function (...how) { const it = open.apply(this, how); it.addEventListener('success', () => window.stores.push(it.result)); return it; };
for (const name of ['put', 'add']) {
  const done = IDBObjectStore.prototype[name];
  IDBObjectStore.prototype[name] = function (...what) {
    if (window.failing[name] > 0 && this.name === 'scans') { window.failing[name] -= 1; this.transaction.abort(); throw new DOMException('a disk that fails', 'UnknownError'); }
    return done.apply(this, what);
  };
}"""


def opened(site: Site, before: str, name: str = "W1") -> Operator:
    it = Operator(site, name=name, begin=False)
    it.open(before=before)
    return it


def touch(it: Operator, selector: str) -> None:
    """Touches the middle of an element, once as a mouse does."""
    from selenium.webdriver.common.by import By

    chain_of(it.page).move_to_element(
        it.page.find_element(By.CSS_SELECTOR, selector)
    ).click().perform()


def refused(it: Operator, *codes: str) -> Any:
    return it.does(*codes, kind="refused")


def count_is(it: Operator, count: int, what: str) -> None:
    if (got := len(it.scans())) != count:
        raise Difference(f"{what}: {got} messages were made, and not {count}")


def long_line(site: Site) -> Any:
    """Twelve machines with 120 slots each, most of them loaded."""
    lines: list[bytes] = []

    def say(word: str, body: Any) -> None:
        at = datetime.datetime.now(datetime.timezone.utc) - datetime.timedelta(minutes=5)
        lines.append(
            json.dumps(
                {
                    "MessageName": f"TraceDesk.{word}",
                    "UniqueID": f"f{len(lines)}",
                    "Source": "host",
                    "TimeStamp": at.strftime("%Y-%m-%dT%H:%M:%SZ"),
                    "MessageBody": body,
                }
            ).encode()
        )

    for number in range(60):
        say("PartDefined", {"PartNumber": f"RES-0402-{number:03}"})
    machines = [f"SIPLACE-{number + 1}" for number in range(MACHINES)]
    for at, machine in enumerate(machines):
        slots = [
            (f"{number // 60 + 1}-{number % 60 + 1}", f"RES-0402-{number % 60:03}")
            for number in range(SLOTS)
        ]
        say(
            "SheetDefined",
            {
                "Product": "LONG",
                "Machine": machine,
                "Rows": [
                    {"Slot": slot, "PartNumber": part, "Designators": [f"R{number}"]}
                    for number, (slot, part) in enumerate(slots)
                ],
            },
        )
        say("ProductSelected", {"Machine": machine, "Product": "LONG"})
        for index, (slot, part) in enumerate(slots):
            say(
                "ReelReceived",
                {
                    "Reel": f"R{at:02}{index:03}",
                    "PartNumber": part,
                    "Lot": "L",
                    "Level": "3",
                    "Quantity": 20 if index % 40 == at else 5000,
                },
            )
            if index % 30 != 7 or at % 2:
                say(
                    "MaterialsLoaded",
                    {"Machine": machine, "Slot": slot, "Reel": f"R{at:02}{index:03}"},
                )
    site.kill_desk()
    site.feed(lines)
    site.start_desk()
    site.set_up(
        {**SETUP, "machines": [{"machine": machine, "product": "LONG"} for machine in machines]}
    )
    return machines


def all_states(site: Site) -> None:
    """Slots in every state, by messages of the host alone; the desk's clock is a day and an hour
    ahead then.
    """
    say = site.say
    for reel, part, level in (("K-9", "ALT", "5a"), ("K-10", "ALT", "5a")):
        say(
            "ReelReceived",
            {"Reel": reel, "PartNumber": part, "Lot": "L-9", "Level": level, "Quantity": 500},
        )
    say(
        "SheetDefined",
        {
            "Product": "CTRL-B",
            "Machine": "M2",
            "Rows": [{"Slot": "20", "PartNumber": "ALT", "Designators": ["C9"]}],
        },
    )
    say("ProductSelected", {"Machine": "M2", "Product": "CTRL-B"})
    say("MaterialsLoaded", {"Machine": "M2", "Slot": "20", "Reel": "K-10"})
    say("ProductSelected", {"Machine": "M2", "Product": "CTRL-A"})
    say("ReelBaked", {"Reel": "K-6"})
    for machine, slot, reel, word in (
        ("M1", "1", "K-1", "Loaded"),
        ("M1", "1", "K-9", "Spliced"),
        ("M1", "2", "K-2", "Loaded"),
        ("M1", "10", "K-5", "Loaded"),
        ("M1", "3", "K-4", "Loaded"),
        ("M2", "1", "K-7", "Loaded"),
        ("M2", "10", "K-6", "Loaded"),
        ("M2", "3", "K-3", "Loaded"),
    ):
        if (
            say(f"Materials{word}", {"Machine": machine, "Slot": slot, "Reel": reel})["Answer"]
            != "Accepted"
        ):
            raise Difference(f"{reel} was not taken at {slot} of {machine}")
    say("WorkStarted", {"Machine": "M1", "Board": "SN-1"})
    say("ClockSet", {}, minutes_ago=-DAY_AND_AN_HOUR)
    say(
        "MaterialsInstalled",
        {"Machine": "M1", "Board": "SN-1", "Designators": ["C3"]},
        minutes_ago=-DAY_AND_AN_HOUR,
    )


def letters(it: Operator, *classes: Any) -> Any:
    """The sizes of the letters of a verdict's parts, in pixels."""
    return [
        it.script(
            (
                "return parseFloat(getComputedStyle(document.querySelector(`#verdict"
                " .${arguments[0]}`)).fontSize)"
            ),
            name,
        )
        for name in classes
    ]


def agrees(operator: Operator) -> None:
    """The Line of each machine as `report` has it, at the end of what an operator does: where the
    desk runs, has the sheets, and the page is the station.
    """
    site = operator.site
    if (
        site.desk
        and site.nginx
        and site.setup == SETUP
        and operator.agrees
        and operator.script(
            "return location.pathname === '/station/' &&"
            " document.getElementById('screens').children.length > 0"
        )
    ):
        for machine in ("M1", "M2"):
            if site.report(f"/kit?product=CTRL-A&machine={machine}&boards=1").startswith("slot,"):
                line_is_as_reported(site, operator, machine)
                site.agreed += 1


def book(site: Site) -> list[dict[str, str]]:
    """The entries of the line's book."""
    text = site.asked("GET", "/line/book?after=0", "office")[2]
    return list(csv.DictReader(io.StringIO(str(text), newline="")))
