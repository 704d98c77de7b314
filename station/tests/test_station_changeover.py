"""Changeover: which reels to bring, over all machines."""
import json
import time
from typing import Any

import pytest
from station_line import report
from station_operator import Operator
from station_plant import GUARD, whole
from station_site import Site, wait_for
from tracedesk_dev.trial import Difference

pytestmark = pytest.mark.browser


def test_a_changeover_counts_what_is_mounted(site: Site) -> None:
    """A product is selected; the kit says what is on the slots, what to bring, and what neither
    has.
    """
    for slot, reel in (("2", "K-2"), ("3", "K-4")):
        site.say("MaterialsLoaded", {"Machine": "M1", "Slot": slot, "Reel": reel})
    with Operator(site) as it:
        it.ready().go("changeover")
        it.script(
            "const form = document.querySelector('form.changeover'); form.elements.boards.value ="
            " '1000'; form.querySelectorAll('button')[0].click()"
        )
        wait_for(
            "the kits",
            lambda: it.script("return document.querySelectorAll('#main table').length") == 2,
        )
        rows = {row[0]: row[2:4] + row[5:] for row in it.rows()}
        wanted = {
            "1": ["2,000", "0", ""],
            "2": ["1,000", "5,000", ""],
            "10": ["3,000", "0", "960"],
            "3": ["1,000", "0, and 900 of ALT", "700, if ALT is not allowed"],
        }  # K-1 is for slot 1, and of K-3 there are 300
        text = it.script("return document.getElementById('main').textContent")
        if rows != wanted or "MISSING: 1" not in text or "another part: 1." not in text:
            raise Difference(f"{rows} is not {wanted}; {text[:300]}")
        it.script("document.querySelectorAll('form.changeover button')[1].click()")
        if "PRODUCT SELECTED" not in it.verdict()[1]:
            raise Difference("the product was not selected")
        it.go("line")
        wait_for(
            "it says where the product is from",
            lambda: "selected at this station at" in it.told("th.machine"),
        )
        it.load()
        it.ready()
        wait_for(
            "also after a reload",
            lambda: "selected at this station at" in it.told("th.machine"),
        )
        whole(site, it, 1)
    print(
        "4 rows with 5,000 mounted pieces, 900 of another part and 960 missing; a selection, told"
        " with its command's number and kept over a reload"
    )


def kit(slot: str, part: str, designators: int, *reels: Any) -> Any:
    """Rows of a kit list for 100,000 boards."""
    rows = [
        {
            "slot": slot,
            "part": part,
            "needed": str(designators * 100_000),
            "reel": reel,
            "pieces": str(pieces),
            "minutes_left": life,
        }
        for reel, pieces, life in reels
    ]
    return [
        *rows,
        {
            "slot": slot,
            "part": part,
            "needed": str(designators * 100_000),
            "reel": "",
            "pieces": "1",
            "minutes_left": "short",
        },
    ]


def on(slot: str, reel: str, part: str, pieces: Any, life: Any = "unlimited") -> Any:
    return {
        "slot": slot,
        "position": "1",
        "reel": reel,
        "part": part,
        "lot": "L",
        "remaining": str(pieces),
        "minutes_left": life,
    }


U = "unlimited"
# what is on the machines and free, the boards, the own parts of reels that are known, and of each
# slot: what to bring, missing, missing if another part may not stay
ALLOTMENTS = {
    "what is mounted counts first": (
        [
            (
                "M1",
                kit("1", "CAP", 2, ("K-x", 80, U)) + kit("3", "CAP", 1),
                [on("1", "K-1", "CAP", 4294)],
            )
        ],
        50,
        {},
        {"M1 1": ("", 0, 0), "M1 3": ("K-x", 0, 0)},
    ),
    "no reel for two machines": (
        [(machine, kit("1", "CAP", 2, ("K-x", 80, U)), []) for machine in ("M1", "M2")],
        40,
        {},
        {"M1 1": ("K-x", 0, 0), "M2 1": ("", 80, 0)},
    ),
    "an alternate stands where its own part is short": (
        [("M1", kit("1", "P", 1, ("A-1", 500, "100"), ("P-1", 500, U)) + kit("2", "A", 1), [])],
        100,
        {"A-1": "A", "P-1": "P"},
        {"M1 1": ("P-1", 0, 0), "M1 2": ("A-1", 0, 0)},
    ),
    "without its card an alternate stays where the kit has it": (
        [("M1", kit("1", "P", 1, ("A-1", 500, "100"), ("P-1", 500, U)) + kit("2", "A", 1), [])],
        100,
        {},
        {"M1 1": ("A-1", 0, 0), "M1 2": ("", 100, 0)},
    ),
    "the first to end comes first, and no more than is wanted": (
        [("M1", kit("1", "P", 1, ("P-1", 60, "90"), ("P-2", 60, "900"), ("P-3", 60, U)), [])],
        100,
        {},
        {"M1 1": ("P-1 P-2", 0, 0)},
    ),
    "another part may stay": (
        [("M1", kit("1", "P", 1), [on("1", "Q-1", "Q", 900)])],
        50,
        {},
        {"M1 1": ("", 0, 50)},
    ),
    "another part, and a reel for it": (
        [("M1", kit("1", "P", 1, ("P-1", 60, U)), [on("1", "Q-1", "Q", 900)])],
        50,
        {},
        {"M1 1": ("P-1", 0, 0)},
    ),
    "a row that is empty comes before another part": (
        [("M1", kit("1", "P", 1, ("P-1", 60, U)) + kit("2", "P", 1), [on("1", "Q-1", "Q", 900)])],
        50,
        {},
        {"M1 1": ("", 0, 50), "M1 2": ("P-1", 0, 0)},
    ),
    "a reel of a slot that the sheet has not": (
        [
            ("M1", kit("1", "P", 1), []),
            ("M2", kit("1", "R", 1), [on("9", "P-9", "P", 70), on("1", "R-1", "R", 50)]),
        ],
        50,
        {},
        {"M1 1": ("P-9", 0, 0), "M2 1": ("", 0, 0)},
    ),
    "an expired reel is none": (
        [("M1", kit("1", "P", 1, ("P-1", 60, U)), [on("1", "P-0", "P", 900, "0")])],
        50,
        {},
        {"M1 1": ("P-1", 0, 0)},
    ),
}
ALLOTTED = """
const [lines, boards, cards] = arguments;
return import("/station/allot.js").then((it) => it.allotted(lines, boards, new Map(Object.entries(cards)))
  .map((row) => [`${row.machine} ${row.slot}`, row.bring.map((reel) => reel.reel).join(" "), row.missing, row.unsure]));
"""


def test_who_gets_which_reel(site: Site) -> None:
    """The allotment of free reels by cases that were worked out by hand."""
    with Operator(site) as it:
        for name, (machines, boards, cards, wanted) in ALLOTMENTS.items():
            lines = [
                {"machine": machine, "kit": rows, "more": [], "slots": slots}
                for machine, rows, slots in machines
            ]
            got = it.script(ALLOTTED, lines, boards, cards)
            if {slot: (bring, missing, unsure) for slot, bring, missing, unsure in got} != wanted:
                raise Difference(f"{name}: wanted {wanted}, got {got}")
    print(f"{len(ALLOTMENTS)} cases")


def test_a_changeover_of_two_machines(site: Site) -> None:
    """Each reel that is to be brought is a free one of `report`, none stands twice, and what is on
    the slots is what `report` has.
    """
    for machine, slot, reel in (("M1", "1", "K-1"), ("M2", "10", "K-8")):
        site.say("MaterialsLoaded", {"Machine": machine, "Slot": slot, "Reel": reel})
    with Operator(site) as it:
        it.ready().go("changeover")
        it.script(
            "const form = document.querySelector('form.changeover'); form.elements.boards.value ="
            " '100'; form.querySelectorAll('button')[0].click()"
        )
        wait_for(
            "the kits",
            lambda: it.script("return document.querySelectorAll('#main table').length") == 2,
        )
        shown = {
            machine: {row[0]: row for row in it.rows(place)}
            for place, machine in enumerate(("M1", "M2"))
        }
        free = {
            row["reel"]: int(row["pieces"])
            for row in report(site, "/kit?product=CTRL-A&machine=M1&boards=100000")
            if row["reel"]
        }
        promised = [
            text.split(" (")[0]
            for rows in shown.values()
            for row in rows.values()
            for text in row[4].split("; ")
            if text
        ]
        if len(set(promised)) != len(promised) or not set(promised) <= set(free) or not promised:
            raise Difference(f"promised {promised}, free {free}")
        for machine, rows in shown.items():
            mounted = {
                row["slot"]: row["remaining"] for row in report(site, f"/slots?machine={machine}")
            }
            for slot, row in rows.items():
                brought = sum(free[text.split(" (")[0]] for text in row[4].split("; ") if text)
                missing = max(0, int(row[2].replace(",", "")) - int(mounted.get(slot, 0)) - brought)
                if row[3].replace(",", "") != mounted.get(slot, "0") or row[5] != (
                    f"{missing:,}" if missing else ""
                ):
                    raise Difference(
                        f"{machine} {slot}: {row}, mounted {mounted.get(slot)}, brought {brought}"
                    )
        wanted = {
            "M1": {"1": "", "2": "K-2", "10": "K-5", "3": "K-4"},
            "M2": {"1": "K-3", "2": "", "10": "", "3": "K-7"},
        }
        got = {
            machine: {
                slot: " ".join(text.split(" (")[0] for text in row[4].split("; "))
                for slot, row in rows.items()
            }
            for machine, rows in shown.items()
        }
        if got != wanted:
            raise Difference(f"to bring: {json.dumps(got)}, wanted {json.dumps(wanted)}")
    print(
        f"{len(promised)} reels for 8 slots of two machines, none twice, and what is missing is"
        " what `report` leaves"
    )


def test_a_pick_list_over_the_line(site: Site) -> None:
    """What each machine makes now: the reels to bring, the slot that ends next first; and both
    machines' selections by one touch.
    """
    for machine, slot, reel in (
        ("M1", "1", "K-1"),
        ("M1", "10", "K-5"),
        ("M2", "10", "K-8"),
        ("M2", "1", "K-7"),
    ):
        site.say("MaterialsLoaded", {"Machine": machine, "Slot": slot, "Reel": reel})
    with Operator(site) as it:
        it.ready().go("changeover")
        it.script(
            "const form = document.querySelector('form.changeover'); form.elements.boards.value ="
            " '100'; [...form.querySelectorAll('button')].at(-1).click()"
        )
        rows = wait_for("the list", lambda: it.rows())
        lasts = [int(row[2].split(" ")[0].replace(",", "")) for row in rows]
        free = {
            row["reel"]
            for row in report(site, "/kit?product=CTRL-A&machine=M1&boards=100000")
            if row["reel"]
        }
        brought = [text.split(" (")[0] for row in rows for text in row[3].split("; ") if text]
        if (
            lasts != sorted(lasts)
            or not set(brought) <= free
            or len(set(brought)) != len(brought)
            or not {"M1 2", "M1 3", "M1 10", "M2 1"} <= {row[0] for row in rows}
            or "M1 1" in {row[0] for row in rows}
        ):
            raise Difference(f"to bring: {rows}, free {free}")
        it.script("[...document.querySelectorAll('form.changeover button')].at(-3).click()")
        scans = wait_for(
            "two selections",
            lambda: (told := it.scans())
            and len(told) == 2
            and all(scan["state"] == "answered" for scan in told)
            and told,
        )
        if [(scan["body"], scan["answer"]["Answer"]) for scan in scans] != [
            ({"Machine": machine, "Product": "CTRL-A"}, "Accepted") for machine in ("M1", "M2")
        ]:
            raise Difference(f"selected on all: {scans}")
        it.seen()
    print(
        f"{len(rows)} slots by urgency, {len(brought)} reels, none twice; 2 selections by one touch"
    )


def load(it: Operator, text: str) -> None:
    """Loads a list on the first machine; a second touch so soon would be none."""
    time.sleep(GUARD)
    it.script(
        "const list = document.querySelector('.cart textarea'); list.value = arguments[0];"
        " document.querySelector('.cart button').click()",
        text,
    )


def test_a_list_is_scanned_and_then_loaded(site: Site) -> None:
    """A slot and a reel are a row, the newest one of its slot, and nothing is sent before the list
    is loaded. On another screen a scan is one of that screen.
    """
    said = "return document.querySelector('.cart .note').textContent"
    text = "return document.querySelector('.cart textarea').value"
    with Operator(site) as it:
        it.ready().go("changeover")
        it.script("document.querySelector('.cart [aria-pressed]').click()")
        for slot, reel in (("2", "K-1"), ("10", "K-8"), ("2", "K-2")):
            it.scan(f"S/M1/{slot}")
            it.scan(reel)
            wait_for("it is a row", lambda: f"{slot}\t{reel}" in it.script(text))
        it.scan("S/M2/2")
        it.scan("K-2")
        wait_for("it is another's", lambda: "This list is of M1" in it.text("verdict"))
        it.seen()
        if it.script(text) != "10\tK-8\n2\tK-2" or it.kept():
            raise Difference(f"{it.script(text)} {it.kept()}")
        load(it, it.script(text))
        it.verdict(("ask",))
        it.scan("A/ENTER")
        wait_for("the list is done", lambda: "done: 2 accepted" in it.script(said))
        it.go("line")
        it.does("S/M1/3", "K-4")
        whole(site, it, 3)


def test_a_cart_by_one_list(site: Site) -> None:
    """One list loads a machine's slots: a reel that is there stays, what is in the way goes first.
    Greens are counted, and a refusal is shown. A list that is wrong sends nothing.
    """
    for slot, reel in (("1", "K-1"), ("3", "K-3")):
        site.say("MaterialsLoaded", {"Machine": "M1", "Slot": slot, "Reel": reel})
    said = "return document.querySelector('.cart .note').textContent"
    with Operator(site) as it:
        it.ready().go("changeover")
        load(it, "1,K-1\n1,K-3")
        wait_for("the wrong row", lambda: "Row 2 has" in it.script(said))
        load(it, "1,K-1\n2;K-2\n10\tK-8\n3,K-4")
        text = it.verdict(("ask",))[1]
        if "M1: by this list 1 slot is unloaded, then 3 slots are loaded" not in text:
            raise Difference(text)
        it.scan("A/ENTER")
        wait_for("the list is done", lambda: "done: 4 accepted, 0 refused" in it.script(said))
        scans = whole(site, it, 4)
        words = [(scan["word"].removeprefix("Materials"), scan["body"]["Slot"]) for scan in scans]
        if words != [("Unloaded", "3"), ("Loaded", "2"), ("Loaded", "10"), ("Loaded", "3")]:
            raise Difference(f"sent: {words}")
        on_slots = {(row["slot"], row["reel"]) for row in report(site, "/slots?machine=M1")}
        if on_slots != {("1", "K-1"), ("2", "K-2"), ("10", "K-8"), ("3", "K-4")}:
            raise Difference(f"on the slots: {on_slots}")
        if not it.script("return document.getElementById('verdict').hidden"):
            raise Difference(it.text("verdict"))
        load(it, "1,K-1\n3,K-4")
        wait_for("nothing to do", lambda: "has the reel of the list" in it.script(said))
        load(it, "2,K-5")
        it.verdict(("ask",))
        it.does("A/ENTER", kind="refused", holds=("WRONG PART", "M1 slot 2"))
        wait_for("it is counted", lambda: "done: 1 accepted, 1 refused" in it.script(said))
        it.seen()
        whole(site, it, 6)
