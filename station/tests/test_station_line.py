"""The screen Line as `report` has it, of a few slots and of a large line."""
import re
import statistics
import time
from typing import Any

import pytest
from station_line import (
    rank_of,
    line_is_as_reported,
    real_line,
    report,
    shown_rows,
    shown_tiles,
    slots_of,
    tiles_are_as_reported,
    view,
    without_scans,
)
from station_looks import SIZES
from station_operator import Operator
from station_plant import MACHINES, SECONDS, SLOTS, all_states, long_line
from station_site import SETUP, Site, settles, wait_for
from tracedesk_dev.trial import Difference

pytestmark = pytest.mark.browser
EXPIRES = 1400
SCREEN, TABLET = (1920, 1080), (800, 1280)
# pixels of a screen of 24 inches and 1080 lines: capitals of 16 minutes of arc at two metres
TWO_METRES = 47
WHERE = (
    "return [...document.querySelectorAll(arguments[0])].map((it) => { const box ="
    " it.getBoundingClientRect(); return [box.top, box.bottom, box.left, box.right,"
    " parseFloat(getComputedStyle(it).fontSize)]; })"
)


def test_every_state_of_a_slot(site: Site) -> None:
    """All cells, what needs a person, both other orders and the overdue mark, as `report` has them;
    and without a sheet nothing is OK.
    """
    all_states(site)
    site.set_up({**SETUP, "expires": EXPIRES})
    seen = set()
    with Operator(site) as it:
        it.ready()
        for machine in ("M1", "M2"):
            line_is_as_reported(site, it, machine, expires=EXPIRES)
            seen |= {
                state
                for slot in slots_of(site, machine, "CTRL-A", 50, EXPIRES)
                for state in slot.states or ["OK"]
            }
        if seen != {"OK", "EMPTY", "EXPIRED", "LOW", "EXPIRES", "OTHER", "OFF"}:
            raise Difference(f"not in this line: {seen}")
        states = {row[0]: row[-1] for row in shown_rows(it, "M2")}, {
            row[0]: row[-1] for row in shown_rows(it, "M1")
        }
        if (
            states[0]["20"] != "EXPIRED · NOT ON SHEET"
            or states[1]["1"] != "EXPIRED · OTHER PART"
            or states[1]["2"] != "OK"
        ):
            raise Difference(f"states: {states}")
        urgent = tiles_are_as_reported(site, it, ("M1", "M2"), "CTRL-A", 50, EXPIRES)
        if ["M1 1", "EXPIRED BEHIND", "K-9"] not in shown_tiles(it):
            raise Difference(f"the reel behind: {shown_tiles(it)}")
        sorted_as_asked(site, it)
        overdue = len(report(site, "/overdue"))
        if overdue != 1:
            raise Difference(f"{overdue} are overdue")
        wait_for("the mark of it", lambda: f"{overdue} OVERDUE" in it.told(".alarms"))
        site.set_up(
            {**SETUP, "machines": [{"machine": "M1"}, {"machine": "M2", "product": "NO-SUCH"}]}
        )
        it.load()
        it.ready()
        rows = wait_for(
            "rows without a sheet",
            lambda: (got := shown_rows(it, "M1") + shown_rows(it, "M2")) and len(got) == 8 and got,
        )
        if {"NO SHEET KNOWN"} != {row[-1].split(" · ")[-1] for row in rows}:
            raise Difference(f"without a sheet: {rows}")
    print(
        f"{len(seen)} states on 9 slots, {urgent} of them on top, 2 more orders, {overdue} overdue;"
        " no OK without a sheet"
    )


def sorted_as_asked(site: Site, it: Operator) -> None:
    keys = {
        1: lambda slot: 10**9 if slot.boards is None else slot.boards,
        2: lambda slot: slot.life,
    }
    for button, key in keys.items():
        it.script("document.querySelectorAll('.orders button')[arguments[0]].click()", button)
        for machine in ("M1", "M2"):
            wanted = [
                slot.row for slot in sorted(slots_of(site, machine, "CTRL-A", 50, EXPIRES), key=key)
            ]
            if (got := shown_rows(it, machine)) != wanted:
                raise Difference(f"order {button}: wanted {wanted}, got {got}")
    it.script("document.querySelectorAll('.orders button')[0].click()")


def on_the_screen(it: Operator, what: str, size: tuple[int, int], least: Any = 0) -> Any:
    """Waits until all of these elements lie within the viewport, in letters of so many pixels at
    least; gives their number.
    """
    found: list[Any] = []

    def wrong() -> Any:
        (bottom,) = it.script(WHERE, "#strip")
        last = size[1] if what == "#held b" else min(size[1], bottom[0] + 1)
        found[:] = it.script(WHERE, what)
        beyond = [
            box
            for box in found
            if box[0] < 0 or box[1] > last or box[2] < 0 or box[3] > size[0] or box[4] < least
        ]
        return beyond or not found

    settles(f"{what} at {size}", wrong)
    return len(found)


MACHINE_LINES = (
    "return [...document.querySelectorAll('#machines li')].map((it) =>"
    " parseFloat(getComputedStyle(it).fontSize))"
)
IS_WHOLE = (
    "const main = document.getElementById('main'); return main.scrollHeight <= main.clientHeight"
    " + 1;"
)


def test_a_real_line_is_on_one_screen(site: Site) -> None:
    """The 40 and 38 slots of a shift: at 1080 lines all are on the screen, five of those that
    need a person in letters for two metres; on a tablet these come first.
    """
    told = real_line(site)
    first, second = told.machines
    with Operator(site) as it:
        view(it, *SCREEN)
        it.ready()
        for machine in told.machines:
            line_is_as_reported(site, it, machine, boards=20)
        few = tiles_are_as_reported(site, it, told.machines, "CTRL-A", 20, 60)
        shown = [
            on_the_screen(it, ".urgent li > *", SCREEN, TWO_METRES),
            on_the_screen(it, ".line table td", SCREEN, 14),
        ]
        tiles = len(shown_tiles(it))  # above the lines of two machines; how many more is counted
        if tiles < min(few, 5) or shown != [3 * tiles, 78 * 9]:
            raise Difference(f"{few} need a person; on the screen are {shown}")
        wait_for("both machines", lambda: len(it.script(MACHINE_LINES)) == 2)
        wait_for("all slots above them", lambda: it.script(IS_WHOLE))
        settles(
            "letters of the machines",
            lambda: min(told := it.script(MACHINE_LINES)) < TWO_METRES and told,
        )
        it.scan(f"S/{first}/17")
        wait_for("the slot is held", lambda: f"{first} slot 17" in it.text("held"))
        on_the_screen(it, "#held b", SCREEN, TWO_METRES)
        on_the_screen(it, ".line table td", SCREEN, 14)
        it.keys("\ue00c")
        view(it, *TABLET)
        wait_for("all on a tablet", lambda: len(it.script(WHERE, ".urgent li > *")) == 3 * few)
        on_the_screen(it, ".urgent li > *", TABLET, 30)
        is_seen = "return document.querySelector('#main td:nth-child(7)')?.checkVisibility()"
        wait_for("a tablet shows what waits behind the front reel", lambda: it.script(is_seen))
        for slot, _, _ in told.sheets["CTRL-A", second]:
            site.say("MaterialsUnloaded", {"Machine": second, "Slot": slot})
        view(it, *SCREEN)
        line_is_as_reported(site, it, second, boards=20)
        many = tiles_are_as_reported(site, it, told.machines, "CTRL-A", 20, 60)
        large = on_the_screen(it, ".urgent li", SCREEN, TWO_METRES) - 1
        on_the_screen(it, ".line table td", SCREEN, 14)
        if many < 38 or large < 4:
            raise Difference(f"{many} need a person, {large} are shown large")
    print(
        f"78 slots at 1920 by 1080 and none below the fold, {few} that need a person in letters of"
        f" {TWO_METRES} pixels; of {many} the first {large}, and all marked below"
    )


# Of each size of the page: what the Line shows where it got that size, where it is begun anew and
# where it is drawn again. Given are those of which that isn't the same.
HISTORIES = """
const [sizes, done] = arguments, pause = (time) => new Promise((go) => setTimeout(go, time)), frame = () => new Promise((go) => requestAnimationFrame(() => setTimeout(go)));
const shown = () => [...document.querySelectorAll(".urgent:not(.first) li")].length + " tiles, letters of " + getComputedStyle(document.querySelector(".slots")).fontSize;
(async () => {
  const differ = [];
  for (const [width, height] of sizes) {
    Object.assign(document.body.style, { width: `${width}px`, height: `${height}px` });
    await frame(); await frame();
    const told = [shown()];
    window.dispatchEvent(new HashChangeEvent("hashchange"));
    told.push(shown());
    await pause(250);
    told.push(shown());
    if (new Set(told).size > 1) { differ.push([width, height, ...told]); }
  }
  done(differ);
})();
"""


def test_the_same_line_whatever_was_shown_before(site: Site) -> None:
    """How many slots stand on top, and in which letters all are, is of the page's size alone."""
    real_line(site)
    sizes = [(1920, 1080), (1920, 1050), (1890, 1060), (1680, 1050), (1600, 900), (1366, 768)]
    with Operator(site) as it:
        view(it, *SCREEN)
        it.ready().agrees = False
        wait_for("what stops a machine", lambda: "load L1-" in it.text("machines"))
        it.page.set_script_timeout(600)
        if differ := it.page.execute_async_script(HISTORIES, sizes):
            raise Difference(f"{len(differ)} of {len(sizes)} sizes: {differ}")
    print(f"{len(sizes)} sizes")


def processor_seconds(it: Operator) -> Any:
    return next(
        told["value"]
        for told in it.page.execute_cdp_cmd("Performance.getMetrics", {})["metrics"]
        if told["name"] == "TaskDuration"
    )


def test_a_line_of_twelve_machines(site: Site) -> None:
    """A tile for each machine with what is wrong as `report` has it, its slots after a touch, and a
    scan that costs the page little.
    """
    machines = long_line(site)
    with Operator(site) as it:
        it.agrees = False
        it.ready()
        wait_for(
            "twelve tiles",
            lambda: len(it.script(TILES)) == MACHINES,
        )
        for at, machine in enumerate(machines):
            slots = slots_of(site, machine, "LONG", 50, 60)
            counts = {
                state: sum(state in slot.states for slot in slots) for state in ("EMPTY", "LOW")
            }
            worst = min(
                (slot for slot in slots if slot.states), key=lambda slot: rank_of(slot.tile())
            )
            wanted = [f"{count} {state}" for state, count in counts.items() if count] + [
                worst.slot,
                *worst.tile()[1][1:],
            ]
            got = wait_for(
                "a tile with its counts",
                lambda: (told := without_scans([it.script(TILES)])[0][at])
                and (all(text in told for text in wanted) and told),
            )  # noqa: B023
            if machine not in got or "LONG" not in got:
                raise Difference(f"the tile of {machine}: {got}")
        settles("the overview is beyond the screen", lambda: any(it.script(SIZES)[1:]))
        it.page.execute_cdp_cmd("Performance.enable", {"timeDomain": "threadTicks"})
        took = []
        for turn in range(6):
            machine, before = turn % 4 * 2, processor_seconds(it)
            it.does(f"S/{machines[machine]}/1-8", "A/UNLOAD" if turn > 3 else f"R{machine:02}007")
            time.sleep(4)
            took.append(processor_seconds(it) - before)
        if statistics.median(took) > SECONDS:
            raise Difference(f"processor seconds of the page for a scan: {took}")
        it.seen()
        it.script("document.querySelectorAll('.overview button')[2].click()")
        wait_for("its slots", lambda: len(shown_rows(it, machines[2])) == SLOTS)
        line_is_as_reported(site, it, machines[2], "LONG")
        it.script("document.querySelector('.orders button').click()")
        wait_for("the overview again", lambda: len(it.script(TILES)) == MACHINES)
    print(
        f"{MACHINES} tiles as `report` has them, {SLOTS} slots after a touch; a scan takes"
        f" {statistics.median(took):.2f} s of the page's processor time"
    )


TILES = (
    "return [...document.querySelectorAll('.overview button')].map((it) =>"
    " it.innerText.split('\\n').join(' '))"
)
LATER = """window.later = 0;
const fetched = window.fetch;
window.fetch = async (...how) => {
  const told = await fetched(...how);
  if (!window.later || !String(how[0]).includes("/slots?")) { return told; }
  const headers = new Headers(told.headers);
  ["X-Desk-Answered", "X-Station-Now"].forEach((name) => headers.set(name, Number(headers.get(name)) + window.later));
  return new Response(await told.text(), { status: told.status, headers });
};
window.tones = [];
const start = OscillatorNode.prototype.start;
OscillatorNode.prototype.start = function (...at) { window.tones.push(Math.round(this.frequency.value)); return start.apply(this, at); };"""
PACES = """const [looks, kit] = arguments;
return import("/station/model.js").then(({ Model }) => {
  const model = new Model({ machines: [{ machine: "M1" }], connectionsADay: 26000, boards: 5, expires: 60, splice: 10 }, () => {}), [line] = model.lines;
  Object.assign(line, { kit, slots: looks.at(-1).slots, looks });
  return model.rows(line).map((it) => [it.slot, it.boards, it.minutes, it.isEnding]);
});"""


def used(*reels: Any) -> Any:
    return [
        {
            "slot": slot,
            "reel": reel,
            "part": "P",
            "lot": "L",
            "remaining": str(left),
            "minutes_left": "unlimited",
        }
        for slot, reel, left in reels
    ]


# the slot lists of two moments, five minutes apart, for a sheet with one piece a board at slots 1
# to 3: of each slot its boards, minutes and whether somebody is called
PACED = {
    "ten boards in five minutes": (
        used(("1", "A", 100), ("2", "B", 25), ("3", "C", 500)),
        used(("1", "A", 90), ("2", "B", 15), ("3", "C", 490)),
        [["1", 90, 45, False], ["2", 15, 7, True], ["3", 490, 245, False]],
    ),
    "a count and a new reel decide nothing": (
        used(("1", "A", 100), ("2", "B", 400), ("3", "C", 500)),
        used(("1", "A", 90), ("2", "B", 15), ("3", "C", 490), ("3", "D", 700)),
        [["1", 90, 45, False], ["2", 15, 7, True], ["3", 1190, 595, False]],
    ),
    "a reel that ran out was used": (
        used(("1", "A", 10), ("1", "E", 50), ("2", "B", 100), ("3", "C", 500)),
        used(("1", "E", 50), ("2", "B", 90), ("3", "C", 490)),
        [["1", 50, 25, False], ["2", 90, 45, False], ["3", 490, 245, False]],
    ),
    "a line that stands still": (
        used(("1", "A", 3), ("2", "B", 3), ("3", "C", 3)),
        used(("1", "A", 3), ("2", "B", 3), ("3", "C", 3)),
        [["1", 3, None, False], ["2", 3, None, False], ["3", 3, None, False]],
    ),
}


def test_a_splice_is_called_for(site: Site) -> None:
    """By the pace of the last minutes, with a tone once, on whatever screen is shown; and the pace
    by cases that were worked out by hand.
    """
    for slot, reel in (("1", "K-1"), ("2", "K-2"), ("10", "K-5"), ("3", "K-3")):
        site.say("MaterialsLoaded", {"Machine": "M1", "Slot": slot, "Reel": reel})
    site.set_up({**SETUP, "boards": 5})
    with Operator(site, begin=False) as it:
        it.agrees = False
        it.open(before=LATER)
        it.ready().go("receive")
        sheet = [{"slot": slot, "part": "P", "needed": 1} for slot in "123"]
        for name, (before, after, wanted) in PACED.items():
            if (
                got := it.script(
                    PACES, [{"at": 0, "slots": before}, {"at": 300_000, "slots": after}], sheet
                )
            ) != wanted:
                raise Difference(f"{name}: wanted {wanted}, got {got}")
        for board in range(5):
            at = {"Machine": "M1", "Board": f"SN-{board}"}
            names = ["C1", "C2", "R1", "D1", "D2", "D3", "C3"]
            for word, body in (
                ("WorkStarted", at),
                ("MaterialsInstalled", at | {"Designators": names}),
                ("WorkCompleted", at),
            ):
                if site.say(word, body)["Answer"] != "Accepted":
                    raise Difference(f"{word} of board {board} was refused")
        it.script("window.later = 130")  # the call then holds for four minutes
        wait_for("the call", lambda: re.search(r"SPLICE M1 10 in \d min", it.text("ending")))
        wait_for(
            "the tone",
            lambda: it.script("return window.tones.filter((it) => it === 660).length") == 3,
        )
        it.go("line")
        wait_for(
            "the tile",
            lambda: any(
                re.fullmatch(r"LOW: 8 boards · \d min", tile[1]) for tile in shown_tiles(it)
            ),
        )
        time.sleep(8)
        if it.script("return window.tones.filter((it) => it === 660).length") != 3:
            raise Difference("a second tone for the same slot")
    print(f"{len(PACED)} cases of a pace; one call with one tone")
