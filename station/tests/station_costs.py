"""What the station costs: how long a verdict takes, what a tab keeps, and how many connections of
the desk stations use up.
"""
import json
import pathlib
import statistics
import time
from typing import Any

from station_looks import SCREENS
from station_operator import Operator
from station_plant import long_line, plant
from station_site import SETUP, Site
from tracedesk_dev.trial import Difference, in_memory

A_DAY, KITS = 86_400, 300  # seconds; the second is the page's period of its sheets
MILLION, SCANS = 1_000_000, 5_000  # connections; and scans, after which the memory is looked at
PERIODS = """return Promise.all([import("/station/model.js"), import("/station/setup.js")])
    .then(([model, { USUAL }]) => [2, 4, 8].map((machines) => [model.period(machines, USUAL.connectionsADay), model.kitsADay(machines)]))"""


def days(used_a_look: Any, period: float, kits_a_day: Any) -> Any:
    """How many days a million connections last."""
    return MILLION / (used_a_look * A_DAY / period + kits_a_day)


DRAWN = """window.took = []; let began = 0;
addEventListener("keydown", (event) => { if (event.key === "Enter") { began = performance.now(); } }, true);
new MutationObserver(() => {
  const verdict = document.getElementById("verdict"), from = began;
  if (from && !verdict.hidden && ["accepted", "refused"].includes(verdict.className)) {
    began = 0;
    requestAnimationFrame(() => setTimeout(() => window.took.push(performance.now() - from)));
  }
}).observe(document.getElementById("verdict"), { attributes: true, childList: true, subtree: true });"""


def to_a_verdict(site: Site, scans: Any = 30) -> Any:
    """Of each screen, at a line of twelve machines with 120 slots, the milliseconds from the Enter
    of a scan to the frame with its verdict, by the page's clock: loads and unloads in turn.
    """
    machines, told = long_line(site), {}
    with Operator(site) as it:
        it.ready().script(DRAWN)
        for screen in SCREENS:
            it.go(screen)
            it.script("window.took = []")
            for turn in range(scans):
                at = turn // 2 % len(machines) // 2 * 2  # where the slot is empty
                it.does(f"S/{machines[at]}/1-8", "A/UNLOAD" if turn % 2 else f"R{at:02}007")
            took = it.script("return window.took")
            told[screen] = {
                "scans": len(took),
                "median": round(statistics.median(took)),
                "95 %": round(statistics.quantiles(took, n=20)[-1]),
            }
    return told


MANY = """
const [count, done] = arguments, verdict = document.getElementById("verdict"), field = document.getElementById("scan");
const scan = (code) => { field.value = code; field.form.requestSubmit(); };
const answered = () => new Promise((resolve) => {
  const look = () => { if (!verdict.hidden && verdict.className === "accepted") { watch.disconnect(); resolve(); } };
  const watch = new MutationObserver(look);
  watch.observe(verdict, { attributes: true });
  look();
});
(async () => { for (let turn = 0; turn < count; turn += 1) { scan(turn % 2 ? "A/SEAL" : "A/OPEN"); scan("K-4"); await answered(); } })().then(() => done(), (fault) => done(String(fault)));
"""


def many(it: Operator, count: int) -> None:
    """So many scans in the scan field, each after the verdict of the one before."""
    it.page.set_script_timeout(1_800)
    if fault := it.page.execute_async_script(MANY, count):
        raise Difference(fault)


def heap(it: Operator) -> Any:
    it.script("window.gc && gc()")
    return it.script("return performance.memory.usedJSHeapSize") / 1e6


SELDOM = 900  # connections a day: a page that may use so few looks each ten minutes


def each_scan(site: Site) -> Any:
    """The connections of the desk that scans use up, each a second after the one before and after
    more than the cache keeps.
    """
    site.set_up({**SETUP, "connectionsADay": SELDOM})
    told = {}
    with Operator(site, name="C") as it:
        it.ready()
        for name, kind, codes in (
            ("open", "accepted", ("A/OPEN", "K-1")),
            ("load", "accepted", ("S/M1/1", "K-1")),
            ("splice", "accepted", ("S/M1/1", "K-3")),
            ("unload", "accepted", ("S/M1/1", "A/UNLOAD")),
            ("a load of a wrong part", "refused", ("S/M1/1", "K-2")),
            ("the same again", "refused", ("S/M1/1", "K-2")),
        ):
            time.sleep(5)
            before = site.connections()
            it.does(*codes, kind=kind)
            time.sleep(5)
            told[name] = site.connections() - before
    site.set_up(SETUP)
    return told


def test_costs(program: pathlib.Path, browses: None) -> None:
    """From scan to verdict on each screen, the tab's memory over many scans, and the connections of
    a scan.
    """

    def say(name: str, value: Any) -> None:
        print(json.dumps({name: value}), flush=True)

    with Site(str(program), in_memory()) as site:
        say("from scan to verdict, milliseconds", to_a_verdict(site))
    with Site(str(program), in_memory()) as site:
        plant(site)
        with Operator(site) as it:
            it.ready()
            memory, answers = [round(heap(it), 1)], site.connections()
            for _ in range(SCANS // 500):
                many(it, 500)
                memory.append(round(heap(it), 1))
            say(
                "heap of the tab, MB, at first and after each 500 scans",
                {"heap": memory, "connections": site.connections() - answers},
            )
        say("connections of a scan", each_scan(site))
