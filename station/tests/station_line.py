"""What the screen Line has to show, reckoned from the program's `report` alone; and a line of the
size of a plant's.
"""
import csv
import datetime
import io
import json
import re
from typing import Any

from station_operator import Operator
from station_site import Site, settles
from tracedesk_dev import shift

WORDS = {
    "EMPTY": "EMPTY",
    "EXPIRED": "EXPIRED",
    "LOW": "LOW",
    "EXPIRES": "EXPIRES",
    "OTHER": "OTHER PART",
    "OFF": "NOT ON SHEET",
}
URGENT = ["EXPIRED", "EMPTY", "LOW", "EXPIRES"]


def report(site: Site, target: str) -> list[dict[str, str]]:
    return list(csv.DictReader(io.StringIO(site.report(target))))


def life(minutes: str) -> str:
    """A floor life as the page writes it."""
    if not minutes.isdigit():
        return {"unlimited": "no limit", "unbaked": "to be baked first"}[minutes]
    left = int(minutes)
    return (
        "EXPIRED"
        if left == 0
        else (
            f"{left // 1440} d {left % 1440 // 60} h"
            if left >= 1440
            else f"{left // 60} h {left % 60} min"
        )
    )


def order(minutes: str) -> int:
    return {"unlimited": 10**9, "unbaked": 2 * 10**9}.get(minutes) or int(minutes)


class Slot:
    """A slot by the reports: `row` is its row of the screen, `states` what is wrong."""

    def __init__(
        self,
        machine: str,
        slot: str,
        part: str,
        needed: int,
        reels: Any,
        boards: int,
        expires: int,
        stops: bool,
    ) -> None:
        self.machine, self.slot, self.part, self.reels = machine, slot, part, reels
        pieces, ends = [int(it["remaining"]) for it in reels], [
            order(it["minutes_left"]) for it in reels
        ]
        usable = sum(pieces[: ends.index(0)] if 0 in ends else pieces)
        self.worst = reels[ends.index(min(ends))] if reels else None
        self.life, self.boards = min(ends, default=-1), usable // needed if needed else None
        others = list(dict.fromkeys(it["part"] for it in reels if it["part"] != part))
        self.states = [
            state
            for state, holds in (
                ("EMPTY", not reels),
                ("EXPIRED", self.life == 0),
                ("LOW", reels and ends[0] > 0 and needed and (self.boards or 0) < boards),
                ("EXPIRES", 0 < self.life < expires),
                ("OTHER", others),
                ("OFF", not needed),
            )
            if holds
        ]
        self.stops = ["STOPS"] if stops else []
        said = (
            ""
            if not reels
            else life(self.worst["minutes_left"])
            + ("" if self.worst is reels[0] else f": {self.worst['reel']}")
        )
        self.row = [
            slot,
            f"{part} ({', '.join(others)})" if others else part,
            reels[0]["reel"] if reels else "",
            f"{pieces[0]:,}" if reels else "",
            f"{sum(pieces):,}" if reels[1:] else "",
            f"{self.boards:,}" if needed else "",
            ", ".join(f"{it['reel']} {int(it['remaining']):,}" for it in reels[1:]),
            said,
            " · ".join([*self.stops, *(WORDS[it] for it in self.states)]) or "OK",
        ]

    def tile(self) -> Any:
        """What stands on top of the screen where the slot needs a person: how urgent, and its
        words.
        """
        rank = min((URGENT.index(it) for it in self.states if it in URGENT), default=None)
        if rank is None and not self.stops:
            return None
        behind = "" if not self.reels or self.worst is self.reels[0] else " BEHIND"
        words = [
            {
                "EXPIRED": f"EXPIRED{behind}",
                "LOW": f"LOW: {self.boards} {'board' if self.boards == 1 else 'boards'}",
                "EXPIRES": f"EXPIRES {life(self.worst['minutes_left']) if self.worst else ''}",
            }.get(it, WORDS[it])
            for it in self.states
            if it != "OTHER"
        ]
        reel = (
            self.worst["reel"]
            if {"EXPIRED", "EXPIRES"} & set(self.states)
            else self.reels[0]["reel"]
            if self.reels
            else self.part
        )
        at = -1 if rank is None else rank
        within = {2: self.boards, 3: self.life}.get(at, 0)
        return (not self.stops, at, within), [
            f"{self.machine} {self.slot}",
            " · ".join([*self.stops, *words]),
            reel,
        ]


def slots_of(site: Site, machine: str, product: str, boards: int, expires: int) -> list[Slot]:
    """The slots of a machine in the order of its sheet, and behind them those that are on no row of
    it.
    """
    mounted = report(site, f"/slots?machine={machine}")
    told = json.loads(site.get(f"/line/state?machine={machine}"))
    stopping = {it.get("Slot") for it in told["Causes"]}
    sheet = list(
        dict.fromkeys(
            (it["slot"], it["part"], int(it["needed"]))
            for it in report(site, f"/kit?product={product}&machine={machine}&boards=1")
        )
    )
    off = [
        (slot, next(it["part"] for it in mounted if it["slot"] == slot), 0)
        for slot in sorted({it["slot"] for it in mounted} - {slot for slot, _, _ in sheet}, key=int)
    ]
    return [
        Slot(
            machine,
            slot,
            part,
            needed,
            [it for it in mounted if it["slot"] == slot],
            boards,
            expires,
            slot in stopping,
        )
        for slot, part, needed in sheet + off
    ]


def without_scans(told: Any) -> Any:
    """Texts of slots, without the scan that lets a machine go on: of that there is a test apart."""
    return [[re.sub(r"STOPS: [^·]*[^ ·]", "STOPS", it) for it in texts] for texts in told]


def shown_rows(operator: Operator, machine: str) -> Any:
    """The rows of a machine on the screen Line, over all its columns."""
    told = operator.script(
        (
            "return [...document.querySelectorAll('#main table')].filter((it) => it.dataset.machine"
            " === arguments[0]).flatMap((it) => [...it.tBodies[0].rows].map((row) =>"
            " [...row.cells].map((cell) => cell.textContent)))"
        ),
        machine,
    )
    return without_scans(told)


def shown_tiles(operator: Operator) -> Any:
    told = operator.script(
        "return [...document.querySelectorAll('.urgent li:not(.more)')].map((it) =>"
        " [...it.children].map((part) => part.textContent))"
    )
    return without_scans(told)


def line_is_as_reported(
    site: Site,
    operator: Operator,
    machine: str = "M1",
    product: str = "CTRL-A",
    boards: int = 50,
    expires: int = 60,
) -> None:
    """Compares all cells of a machine on the screen Line with what the program's `report` says."""
    operator.go("line")

    def differs() -> Any:
        wanted, got = [
            it.row for it in slots_of(site, machine, product, boards, expires)
        ], shown_rows(operator, machine)
        return (
            None
            if wanted == got
            else next(
                (f"wanted {a}, got {b}" for a, b in zip(wanted, got) if a != b),
                f"{len(wanted)} rows, and {len(got)}",
            )
        )

    settles(f"Line of {machine} and report differ", differs)


def rank_of(found: Any) -> tuple[bool, int, int]:
    rank: tuple[bool, int, int] = found[0]
    return rank


def tiles_are_as_reported(
    site: Site, operator: Operator, machines: Any, product: str, boards: int, expires: int
) -> Any:
    """Compares what stands on top of the screen Line, and gives how many slots need a person."""

    def tiles() -> Any:
        found = [
            tile
            for machine in machines
            for it in slots_of(site, machine, product, boards, expires)
            if (tile := it.tile())
        ]
        return [tile for _, tile in sorted(found, key=rank_of)]

    def differs() -> Any:
        wanted, got = tiles(), shown_tiles(operator)
        more = operator.script("return document.querySelector('.urgent .more')?.textContent ?? ''")
        said = f"and {len(wanted) - len(got)} more" if len(wanted) > len(got) else ""
        return (
            None
            if wanted[: len(got)] == got and said in more and bool(said) == bool(more)
            else f"wanted {wanted}, got {got} {more}"
        )

    settles("what needs a person and report differ", differs)
    return len(tiles())


def real_line(site: Site, boards: int = 60) -> Any:
    """A desk with the sheets, reels and messages of a shift's line, to the moment at which a reel
    has expired on its slot; the shift.
    """
    told = shift.Shift(
        boards=boards, day=datetime.datetime.now(datetime.timezone.utc).strftime("%Y-%m-%d")
    )
    site.kill_desk()
    for name in ("desk", "desk-wal", "desk-shm"):
        (site.room / name).unlink(missing_ok=True)
    site.feed([it.text for it in told.lines[: told.moments["expired"] + 1]])
    site.set_up(
        {
            "title": "Line 1",
            "machines": [{"machine": machine, "product": "CTRL-A"} for machine in told.machines],
            "boards": 20,
            "expires": 60,
        }
    )
    site.start_desk()
    return told


def view(operator: Operator, width: int, height: int) -> None:
    """Gives the page a viewport of exactly so many pixels, as a browser in full screen has it."""
    operator.page.execute_cdp_cmd(
        "Emulation.setDeviceMetricsOverride",
        {"width": width, "height": height, "deviceScaleFactor": 1, "mobile": False},
    )
