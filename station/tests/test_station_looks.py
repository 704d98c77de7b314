"""How the station looks: contrast, sizes of a screen, printed codes."""
import base64
import os
import pathlib
import shutil
import subprocess
import time
from typing import Any

import pytest
from station_line import view
from station_looks import CONTRAST, SCREENS, set_up
from station_operator import Operator
from station_plant import SIZES, refused
from station_site import SETUP, Site, settles, wait_for
from tracedesk_dev.trial import Difference

pytestmark = pytest.mark.browser
SMALLEST = [(360, 640), (512, 300)]  # a telephone, and 1024 by 600 enlarged to twice its size
TOUCHED = 48  # pixels that a finger in a glove needs
SMALL = """return [...document.querySelectorAll('button, a[href], input:not([type=radio]), label:has(input[type=radio]), .button')].filter((it) => it.checkVisibility())
    .map((it) => [it.textContent.trim().slice(0, 30) || it.id, ...['width', 'height'].map((side) => Math.round(it.getBoundingClientRect()[side] * 10) / 10)]).filter(([, width, height]) => width < arguments[0] || height < arguments[0])"""
OUTSIDE = "return Math.max(0, document.documentElement.scrollWidth - innerWidth)"
INSIDE = "const it = document.getElementById('main'); return it.scrollWidth - it.clientWidth"
PLACES = """const told = (it) => { const box = it.getBoundingClientRect(); return [Math.round(box.top), Math.round(box.bottom), parseFloat(getComputedStyle(it).fontSize)]; };
return Object.fromEntries(arguments[0].map((name) => [name, [...document.querySelectorAll(name)].filter((it) => it.checkVisibility()).map(told)]))"""
LONG = {
    name: (name + "-" + "LONG-NAME-" * 7)[:64]
    for name in ("MA", "MB", "SLOT", "REEL", "OTHER", "LOT", "PART", "PARTX")
}


def long_plant(site: Site) -> None:
    for part in ("PART", "PARTX"):
        site.say("PartDefined", {"PartNumber": LONG[part]})
    for machine in ("MA", "MB"):
        site.say(
            "SheetDefined",
            {
                "Product": "CTRL-A",
                "Machine": LONG[machine],
                "Rows": [{"Slot": LONG["SLOT"], "PartNumber": LONG["PART"], "Designators": ["C1"]}],
            },
        )
        site.say("ProductSelected", {"Machine": LONG[machine], "Product": "CTRL-A"})
    for reel, part in (("REEL", "PART"), ("OTHER", "PARTX")):
        site.say(
            "ReelReceived",
            {
                "Reel": LONG[reel],
                "PartNumber": LONG[part],
                "Lot": LONG["LOT"],
                "Level": "3",
                "Quantity": 5000,
            },
        )
    for number in range(5):
        site.say(
            "ReelReceived",
            {
                "Reel": f"{number}-{LONG['REEL']}"[:64],
                "PartNumber": LONG["PART"],
                "Lot": LONG["LOT"],
                "Level": "3",
                "Quantity": 5000,
            },
        )


def pictured(it: Operator, name: str) -> None:
    if folder := os.environ.get("STATION_PICTURES"):
        pathlib.Path(folder).mkdir(parents=True, exist_ok=True)
        time.sleep(0.4)
        it.page.save_screenshot(f"{folder}/{name}.png")


def fits(it: Operator, where: Any, size: tuple[int, int]) -> Any:
    """All of the verdict is on the screen above the strip, with what to do right below what is
    wrong; nothing goes beyond the sides.
    """
    found = it.script(
        PLACES,
        [
            "#verdict",
            "#verdict .word",
            "#verdict h2",
            "#verdict .todo",
            "#verdict .where",
            "#verdict .more",
            "#verdict .facts",
            "#verdict .close",
            "#strip",
        ],
    )
    below = [
        name
        for name, boxes in found.items()
        if name.startswith("#verdict ")
        and any(bottom > found["#strip"][0][0] + 1 or top < 0 for top, bottom, _ in boxes)
    ]
    wide = it.script(
        "return [document.documentElement.scrollWidth - innerWidth,"
        " document.getElementById('verdict').scrollWidth -"
        " document.getElementById('verdict').clientWidth]"
    )
    if below or max(wide) > 0:
        raise Difference(
            f"{where} at {size}: not on the screen {below}, too wide by {wide}: {found}"
        )
    return found


def each_verdict_at(
    it: Operator, size: tuple[int, int], machine: str, slot: str, good: Any, wrong: Any
) -> None:
    """A refusal and a green with these names; what was seen of them."""
    view(it, *size)
    name = f"{size[0]}x{size[1]}-{'long' if len(machine) > 9 else 'short'}"
    refused(it, f"S/{machine}/{slot}", wrong)
    wait_for("what to bring", lambda: "wants" in it.text("verdict"))
    pictured(it, f"{name}-refused")
    found = fits(it, "a refusal", size)
    todo, listed = found["#verdict .todo"][0], found["#verdict .more"][0]
    if (
        not found["#verdict h2"][0][1] <= todo[0] <= found["#verdict h2"][0][1] + 30
        or todo[1] > listed[0] + 1
    ):
        raise Difference(f"at {size} what to do is not right below what is wrong: {found}")
    top, bottom, letters = found["#verdict .close"][0]
    if bottom - top < 56 or letters < 24:
        raise Difference(
            f"at {size} the way out of red has {bottom - top} pixels and letters of {letters}"
        )
    where = it.script("return document.querySelector('#verdict .where').textContent")
    if not where.startswith(f"{machine} slot {slot}"):
        raise Difference(f"the machine is not as large as the slot: {where}")
    it.seen()
    it.does(f"S/{machine}/{slot}", good, holds=("LOADED",))
    wait_for("its part", lambda: "lot" in it.text("verdict"))
    pictured(it, f"{name}-accepted")
    fits(it, "a green", size)
    it.seen()
    it.does(f"S/{machine}/{slot}", "A/UNLOAD")
    it.seen()


def each_screen_at(it: Operator, size: tuple[int, int], touched: Any) -> Any:
    """Nothing beyond the sides, and each thing to touch large enough; the number pad above the
    strip.
    """
    for screen in ("line", "scan", "receive", "changeover", "trace"):
        it.go(screen)
        settles(
            f"{screen} at {size}: too small to touch, or beyond the sides",
            lambda: it.script(SMALL, TOUCHED - 0.5) or it.script(OUTSIDE),
        )
        touched += it.script("return document.querySelectorAll('button, a[href], input').length")
        pictured(it, f"{size[0]}x{size[1]}-{screen}")
    it.go("scan")
    it.scan("K-1", "A/COUNT")
    wait_for(
        "the pad", lambda: it.script("return document.querySelector('.pad').checkVisibility()")
    )
    pictured(it, f"{size[0]}x{size[1]}-pad")
    found = it.script(PLACES, [".pad button", "#strip", "header"])
    if len(found[".pad button"]) != 12 or any(
        bottom > found["#strip"][0][0] or top < found["header"][0][1] or bottom - top < TOUCHED
        for top, bottom, _ in found[".pad button"]
    ):
        raise Difference(f"the pad at {size}: {found}")
    it.scan("A/CANCEL")
    answers = it.script(
        "return [...document.querySelectorAll('.history td:nth-child(3)')].map((it) =>"
        " it.getBoundingClientRect().right - innerWidth)"
    )
    if not answers or max(answers) > 0:
        raise Difference(f"the answers at {size}: {answers}")
    return touched


def test_each_size_of_a_screen(site: Site) -> None:
    """Five sizes, with names of 2 letters and of 64: verdicts, screens, the pad, things to
    touch.
    """
    long_plant(site)
    touched = 0
    site.set_up(
        {
            **SETUP,
            "machines": [
                *SETUP["machines"],
                {"machine": LONG["MA"], "product": "CTRL-A"},
                {"machine": LONG["MB"], "product": "CTRL-A"},
            ],
        }
    )
    with Operator(site) as it:
        it.ready()
        for size in SIZES:
            each_verdict_at(it, size, "M1", "3", "K-1", "K-2")
            each_verdict_at(it, size, LONG["MA"], LONG["SLOT"], LONG["REEL"], LONG["OTHER"])
            touched = each_screen_at(it, size, touched)
        for size in SMALLEST:
            view(it, *size)
            for screen in ("line", "scan", "receive", "changeover", "trace"):
                it.go(screen)
                settles(
                    f"{screen} at {size}: beyond the sides",
                    lambda: it.script(OUTSIDE) or it.script(INSIDE),
                )
                room = it.script("return document.getElementById('main').clientHeight")
                pictured(it, f"{size[0]}x{size[1]}-{screen}")
                if room < 200:
                    raise Difference(f"{screen} at {size}: {room} pixels for it")
    print(
        f"{len(SIZES)} sizes, 20 verdicts and {touched} things to touch; {len(SMALLEST)} smaller"
        " ones"
    )


def dark_on_light(it: Operator, where: Any, seen: Any) -> None:
    texts = it.script(CONTRAST)
    weak = [
        f"{text['what']}: {text['ratio']:.2f}" for text in texts if text["ratio"] < text["wanted"]
    ]
    if weak or not texts:
        raise Difference(f"{where}: {weak or 'no text'}")
    seen.extend(texts)


def test_letters_stand_out(site: Site) -> None:
    """WCAG AA of each text, on each screen, of a verdict of each kind, and while the desk doesn't
    answer.
    """
    seen: list[Any] = []
    with Operator(site) as it:
        set_up(it)
        for screen in SCREENS:
            it.go(screen)
            dark_on_light(it, screen, seen)
        for codes, kind in (
            (("K-6", "A/OPEN"), "accepted"),
            (("S/M1/2", "K-7"), "refused"),
            (("S/M9/2",), "fault"),
        ):
            it.does(*codes, kind=kind)
            dark_on_light(it, kind, seen)
        it.go("line")
        site.kill_desk()
        wait_for(
            "the page says that the desk doesn't answer",
            lambda: it.script("return document.getElementById('state').className") == "old",
        )
        dark_on_light(it, "without a desk", seen)
    print(f"{len(seen)} texts, the weakest {min(text['ratio'] for text in seen):.1f} to 1")


def test_printed_codes_are_read_back(site: Site) -> None:
    """The sheet of action codes and of slots with long names, as it is printed, read by zbar."""
    slots = {
        f"{name}-LONG-NAME-OF-A-MACHINE-OF-A-PLANT": "SLOT-OF-A-FEEDER-WITH-A-NAME" + more
        for name, more in (("A", ""), ("B", "-THAT-IS-TOO-LONG-TO-PRINT"))
    }
    for machine, slot in slots.items():
        site.say(
            "SheetDefined",
            {
                "Product": "CTRL-A",
                "Machine": machine,
                "Rows": [{"Slot": slot, "PartNumber": "RES", "Designators": ["R1"]}],
            },
        )
    site.set_up(
        {
            **SETUP,
            "machines": [
                *SETUP["machines"],
                *({"machine": machine, "product": "CTRL-A"} for machine in slots),
            ],
        }
    )
    if not shutil.which("zbarimg"):
        pytest.skip("there is no zbarimg here: apt-get install zbar-tools")
    with Operator(site) as it:
        it.page.get(f"{site.url}/station/codes.html?station=W1")
        wait_for(
            "the codes", lambda: it.script("return document.querySelectorAll('.cards').length > 7")
        )
        wanted, longer = it.script(
            "return [':has(svg)', ':has(p)'].map((has) =>"
            " [...document.querySelectorAll(`figure${has} small`)].map((it) => it.textContent))"
        )
        printed = base64.b64decode(
            it.page.execute_cdp_cmd("Page.printToPDF", {"printBackground": True})["data"]
        )
        (site.room / "codes.pdf").write_bytes(printed)
        subprocess.run(
            ["pdftoppm", "-r", "300", "-png", site.room / "codes.pdf", site.room / "codes"],
            check=True,
        )
        read = subprocess.run(
            ["zbarimg", "--quiet", "--raw", *sorted(site.room.glob("codes-*.png"))],
            capture_output=True,
            text=True,
        ).stdout.split("\n")
    if max(map(len, wanted)) < 60 or len(longer) != 1:
        raise Difference(f"long codes: {wanted}; too long: {longer}")
    if sorted(set(wanted)) != sorted({it for it in read if it}):
        raise Difference(f"printed {sorted(wanted)}, read {sorted(read)}")
    print(
        f"{len(wanted)} codes of {max(map(len, wanted))} letters at most; {len(longer)} is said to"
        " be too long"
    )
