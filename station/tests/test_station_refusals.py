"""Each refusal in words, with what to bring."""
import json
import re
import subprocess
import time
from typing import Any

import pytest
from station_operator import Operator
from station_plant import letters, plant, refused
from station_site import ROOT, SETUP, Site, wait_for
from tracedesk_dev.trial import Difference

pytestmark = pytest.mark.browser


def test_each_refusal_in_words(site: Site) -> None:
    """Those that a scan can get, by a scan; and every one of docs/messages.md has its words."""
    got: dict[str, str] = {}

    def refused(refusal: str, *codes: str) -> None:
        text = it.does(*codes, kind="refused")
        title, todo = words[refusal]
        todo = todo.partition(", or UNLOAD ")[0]  # the page names the slot if it knows it
        said = [
            part
            for part in re.split(r"\{\w+\}", title + "{at}" + todo)
            if part.strip() and part not in text
        ]
        if said:
            raise Difference(f"{refusal}: {said} is not in {text!r}")
        got[refusal] = text

    with Operator(site) as it:
        words = it.ready().page.execute_async_script(
            "const done = arguments[arguments.length - 1]; import('/station/texts.js').then((it) =>"
            " done(it.TEXTS.refusals))"
        )
        table = re.findall(
            r"^\| `(\w+)` \|[^|]*\|[^|]+\|[^|]+\|$",
            (ROOT / "docs/messages.md").read_text().split("| Refusal | `At` |")[1].split("```")[0],
            re.M,
        )
        if set(table) != set(words):
            raise Difference(f"texts and docs/messages.md differ: {set(table) ^ set(words)}")
        site.say("ReelOpened", {"Reel": "K-4"})
        refused("UnknownReel", "S/M1/1", "K-99")
        refused("NotBaked", "S/M1/10", "K-6")
        refused("SlotNotOnSheet", "S/M1/77", "K-1")
        refused("SlotEmpty", "S/M1/1", "A/UNLOAD")
        it.does("S/M1/1", "K-7")
        refused("ReelMounted", "S/M1/3", "K-7")
        refused("ReelShort", "S/M1/1", "A/SCRAP", "5")
        it.does("S/M1/1", "A/SCRAP", "1")
        it.does("S/M1/1", "A/UNLOAD", kind="refused")
        refused("ReelEmpty", "S/M1/1", "K-7")
        refused("CountAbove", "A/COUNT", "K-7", "5")
        refused("WrongPart", "S/M1/1", "K-2")
        refused_by_a_screen(it, refused)
        refused_by_a_race(site, it, refused)
        refused_by_the_state(site, it, refused)
    print(
        f"{len(got)} by a scan: {' '.join(sorted(got))}; all {len(words)} have a title and what"
        " to do"
    )


def is_old(it: Operator) -> bool:
    return bool(it.script("return document.getElementById('state').className") == "old")


def refused_by_a_screen(it: Operator, refused: Any) -> None:
    """By Receive and by Changeover."""
    for refusal, part in (("UnknownPart", "NOT-A-PART"), ("ReelExists", "CAP")):
        it.seen()
        time.sleep(1)  # so that the button isn't touched twice
        it.go("receive")
        it.script(
            """const form = document.querySelector('form.receive').elements; form.reel.value = 'K-1'; form.part.value = arguments[0]; form.lot.value = 'L'; form.quantity.value = '5';
                     form.level.value = '1'; document.querySelector('form.receive button[type=submit]').click()""",
            part,
        )
        it.verdict()
        refused(refusal)
    for refusal, product in (("UnknownSheet", "NO-SUCH"),):
        it.seen()
        it.go("changeover")
        it.script(
            (
                "document.querySelector('form.changeover').elements.product.value = arguments[0];"
                " document.querySelectorAll('form.changeover button')[1].click()"
            ),
            product,
        )
        it.verdict()
        refused(refusal)


def refused_by_a_race(site: Site, it: Operator, refused: Any) -> None:
    """Where the slot is another than the station knew."""
    with it.without("*/desk/slots*"):
        wait_for("the page knows no more", lambda: is_old(it))
        it.scan("S/M2/3")
        wait_for("the slot is held", lambda: "is empty" in it.text("held"))
        site.say("MaterialsLoaded", {"Machine": "M2", "Slot": "3", "Reel": "K-3"})
        refused("SlotTaken", "K-1")
    site.say("ReelOpened", {"Reel": "K-8"}, minutes_ago=0)
    it.go("changeover")
    for slot, reel in (("1", "K-1"), ("2", "K-2"), ("10", "K-8")):
        site.say("MaterialsLoaded", {"Machine": "M2", "Slot": slot, "Reel": reel})
    if site.say("WorkStarted", {"Machine": "M2", "Board": "SN-1"})["Answer"] != "Accepted":
        raise Difference("the board was not started")
    it.seen()
    it.script(
        "document.querySelector('form.changeover').elements.product.value = 'CTRL-A';"
        " document.querySelectorAll('form.changeover button')[2].click()"
    )
    it.verdict()
    refused("MachineBusy")
    site.say("WorkCompleted", {"Machine": "M2", "Board": "SN-1"})


def refused_by_the_state(site: Site, it: Operator, refused: Any) -> None:
    """Expired, no product, a UniqueID of another message, a time too far ahead, a full desk."""
    site.say("ClockSet", {}, minutes_ago=-1500)
    refused("Expired", "S/M1/1", "K-4")
    site.set_up({**SETUP, "machines": [{"machine": "M1"}, {"machine": "M2"}, {"machine": "M9"}]})
    it.load()
    it.ready()
    refused("NoProduct", "S/M9/1", "K-3")
    wait_for("the name is told to be unknown", lambda: "its name is unknown" in it.text("verdict"))
    site.kill_desk()
    site.set_up(SETUP)
    for name in ("desk", "desk-wal"):
        (site.room / name).unlink(missing_ok=True)
    site.start_desk()
    plant(site)
    site.kill_desk()
    for name in ("desk", "desk-wal"):
        (site.room / name).unlink(missing_ok=True)
    old = {
        "MessageName": "TraceDesk.PartDefined",
        "UniqueID": "old",
        "Source": "host",
        "TimeStamp": "2020-01-01T00:00:00Z",
        "MessageBody": {"PartNumber": "CAP"},
    }
    site.feed([json.dumps(old).encode()])
    site.start_desk()
    it.load()
    it.ready()
    refused("TooFarAhead", "A/OPEN", "K-1")
    site.kill_desk()
    for name in ("desk", "desk-wal"):
        (site.room / name).unlink(missing_ok=True)
    subprocess.run(
        [site.program, "feed", "--db", site.room / "desk", "--greatest", "1"],
        input=json.dumps(old).encode(),
        capture_output=True,
        check=True,
    )
    site.start_desk()
    refused("DeskFull", "A/OPEN", "K-2")


def test_a_mounted_reel_is_said_to_be_where_it_is(site: Site) -> None:
    """ReelMounted names the machine and the slot that has the reel."""
    site.say("MaterialsLoaded", {"Machine": "M2", "Slot": "3", "Reel": "K-1"})
    with Operator(site) as it:
        it.ready()
        site.say("MaterialsUnloaded", {"Machine": "M2", "Slot": "3"})
        site.say("MaterialsLoaded", {"Machine": "M2", "Slot": "1", "Reel": "K-1"})
        refused(it, "S/M1/3", "K-1")
        text = wait_for(
            "where it is",
            lambda: (told := it.text("verdict"))
            and "K-1 is on M2 slot 1" in told
            and "UNLOAD M2 slot 1" in told
            and told,
        )
        if "that slot" in text:
            raise Difference(text)
    print("M2 slot 1, also where it was moved")


READ = 47  # pixels: letters that are read from two metres on a screen of 24 inches


def test_each_refused_load_says_what_to_bring(site: Site) -> None:
    """The part, by which sheet, known from where, and free reels; an alternate of two parts at
    both; on green the reel's own part.
    """
    site.say("AlternateAllowed", {"PartNumber": "RES", "Alternate": "ALT"})
    site.say(
        "ReelOpened", {"Reel": "K-4"}
    )  # the first to end: the kit gives it to the first slot of CAP
    saw = []
    with Operator(site) as it:
        it.ready()

        def refused(word: str, *codes: str, part: str = "CAP") -> Any:
            it.does(*codes, kind="refused")
            wanted = (f"wants {part}", "by the sheet of CTRL-A (as set up for this page")
            text = wait_for(
                f"what to bring after {word}",
                lambda: all(one in (told := it.text("verdict")) for one in wanted)
                and ": " in told
                and told,
            )
            if word not in text or not re.search(r"K-\d.*: [\d,]+ pieces", text):
                raise Difference(f"{word} is not told with reels: {text}")
            saw.append(word)
            return text

        refused("unknown", "S/M1/1", "K-99")
        refused("level 6", "S/M1/10", "K-6", part="LED")
        text = refused("WRONG PART", "S/M1/2", "K-1", part="RES")
        if "K-4 (ALT, at slot 1)" not in text or "another one selected elsewhere" not in text:
            raise Difference(f"the alternate of RES: {text}")
        if "K-4: 900 pieces" not in refused("WRONG PART", "S/M1/3", "K-5"):
            raise Difference("the alternate of CAP")
        text = it.does("S/M1/1", "K-4", holds=("LOADED", "slot 1", "K-4", "floor life left"))
        text = wait_for(
            "the reel's own part", lambda: "ALT, lot L-4" in (told := it.text("verdict")) and told
        )
        if "names CAP for this slot" not in text:
            raise Difference(f"the sheet's part beside the reel's own: {text}")
        refused("is on a slot", "S/M1/3", "K-4")
        with it.without("*/desk/slots*"):
            wait_for("the page knows no more", lambda: is_old(it))
            site.say("MaterialsLoaded", {"Machine": "M1", "Slot": "3", "Reel": "K-1"})
            it.does("S/M1/3", "K-7", kind="refused")  # a load, as far as the page knows
        wait_for(
            "what to bring to a slot that is taken",
            lambda: "wants CAP" in it.text("verdict")
            and "has a reel with pieces left" in it.text("verdict"),
        )
        it.seen()
        it.does("S/M1/3", "K-7", holds=("SPLICED",))
        wait_for("the reel's own part", lambda: "CAP, lot L-7" in it.text("verdict"))
        if (sizes := letters(it, "word", "where", "life", "part")) != sorted(
            sizes, reverse=True
        ) or min(sizes) < READ:
            raise Difference(f"letters of a verdict: {sizes}")
        it.does("S/M1/77", "K-3", kind="refused", holds=("not on the sheet",))
        wait_for("the sheet of the page", lambda: "on no row of the sheet" in it.text("verdict"))
        if "Scan the reel" in it.text("verdict"):
            raise Difference(f"a slot that is on no sheet: {it.text('verdict')}")
        if min(sizes := letters(it, "word", "where", "todo", "part")) < READ:
            raise Difference(f"letters of a refusal: {sizes}")
    print(
        f"{len(saw)} refused loads with part, sheet, source and reels; one alternate at two slots;"
        " a splice right after a refusal"
    )


def test_an_alternate_that_was_refused_is_not_offered_again(site: Site) -> None:
    """The kit lists an alternate of CAP at slot 1. At a slot of RES it is shown as not sure; once
    the desk refused it there, it is shown there no more.
    """
    site.say(
        "ReelOpened", {"Reel": "K-4"}
    )  # the first to end: the kit gives it to the first slot of CAP
    with Operator(site) as it:
        it.ready()
        for reel, is_offered in (("K-1", True), ("K-4", False), ("K-1", False)):
            it.does("S/M1/2", reel, kind="refused", holds=("WRONG PART",))
            text = wait_for(
                "free reels",
                lambda: "K-2: " in (told := it.text("verdict")) and "wants RES" in told and told,
            )
            if ("Not sure" in text and "K-4 (ALT, at slot 1)" in text, "(ALT" in text) != (
                is_offered,
                is_offered,
            ):
                raise Difference(f"after {reel}, offered {is_offered}: {text}")
        it.does("S/M1/1", "K-4", holds=("LOADED",))
    print("not sure before its refusal, not shown after it, and taken at the slot that allows it")


def test_an_id_that_was_used_before(site: Site) -> None:
    """The host uses the UniqueID of a scan that waits: 409 is its answer, and the next scan goes
    out.
    """
    with Operator(site) as it:
        it.ready()
        site.stop_nginx()
        it.scan("A/OPEN", "K-1")
        (kept,) = wait_for("it is kept", it.scans)
        site.say("ReelOpened", {"Reel": "K-2"}, uid=kept["uid"])
        site.start_nginx()
        text = it.verdict(("refused",))[1]
        if "was used before" not in text or "Call the line leader" not in text:
            raise Difference(f"IdReused: {text}")
        it.does("A/OPEN", "K-3", holds=("OPENED",))
        answers = [scan["answer"].get("Refusal", scan["answer"]["Answer"]) for scan in it.scans()]
    if answers != ["IdReused", "Accepted"]:
        raise Difference(f"{answers}")
    print("IdReused in words, and the scan behind it accepted")
