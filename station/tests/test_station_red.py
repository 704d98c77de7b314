"""Red stays until somebody has seen it, and nothing is dropped without a word."""
import time

import pytest
from station_line import report
from station_operator import Operator
from station_plant import GUARD, book, opened, refused, touch, whole
from station_site import SETUP, Site, wait_for
from tracedesk_dev.trial import Difference

pytestmark = pytest.mark.browser
GATES = """const fetched = window.fetch, pause = () => new Promise((done) => setTimeout(done, 20));
window.fetch = async (...how) => { while (window.shut?.test(how[0])) { await pause(); } return fetched(...how); };"""
# Touches all that is shown of a red screen, as soon as it is there.
AT_ONCE = """window.touched = 0;
const place = document.getElementById('verdict'), watch = new MutationObserver(() => {
  if (place.className === 'refused') {
    watch.disconnect();
    for (const it of [place, place.querySelector('.close')]) { window.touched += 1; it.click(); }
  }
});
watch.observe(place, { childList: true, attributes: true });"""
REDS = (
    "return [...document.querySelectorAll('#verdict:not([hidden]) :is(.one.refused,"
    " .brief)')].map((it) => it.dataset.scan)"
)


def test_untraced_work_is_red(site: Site) -> None:
    """A refused report of work stands on Line until it is decided, and so does a load without an
    answer.
    """
    site.say("WorkStarted", {"Machine": "M1", "Board": "SN-7"})
    first = "return document.querySelector('.first')?.innerText ?? ''"
    words = ("M1 1", "WorkStarted", "SN-7", "has no reel", "Put the board aside", "ACKNOWLEDGE")
    with Operator(site) as it:
        it.ready()
        wait_for("the refusal", lambda: all(word in it.script(first) for word in words))
        press = "document.querySelector('.first button')?.click()"
        it.script(press)
        wait_for("a badge is wanted", lambda: "Scan your badge" in it.text("verdict"))
        it.seen()
        it.scan("B/anna")
        time.sleep(1)  # a second touch at once is none
        it.script(press)
        wait_for("it is decided", lambda: "SN-7" not in it.script(first))
        it.does("S/M1/1", "K-2", kind="refused", holds=("TAKEN OFF",))
        it.seen()

        refused = [(one["slot"], one["reel"]) for one in book(site) if one["kind"] == "handling"]
        if refused != [("1", "K-2")]:
            raise Difference(f"the book: {refused}")
        site.kill_desk()
        it.does("S/M1/1", "K-3", kind="asked", holds=("NOT VERIFIED", "don't run this slot"))
        it.seen()
        wait_for("it is not verified", lambda: "M1 1: K-3 NOT VERIFIED" in it.script(first))
        site.start_desk()
        wait_for("it is verified", lambda: it.script(first) == "")
    print("a refusal that is decided, a refused load that is recorded, and a load that is answered")


def test_a_refusal_stays(site: Site) -> None:
    """Until a touch or the next scan of the same slot: over other scans, over a green, over a
    reload; and a touch too soon is none.
    """
    with Operator(site) as it:
        it.ready()
        refused(it, "S/M1/2", "K-3")
        it.does("S/M1/1", "K-1", holds=("LOADED", "REFUSED: M1 slot 2 · K-3: WRONG PART"))
        it.scan("S/M2/1")
        wait_for(
            "red again",
            lambda: it.script("return document.getElementById('verdict').className") == "refused"
            and "M1 slot 2" in it.text("verdict")
            and "M2 slot 1" in it.text("held"),
        )
        it.load()
        if "M1 slot 2 · K-3" not in it.verdict(("refused",))[1]:
            raise Difference("after a reload")
        it.scan("S/M1/2")
        wait_for(
            "the same slot takes it away",
            lambda: it.script("return document.getElementById('verdict').hidden")
            and "M1 slot 2" in it.text("held"),
        )
        it.script(AT_ONCE)
        it.does("K-1", kind="refused")
        if it.script("return window.touched") < 2:
            raise Difference("nothing was touched")
        time.sleep(GUARD)
        touch(it, "#verdict .close")
        wait_for(
            "a touch takes it away",
            lambda: it.script("return document.getElementById('verdict').hidden"),
        )
        site.pause_desk()
        it.scan("S/M1/2", "K-3", "S/M2/2", "K-2")
        site.resume_desk()
        wait_for("both answers", lambda: all(scan["state"] == "answered" for scan in it.scans()))
        wait_for(
            "the refusal is beside the green",
            lambda: "LOADED" in it.text("verdict")
            and "M1 slot 2 · K-3: WRONG PART" in it.text("verdict"),
        )
        it.load()
        it.verdict(("refused",))
        it.seen()
        it.keeps_what_was_seen()
        it.load()
        it.ready()
        if not it.script("return document.getElementById('verdict').hidden"):
            raise Difference("what was seen came again")
        whole(site, it, 5)
    print(
        "over a green, another slot, a reload and one without an answer; gone by a touch and by its"
        " slot"
    )


def test_a_late_refusal_stays(site: Site) -> None:
    """One that comes after the scan of its reel, while a number is typed or while that scan waits
    for its turn, was not seen by that scan.
    """
    site.say("MaterialsLoaded", {"Machine": "M1", "Slot": "1", "Reel": "K-1"})
    with opened(site, GATES) as it:
        it.ready()
        for at, (shut, codes, then, typed) in enumerate(
            (
                ("/messages/", ("K-1", "A/COUNT"), "null", ("A/5", "A/ENTER")),
                ("/messages|reel/", ("K-2", "A/COUNT", "10", "K-1"), "/reel/", ()),
            )
        ):
            it.script(f"window.shut = {shut}")
            it.scan("A/SEAL", "K-1", *codes)
            it.script(f"window.shut = {then}")
            wait_for("the refusal", lambda: it.script(REDS))
            it.scan(*typed)
            scans = wait_for(
                "all scans are answered",
                lambda: len(told := it.scans()) == 2 * (at + 1)
                and all(scan["state"] == "answered" for scan in told)
                and told,
            )
            wait_for(
                "nothing else is held",
                lambda: "how many" not in it.text("held") and (typed or "K-1" in it.text("held")),
            )
            if (seal := scans[-2])["word"] != "ReelSealed" or seal["uid"] not in it.script(REDS):
                raise Difference(
                    f"a refusal went by a scan before it: {seal['answer']}, shown are"
                    f" {it.script(REDS)}"
                )
            it.script("window.shut = null")
            it.seen()
        whole(site, it, 4)
    print("while a number was typed, and while a scan waited for its turn")


def test_a_tone_for_each_verdict(site: Site) -> None:
    """The tones that the page asks its AudioContext for: two rising for a yes, two low ones for a
    no, a short one for a wait.
    """
    with Operator(site, begin=False) as it:
        it.size = (1920, 1080)
        it.open(
            before="""window.tones = []; const start = OscillatorNode.prototype.start;
            OscillatorNode.prototype.start = function (...at) { window.tones.push([this.type, Math.round(this.frequency.value)]); return start.apply(this, at); };"""
        )
        it.ready()
        heard = {}
        for kind, codes in (
            ("accepted", ("A/OPEN", "K-1")),
            ("refused", ("S/M1/1", "K-2")),
            ("fault", ("S/M9/1",)),
        ):
            it.script("window.tones = []")
            it.does(*codes, kind=kind)
            heard[kind] = it.script("return window.tones")
    wait, yes, no = (
        ["sine", 520],
        [["sine", 880], ["sine", 1320]],
        [["square", 196], ["square", 165]],
    )
    if heard != {"accepted": [wait, *yes], "refused": [wait, *no], "fault": no}:
        raise Difference(f"{heard}")
    print("3 verdicts: " + "; ".join(f"{kind} {len(tones)} tones" for kind, tones in heard.items()))


def test_what_is_dropped_is_said(site: Site) -> None:
    """Without the desk the third of OPEN, SEAL, OPEN is kept, and the same scan again isn't; a
    second SCRAP is asked about; NOT SENT outlives a reload.
    """
    with Operator(site) as it:
        it.ready()
        site.kill_desk()
        for codes in (
            ("A/OPEN", "K-1"),
            ("A/SEAL", "K-1"),
            ("A/OPEN", "K-1"),
            ("S/M1/1", "K-3"),
            ("S/M1/1", "A/UNLOAD"),
            ("S/M1/1", "K-3"),
        ):
            it.does(*codes, kind="asked")
        it.does("S/M1/1", "K-3", kind="fault", holds=("DROPPED", "K-3 on slot 1", "scan it again"))
        it.does("S/M1/1", "A/SCRAP", "5", kind="asked")
        it.does("S/M1/1", "A/SCRAP", "5", kind="ask", holds=("meant a second time",))
        it.scan("S/M1/2")
        wait_for(
            "what was scanned meanwhile",
            lambda: "A question is open" in it.text("held")
            and "S/M1/2 was NOT taken" in it.text("held"),
        )
        it.does("A/ENTER", kind="asked")
        wait_for(
            "they wait",
            lambda: "8 scans have no answer" in it.text("waiting") and "OLD" in it.text("state"),
        )
        site.start_desk()
        whole(site, it, 8)
        if report(site, "/reel?reel=K-3")[0]["remaining"] != "290":
            raise Difference(f"5 pieces scrapped twice: {report(site, '/reel?reel=K-3')}")
        it.seen()
        it.does("S/M1/1", "A/SCRAP", "9000", kind="refused")
        if [one["word"] for one in book(site)] != ["ReelShort"]:
            raise Difference(f"the book: {book(site)}")
        it.seen()
        site.set_up({**SETUP, "badgeWanted": True})
        it.load()
        it.ready().does("A/OPEN", "K-8", kind="refused", holds=("NOT SENT",))
        wait_for("that is kept", lambda: it.kept()[-1]["state"] == "notSent")
        it.load()
        it.does(kind="refused", holds=("NOT SENT", "K-8"))
        it.seen()
    print(
        "8 scans without the desk, 1 dropped and said so, 1 asked about; 1 entry of untraced work;"
        " NOT SENT outlives a reload"
    )


def test_a_refusal_of_a_closed_tab_is_shown(site: Site) -> None:
    """The tab that made the scan is closed before the answer, while another one is open."""
    with Operator(site) as it:
        it.ready()
        first = it.page.current_window_handle
        it.page.switch_to.new_window("tab")
        it.load()
        it.ready()
        site.pause_desk()
        it.scan("S/M1/2", "K-1")
        wait_for("it is kept", lambda: len(it.scans()) == 1)
        it.page.close()
        it.page.switch_to.window(first)
        site.resume_desk()
        it.does(kind="refused", holds=("WRONG PART", "K-1"))
        it.seen()
    print("1 refusal, shown in the tab that is left")
