"""Clocks that jump, a tablet that slept, disks that fail, a desk that is slow or begun anew."""
import concurrent.futures
import re
import time
from typing import Any

import pytest
import station_site
from station_costs import KITS, PERIODS, days
from station_line import shown_rows
from station_operator import Operator
from station_plant import CLOCKS, DISK, GUARD, count_is, opened, refused, whole
from station_site import SETUP, Site, wait_for
from tracedesk_dev import begun
from tracedesk_dev.trial import Difference

pytestmark = pytest.mark.browser


NOW = "return import('/station/clock.js').then((it) => it.now())"


def is_told(it: Operator, millions: int) -> None:
    """Waits until the page knows that the server's clock is so many million seconds ahead."""
    ahead = millions * 10**6
    wait_for("the page knows it", lambda: abs(it.script(NOW) / 1000 - time.time() - ahead) < 3_600)


def test_a_servers_clock_that_jumps(site: Site) -> None:
    """23 days ahead, then right again: each jump is asked about, a no sends nothing, and no later
    scan has the wrong time.
    """
    with Operator(site) as it:
        it.ready().does("A/OPEN", "K-1")
        site.shift_clock(2)
        is_told(it, 2)
        after = it.turn()
        it.scan("A/OPEN", "K-2")
        if "clock jumped" not in it.verdict(("ask", "accepted", "refused"), after=after)[1]:
            raise Difference(f"a jump of 23 days: {it.text('verdict')}")
        it.scan("K-3")
        it.scan("A/CANCEL")
        wait_for(
            "the question is gone",
            lambda: it.script("return document.getElementById('verdict').hidden"),
        )
        count_is(it, 1, "a no")
        it.scan("A/OPEN", "K-2")
        it.verdict(("ask",))
        it.does("A/ENTER", kind="refused", holds=("more than 14 days",))
        it.seen()
        site.shift_clock(0)
        is_told(it, 0)
        it.scan("A/OPEN", "K-2")
        it.verdict(("ask",))
        it.does("A/ENTER", holds=("OPENED", "K-2"))
        it.does("A/OPEN", "K-3", holds=("OPENED",))
        scans = whole(site, it, 4)
        if (late := abs(scans[-1]["at"] / 1000 - time.time())) > 60:
            raise Difference(f"the time of the last scan is {late} seconds off")
    print("23 days ahead and back: 2 questions yes, 1 no; a refused scan's time is not kept")


SET_CLOCK = "[...document.querySelectorAll('form.changeover button')].at(-1).click()"


def life(site: Site) -> int:
    """The minutes left of the one reel on M1, at the desk's minute."""
    return int(site.report("/slots?machine=M1").split()[1].split(",")[-1])


def test_a_leader_sets_the_clock_of_an_idle_line(site: Site) -> None:
    """Without a badge nothing is asked, and a no sends nothing. A yes moves the desk to the
    server's time, and the Line shows the floor lives of now.
    """
    load = {"Machine": "M1", "Slot": "3", "Reel": "K-4"}
    site.say("MaterialsLoaded", load, minutes_ago=5)
    before = life(site)
    with Operator(site) as it:
        it.ready().go("changeover")
        it.script(SET_CLOCK)
        if "Scan your badge" not in it.verdict(("fault",))[1]:
            raise Difference(it.text("verdict"))
        it.scan("B/anna")
        for answer in ("A/CANCEL", "A/ENTER"):
            time.sleep(GUARD)  # a second touch so soon is none
            it.script(SET_CLOCK)
            if "The desk's clock will be set to 2" not in it.verdict(("ask",))[1]:
                raise Difference(it.text("verdict"))
            it.scan(answer)
        it.verdict(("accepted",))
        it.does(holds=("CLOCK SET", time.strftime("%H:")))
        (scan,) = whole(site, it, 1)
        told = scan["word"], scan["source"], abs(scan["at"] / 1000 - time.time()) < 60
        if told != ("ClockSet", "W1 anna", True) or life(site) > before - 4:
            raise Difference(f"{told}, and of {before} minutes are left {life(site)}")
        it.go("line")


def test_a_tablet_that_slept(site: Site) -> None:
    """The steady clock stood still for ten hours: the first scan has the time of the server, and
    without a server none is made.
    """
    with opened(site, CLOCKS) as it:
        it.ready().does("A/OPEN", "K-1")
        it.script("window.asleep = 36e6")
        it.does("A/SEAL", "K-1", holds=("SEALED",))
        if (late := abs(it.scans()[-1]["at"] / 1000 - time.time())) > 60:
            raise Difference(f"the first scan after a night is {late:.0f} seconds off")
        it.script("window.asleep = 0")
        site.stop_nginx()
        it.does("A/OPEN", "K-2", kind="refused", holds=("NOT SENT", "time is not known"))
        site.start_nginx()
        it.does("A/OPEN", "K-2", holds=("OPENED",))
        whole(site, it, 3)
    print("the server's time after ten hours of sleep; none without it")


def test_what_is_held_is_forgotten(site: Site) -> None:
    """A slot and a badge that nobody used for long are not for the next person; a plant may want a
    badge.
    """
    with opened(site, CLOCKS) as it:
        it.ready().scan("B/anna", "S/M1/1")
        wait_for("the slot is held", lambda: "M1 slot 1" in it.text("held"))
        it.script("window.later = 180e3")
        wait_for("it is forgotten", lambda: "forgotten" in it.text("held"))
        it.scan("K-1")
        wait_for("the reel is looked at", lambda: "Reel K-1" in it.text("held"))
        it.does("A/OPEN")
        it.script("window.later = 2 * 36e5 - 6e4")
        wait_for(
            "the badge is forgotten",
            lambda: "none" in it.text("who") and "badge" in it.text("held"),
        )
        it.scan("A/OPEN", "K-2")
        it.verdict(("ask",))  # the tablet's clock jumped
        it.does("A/ENTER")
        sources = [scan["source"] for scan in whole(site, it, 2)]
    site.set_up({**SETUP, "badgeWanted": True})
    with Operator(site, name="W2") as it:
        it.ready().agrees = False
        refused(it, "A/OPEN", "K-3")
        if "Scan your badge first" not in it.text("verdict"):
            raise Difference(it.text("verdict"))
        it.scan("B/otto")
        it.does("A/OPEN", "K-3")
        sources += [scan["source"] for scan in whole(site, it, 1)]
    if sources != ["W1 anna", "W1", "W2 otto"]:
        raise Difference(f"sources: {sources}")
    print("a slot after three minutes, a badge after two hours; a badge that is wanted")


def test_a_disk_that_fails_once(site: Site) -> None:
    """An answer that can't be kept, a scan that can't be kept, a store that the browser closed: the
    next scans are taken.
    """
    with opened(site, DISK) as it:
        it.ready().does("A/OPEN", "K-1")
        it.script("window.failing.put = 1")
        it.does("A/OPEN", "K-2", holds=("OPENED", "K-2"))
        it.script("window.failing.add = 1")
        it.does("A/OPEN", "K-3", kind="refused", holds=("NOT SENT", "a disk that fails"))
        it.does("A/OPEN", "K-3", holds=("OPENED", "K-3"))
        it.script("window.stores.forEach((it) => it.close())")
        it.does("A/OPEN", "K-4", holds=("OPENED", "K-4"))
        for is_kept in ("false", "true"):
            wait_for(
                "the browser has said whether it keeps them",
                lambda: it.script("return import('/station/store.js').then((it) => it.isKept())")
                is (is_kept == "true"),  # noqa: B023
            )
            it.go("scan")
            if ("may throw kept scans away" in it.text("main")) != (is_kept == "false"):
                raise Difference(f"a browser whose store is kept, {is_kept}: {it.text('main')}")
            it.page.execute_cdp_cmd(
                "Page.addScriptToEvaluateOnNewDocument",
                {"source": "navigator.storage.persist = async () => true"},
            )
            it.load()
        whole(site, it, 4)
    print(
        "4 scans over 3 faults of the disk, each acted once; the screen Scan says whether the"
        " browser keeps them"
    )


def test_a_sheet_is_asked_for_again(site: Site) -> None:
    """A sheet that isn't had at the first look is there at the next one, not five minutes later."""
    with Operator(site, begin=False) as it:
        it.open()
        with it.without("*/desk/kit*machine=M1*"):
            it.load()
            it.ready()
            if shown_rows(it, "M1"):
                raise Difference(f"a sheet that was not had: {shown_rows(it, 'M1')}")
        wait_for("M1's sheet is had", lambda: shown_rows(it, "M1"))
    print("M1's sheet not at the first look, and at one of the next")


DAYS = 30  # that a million connections have to last
SINCE = 20  # seconds that an answer may be old where a page is there that asks


def test_a_scan_over_a_roll_over(site: Site) -> None:
    """The desk takes a scan, its answer is lost, and a new desk is begun: that scan is done, and
    the one behind it acts in the new desk.
    """
    with Operator(site) as it:
        it.ready()
        site.stop_nginx()
        it.scan("A/OPEN", "K-1", "A/OPEN", "K-2")
        first = wait_for("both are kept", lambda: len(kept := it.scans()) == 2 and kept[0])
        site.kill_desk()
        site.feed([first["text"].encode()])
        archive = (site.room / "desk").rename(site.room / "archive")
        if (log := site.room / "desk-wal").exists():
            log.rename(site.room / "archive-wal")
        site.feed(begun.messages_of(archive))
        site.start_desk()
        site.start_nginx()
        answers = [scan["answer"] for scan in whole(site, it, 2)]
        if [(told["Answer"], told.get("Archived")) for told in answers] != [
            ("Accepted", True),
            ("Accepted", None),
        ]:
            raise Difference(f"{answers}")
        wait_for(
            "both are shown",
            lambda: "the desk before this one" in (text := it.text("verdict"))
            and "open K-2" in text,
        )
    print("the archive's scan is done and acts once; the one behind it accepted by the new desk")


def test_a_slow_desk_is_not_said_to_be_away(site: Site) -> None:
    """A key whose time is over while the desk is slow: the others get the answer before with its
    age; the page says SLOW and not OLD, and no age where it is young.
    """
    with Operator(site) as it, concurrent.futures.ThreadPoolExecutor(40) as threads:
        it.ready()
        site.pause_desk()
        asked: list[Any] = []
        said: set[str] = set()
        begun = time.monotonic()
        end = begun + 40 * station_site.slower
        while time.monotonic() < end and not any(text.startswith("SLOW") for text in said):
            if len(asked) < 36:
                asked += [
                    threads.submit(
                        site.asked, "GET", f"/station/desk/slots?machine={machine}", "office"
                    )
                    for machine in ("M1", "M2")
                ]
            said.add(re.sub(r"\d+", "#", it.text("state")))
            time.sleep(0.3)
        site.resume_desk()
        paused = time.monotonic() - begun
        wait_for(
            "it is fresh again",
            lambda: it.script("return document.getElementById('state').className") == "fresh",
        )
        ages: dict[Any, list[Any]] = {}
        for status, headers, _ in (one.result() for one in asked):
            ages.setdefault((status, headers["X-Station-Cache"]), []).append(
                float(headers["X-Station-Now"]) - float(headers["X-Desk-Answered"])
            )
        if (
            {status for status, _ in ages} != {200}
            or "STALE" in {cached for _, cached in ages}
            or max(ages[200, "UPDATING"]) > paused + SINCE
        ):
            raise Difference(f"beside one that asks: {ages}")
        if (
            any("does not answer" in text for text in said)
            or not any(text.startswith("desk answered") for text in said)
            or not any(text.startswith("SLOW") for text in said)
        ):
            raise Difference(f"a slow desk is told as {said}")
    status, headers, body = site.asked("GET", "/station/desk/slots?machine=NO-SUCH", "office")
    if status != 404 or "X-Desk-Answered" not in headers or "NotFound" not in body:
        raise Difference(f"an unknown machine: {status} {headers}")
    site.set_up({**SETUP, "machines": [{"machine": "NO-SUCH"}]})
    with Operator(site, name="W2") as it:
        wait_for("the desk has answered", lambda: "desk answered" in it.text("state"))
    print(f"told in turn: {', '.join(sorted(said))}; a name that no sheet has is an answer too")


def test_ten_pages_that_scan_at_once(site: Site) -> None:
    """Ten browsers that were begun at random times: their looks are one station's, by which a
    million connections last thirty days; and each one's scans act once.
    """
    for number in range(10):
        site.say(
            "ReelReceived",
            {
                "Reel": f"T-{number}",
                "PartNumber": "CAP",
                "Lot": "L-T",
                "Level": "3",
                "Quantity": 100,
            },
            minutes_ago=5,
        )
    with concurrent.futures.ThreadPoolExecutor(10) as threads:
        pages = list(threads.map(lambda number: Operator(site, name=f"T{number}"), range(10)))
        try:
            list(threads.map(Operator.ready, pages))
            (period, _), *_ = periods = pages[0].script(PERIODS)
            last = [days(machines, *one) for machines, one in zip((2, 4, 8), periods)]
            begin = (time.time() // period + 1.5) * period
            time.sleep(begin - time.time())
            turn, before = time.time() // KITS, site.connections()
            time.sleep(3 * period)
            used, most = site.connections() - before, 3 * 2 + 3 * int(time.time() // KITS - turn)
            if used > most or min(last) < DAYS:
                raise Difference(
                    f"{used} connections in three looks of ten pages, and {most} are one page's; at"
                    f" 2, 4 and 8 machines a million last {last} days"
                )

            list(threads.map(a_station_works, enumerate(pages)))
            scans = [
                scan
                for number, page in enumerate(pages)
                for scan in whole(site, page, 4 if number < 4 else 3)
            ]
            for page in pages[:4]:
                site.last_look(page)
        finally:
            list(threads.map(Operator.close, pages))
    if len({scan["uid"] for scan in scans}) != len(scans) or {
        scan["answer"]["Answer"] for scan in scans
    } != {"Accepted"}:
        raise Difference(f"{[scan['answer'] for scan in scans]}")
    print(
        f"{used} connections in three looks of ten pages; {len(scans)} scans at once, each acted"
        " once"
    )


def a_station_works(numbered: Any) -> None:
    """A bag is opened, sealed and opened; four stations load their reel, each on a slot of its
    own.
    """
    number, page = numbered
    for action, text in (("OPEN", "OPENED"), ("SEAL", "SEALED"), ("OPEN", "OPENED")):
        page.does(f"A/{action}", f"T-{number}", holds=(text, f"T-{number}"))
    if number < 4:
        page.does(
            ("S/M1/1", "S/M1/3", "S/M2/1", "S/M2/3")[number], f"T-{number}", holds=("LOADED",)
        )
