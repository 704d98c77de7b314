"""Trace and what is printed are as the program's `report` has them."""
import base64
import csv
import io
import shutil
import subprocess
import time
from typing import Any

import pytest
from station_operator import Operator
from station_plant import all_states, asks
from station_site import ROOT, Site, wait_for
from tracedesk_dev.trial import Difference

pytestmark = pytest.mark.browser


def test_a_trace_is_the_report(site: Site) -> None:
    """A lot and a board at each detail, a card, the overdue list: the rows, the file that is saved,
    sorted and filtered.
    """
    for slot, reel in (("1", "K-1"), ("2", "K-2"), ("10", "K-8"), ("3", "K-3")):
        site.say("MaterialsLoaded", {"Machine": "M1", "Slot": slot, "Reel": reel})
    for board in range(12):
        site.say("WorkStarted", {"Machine": "M1", "Board": f"SN-{board}"})
        site.say(
            "MaterialsInstalled",
            {"Machine": "M1", "Board": f"SN-{board}", "Designators": ["C1", "R1", "D1", "C3"]},
        )
        site.say("WorkCompleted", {"Machine": "M1", "Board": f"SN-{board}"})
    asked = 0
    with Operator(site) as it:
        it.ready()
        for question, name, target in [
            ("lot", "L-1", "/trace/lot?lot=L-1&detail="),
            ("board", "SN-3", "/trace/board?board=SN-3&detail="),
        ]:
            for detail in "1234":
                wanted = list(csv.reader(io.StringIO(site.report(target + detail))))[1:]
                if (got := asks(it, question, name, detail)) != wanted:
                    raise Difference(f"{question} {detail}: {got[:2]} is not {wanted[:2]}")
                asked += 1
        if (
            asks(it, "reel", "K-1")
            != list(csv.reader(io.StringIO(site.report("/reel?reel=K-1"))))[1:]
        ):
            raise Difference("the card differs")
        asks(it, "lot", "L-1", "2")
        saves_and_sorts(site, it)
        asks(it, "lot", "NO-LOT")
        if "No reel of this lot" not in it.script(
            "return document.querySelector('form.trace .note').textContent"
        ):
            raise Difference("an unknown lot is not told")
    print(
        f"{asked} traces and a card as `report` has them; the saved file is the desk's answer to"
        " the byte; sorted and filtered"
    )


def saves_and_sorts(site: Site, it: Operator) -> None:
    it.page.execute_cdp_cmd(
        "Page.setDownloadBehavior", {"behavior": "allow", "downloadPath": str(site.room)}
    )
    it.script("document.querySelector('a.button').click()")
    saved = wait_for("the file", lambda: list(site.room.glob("lot-*.csv")))
    if saved[0].read_text() != site.report("/trace/lot?lot=L-1&detail=2"):
        raise Difference("the saved file is another than the report")
    before = it.rows()
    it.script(
        "document.querySelector('.result th button').click(); document.querySelector('.result th"
        " button').click()"
    )
    if it.rows() != sorted(before, key=lambda row: int(row[0][3:]), reverse=True):
        raise Difference(f"sorted: {it.rows()}")
    it.script(
        "const f = document.getElementById('filter'); f.value = 'sn-11'; f.dispatchEvent(new"
        " Event('input'))"
    )
    if {row[0] for row in it.rows()} != {"SN-11"} or "L-1" not in it.script(
        "return document.querySelector('.evidence').textContent"
    ):
        raise Difference(f"filtered: {it.rows()}")


def printed(site: Site, it: Operator, name: str) -> Any:
    """The text of the pages that the browser prints, a list with a text for each."""
    (site.room / f"{name}.pdf").write_bytes(
        base64.b64decode(
            it.page.execute_cdp_cmd(
                "Page.printToPDF",
                {
                    "printBackground": True,
                    "preferCSSPageSize": True,
                    "paperWidth": 8.27,
                    "paperHeight": 11.69,
                },
            )["data"]
        )
    )
    return subprocess.run(
        ["pdftotext", "-layout", site.room / f"{name}.pdf", "-"],
        check=True,
        capture_output=True,
        text=True,
    ).stdout.split("\f")[:-1]


def test_the_overdue_list(site: Site) -> None:
    """Pieces that were placed past their floor life: as `report` has them."""
    all_states(site)
    with Operator(site) as it:
        it.ready()
        wanted = [
            [*its, time.strftime("%Y-%m-%d %H:%M", time.localtime(int(minute) * 60))]
            for *its, minute in list(csv.reader(io.StringIO(site.report("/overdue"))))[1:]
        ]
        got = asks(it, "overdue", "")
        if not wanted or got != wanted:
            raise Difference(f"overdue: {got} is not {wanted}")
        evidence = it.script("return document.querySelector('.evidence').textContent")
        if "Overdue pieces" not in evidence or f"Rows: {len(wanted)}" not in evidence:
            raise Difference(f"evidence: {evidence}")
    print(f"{len(wanted)} as `report` has it")


BOARDS, MANY = 7, 180  # designators of one slot


def test_a_trace_is_printed_whole(site: Site) -> None:
    """More rows than the screen shows: printed are all, with the question, the filter and the order
    on the first page, and a head on each.
    """
    names = [f"R{number}" for number in range(1, MANY + 1)]
    site.say(
        "SheetDefined",
        {
            "Product": "LONG",
            "Machine": "M1",
            "Rows": [{"Slot": "1", "PartNumber": "RES", "Designators": names}],
        },
    )
    site.say("ProductSelected", {"Machine": "M1", "Product": "LONG"})
    site.say("MaterialsLoaded", {"Machine": "M1", "Slot": "1", "Reel": "K-2"})
    for board in range(BOARDS):
        site.say("WorkStarted", {"Machine": "M1", "Board": f"SN-{board}"})
        site.say(
            "MaterialsInstalled", {"Machine": "M1", "Board": f"SN-{board}", "Designators": names}
        )
        site.say("WorkCompleted", {"Machine": "M1", "Board": f"SN-{board}"})
    head, *rows = csv.reader(io.StringIO(site.report("/trace/lot?lot=L-2&detail=4")))
    with Operator(site) as it:
        it.ready()
        shown = asks(it, "lot", "L-2", "4")
        if len(rows) != BOARDS * MANY or len(shown) >= len(rows):
            raise Difference(f"{len(rows)} rows, {len(shown)} on the screen")
        pages = printed(site, it, "all")
        got = [
            line.split()
            for page in pages
            for line in page.split("\n")
            if line.strip().startswith("SN-")
        ]
        lacking = {row[0] + " " + name for row in rows for name in row if name in names} - {
            f"{line[0]} {word}" for line in got for word in line
        }
        if len(got) != len(rows) or lacking:
            raise Difference(
                f"{len(got)} of {len(rows)} rows are printed, without {sorted(lacking)[:5]}"
            )
        if any(head[0] not in page for page in pages) or "lot L-2, detail 4" not in " ".join(
            pages[0].split()
        ):
            raise Difference(f"the first page: {pages[0][:600]}")
        it.script(
            """document.querySelectorAll('.result th button')[0].click(); document.querySelectorAll('.result th button')[0].click();
                     const f = document.getElementById('filter'); f.value = 'sn-3'; f.dispatchEvent(new Event('input'));"""
        )
        some = " ".join(" ".join(printed(site, it, "some")).split())
        if (
            f'Filter: "sn-3", {MANY} of {len(rows):,} rows' not in some
            or f"Order: {head[0]}, descending" not in some
            or "SN-2" in some
            or some.count("SN-3") != MANY
        ):
            raise Difference(f"filtered: {some[:900]}")
    print(
        f"{len(rows)} rows on {len(pages)} pages where the screen shows {len(shown)}; the filter"
        " and the order stand in the evidence"
    )


def test_the_operators_sheet_is_one_page(site: Site) -> None:
    """docs/station-operator.md as the package has it, printed by a browser: one page of A4 that
    names each action and each state.
    """
    if not shutil.which("pandoc"):
        pytest.skip("there is no pandoc here: apt-get install pandoc")
    page = ROOT / "docs/station-operator.md"
    text = page.read_text()
    with open(site.room / "made.html", "wb") as made_page:
        subprocess.run([ROOT / "packaging/html", page], stdout=made_page, check=True)
    with Operator(site) as it:
        names = it.script(
            "return import('/station/words.js').then((it) => [it.TEXTS.actions,"
            " it.TEXTS.line.states, it.TEXTS.line.urgent, it.TEXTS.verdict])"
        )
        codes = it.script("return import('/station/scan.js').then((it) => it.ACTIONS)")
        it.page.get((site.room / "made.html").as_uri())
        made = printed(site, it, "made")
    words = (
        [names[0][code] for code in (*codes, "ENTER", "RECEIVE")]
        + [word for state, word in names[1].items() if state not in ("OK", "NOSHEET")]
        + [names[2]["BEHIND"], names[3]["refused"], names[3]["asked"]]
    )
    lacking = [word for word in words if word not in " ".join(text.split())]
    if len(made) != 1 or "At the line" not in made[0] or lacking:
        raise Difference(f"{len(made)} pages, without {lacking}")
    print(f"one page, with {len(words)} words of the screen")
