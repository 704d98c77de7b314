"""Holds and releases by the page of recalls: entries in the books of lines."""
from __future__ import annotations

import csv
import html
import json
import pathlib
from typing import Any, Iterator

import pytest
from lab import small
from lab.desk import START, Desk
from lab.line import Line
from test_recall_page import Site
from tracedesk_dev.ports import free_port

pytestmark = [pytest.mark.needs("python:flask"), pytest.mark.xdist_group("recall_page")]

HELD = {"badge": "4711", "reason": "wrong <label>"}
LOADED = small.say("MaterialsLoaded", "on", Machine="M1", Slot="1", Reel="K-3")


@pytest.fixture(scope="module")
def line(line_program: pathlib.Path, tmp_path_factory: pytest.TempPathFactory) -> Iterator[Line]:
    """A line that tracedesk-line serves, with a reel of lot L-3 on its machine M1."""
    made = Line(line_program, tmp_path_factory.mktemp("held"))
    made.serve()
    made.accept(*small.set_up(), LOADED)
    yield made
    made.end()


@pytest.fixture
def site(line: Line, tmp_path: pathlib.Path, monkeypatch: pytest.MonkeyPatch) -> Site:
    return Site(line, tmp_path, monkeypatch)


def answer(site: Site, kind: str, names: str, **more: Any) -> str:
    """What the page says of a hold or a release once it is worked off."""
    at = site.asked(kind, names, **{**HELD, **more})
    site.worker().work(is_once=True)
    return html.unescape(site.page(at))


def causes(line: Line) -> "list[str]":
    told = json.loads(line.get("/line/state?machine=M1")[1])
    return [its["Reel"] for its in told["Causes"] if its["Cause"] == "Held"]


def told_last(line: Line) -> "dict[str, str]":
    """What the newest entry of the line's book says."""
    (*_, row) = csv.DictReader(line.get("/line/book?after=0")[1].splitlines())
    return {"kind": row["kind"], **json.loads(row["told"])}


def test_a_lot_is_held_until_it_is_released(site: Site, line: Line) -> None:
    page = answer(site, "hold lot", "L-3, L-4")
    assert "Held: L-3, L-4, on all lines of this machine." in page
    assert "Held by 4711, in the book of L1: L-3" in page and causes(line) == ["K-3"]
    own = {"Name": "L-4", "By": "4711, by the log-in anna", "Reason": "wrong <label>"}
    assert told_last(line) == {"kind": "hold", "Hold": "lot", **own}
    assert "Held: L-3, L-4" in site.page("/recall/")
    assert "Released: L-3, on all" in answer(site, "release lot", "L-3") and causes(line) == []


def test_a_reel_is_held_until_it_is_released(site: Site, line: Line) -> None:
    answer(site, "hold reel", "K-3")
    assert causes(line) == ["K-3"]
    answer(site, "release reel", "K-3")
    assert causes(line) == [] and told_last(line)["Release"] == "reel"


@pytest.mark.parametrize("lacking", HELD)
def test_nobody_holds_without_a_badge_and_a_reason(site: Site, lacking: str) -> None:
    told = site.ask("hold lot", "L-3", **{**HELD, lacking: ""})
    assert told.status_code == 400 and "Scan your badge" in told.get_data(as_text=True)


@pytest.mark.parametrize("reason", ["a\nb", "ü" * 501])
def test_a_reason_that_no_book_takes_is_refused(site: Site, reason: str) -> None:
    assert site.ask("hold lot", "L-3", **{**HELD, "reason": reason}).status_code == 400


def test_a_line_that_is_not_held_is_named(site: Site, line: Line) -> None:
    """The others are held. Each question is asked of the lines that are set up then."""
    assert "Released: L-3, on all" in answer(site, "release lot", "L-3")
    site.set_up("L2", db="/srv/L2/desk", port=free_port())
    site.set_up("L3", mirror="/srv/L3")
    page = answer(site, "hold lot", "L-3")
    assert "NOT HELD on each line" in page and "L2: L-3: its desk can't be asked" in page
    assert "L3: its desk is on another computer" in page
    assert "in the book of L1: L-3" in page and causes(line) == ["K-3"]
    for file in site.etc.glob("*.conf"):
        file.unlink()
    assert "no line is set up on this machine" in answer(site, "release lot", "L-3")


def test_a_hold_of_another_day_is_none(site: Site, line: Line) -> None:
    """As if its answer was deleted: a release may have come since."""
    before = line.get("/line/counts")
    site.asked("hold lot", "L-3", **HELD)
    asked, old = site.queue.folder / "asked", "20260302T060000.000000Z-00000000"
    (asked / f"{site.queue.waiting()[0].name}.json").rename(asked / f"{old}.json")
    site.worker().work(is_once=True)
    assert "NOT DONE: it is of another day." in site.page(f"/recall/{old}/")
    assert line.get("/line/counts") == before


def test_a_server_without_a_book_holds_nothing(
    site: Site, line: Line, program: pathlib.Path, tmp_path: pathlib.Path
) -> None:
    """As `tracedesk serve`, which has none of a line's routes."""
    plain = Desk(program, tmp_path / "plain/desk")
    port = f"{plain.port} --connections 100"
    plain.start_script.write_text(START.format(program=program, file=plain.file, port=port))
    plain.serve()
    (tmp_path / "etc/L2.conf").write_text(f"line = L2\ndb = /srv/L2/desk\nport = {plain.port}\n")
    try:
        page = answer(site, "hold lot", "L-3")
    finally:
        plain.end()
    assert "NOT HELD on each line" in page and "L2: L-3: its server keeps no book" in page
    assert "in the book of L1: L-3" in page and causes(line) == ["K-3"]
