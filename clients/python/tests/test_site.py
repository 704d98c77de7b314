"""The packaged proxy before a line that is served: who may put what for it, and a sender's
interlock.
"""
from __future__ import annotations

import json
import pathlib
import tempfile
import time
from typing import Any, Dict, Iterator, List

import at_port
import interlocked
import pytest
from station_site import Site

pytestmark = pytest.mark.needs("nginx", "openssl")
DECISIONS = "/line/decisions"
FOREIGN: List[Dict[str, str]] = [
    {"Origin": "https://elsewhere.example"},
    {"Sec_Fetch_Site": "cross-site"},
    {"Origin": "null"},
]


@pytest.fixture(scope="module")
def site(program: pathlib.Path, line_program: pathlib.Path) -> Iterator[Any]:
    with tempfile.TemporaryDirectory(prefix="LN-site-") as room:
        with Site(str(program), room) as made:
            yield made


def test_no_place_of_the_line_asks_a_browser_for_a_password(site: Any) -> None:
    """A page's request, which says that it is one, is answered without a challenge."""
    for user, dest, wanted in ((None, None, 401), ("office", "empty", 403)):
        status, _, body = site.asked("POST", DECISIONS, user, "{}", Sec_Fetch_Dest=dest)
        assert (status, json.loads(body)) == (wanted, {"Answer": "Proxy", "Fault": "LogIn"})


def test_a_sender_puts_its_own_status(site: Any) -> None:
    for user, certificate, name, status in (
        ("op", None, "op", 201),
        ("op", None, "op", 204),
        ("op", None, "m2", 403),
        (None, "m2", "m2", 201),
        (None, "m2", "op", 403),
        ("op", "m2", "op", 403),
        ("office", None, "office", 401),
        (None, None, "op", 403),
    ):
        path = f"/line/status/{name}.json"
        found = site.asked("PUT", path, user, "{}", certificate=certificate)[0]
        assert found == status, (user, name)
    assert (site.room / "line/status/op.json").read_text() == "{}"


@pytest.mark.parametrize("headers", FOREIGN)
def test_what_another_site_has_a_browser_send_is_refused(
    site: Any, headers: Dict[str, str]
) -> None:
    for method in ("PUT", "POST", "DELETE", "OPTIONS", "MKCOL"):
        for path in ("/line/status/op.json", DECISIONS, "/messages", "/station/messages"):
            status, _, body = site.asked(method, path, "op", "{}", **headers)
            assert (status, json.loads(body)["Fault"]) == (403, "OtherSite"), (method, path)
    wanted = 403 if "Origin" in headers else 200
    assert site.asked("GET", "/overdue", "op", **headers)[0] == wanted
    assert site.asked("GET", "/overdue", "op", Origin=site.url)[0] == 200


def message(word: str, uid: str, **body: Any) -> Dict[str, Any]:
    at = time.strftime("%Y-%m-%dT%H:%M:%SZ", time.gmtime())
    return at_port.told(word, uid, "tablet", at, Machine="M1", **body)


def plant(site: Any) -> None:
    site.say("PartDefined", {"PartNumber": "CAP"})
    site.say("PartDefined", {"PartNumber": "RES"})
    rows = [{"Slot": "1", "PartNumber": "CAP", "Designators": ["C1"]}]
    site.say("SheetDefined", {"Product": "P", "Machine": "M1", "Rows": rows})
    site.say("ProductSelected", {"Machine": "M1", "Product": "P"})
    for reel, part in (("K-1", "CAP"), ("K-2", "CAP"), ("WRONG", "RES")):
        body = {"Reel": reel, "PartNumber": part, "Lot": "L", "Level": "1", "Quantity": 99}
        site.say("ReelReceived", body)
    site.say("MaterialsLoaded", {"Machine": "M1", "Slot": "1", "Reel": "K-1"})


def test_who_may_say_what_of_the_book(site: Any) -> None:
    """People at the line and senders decide and hold; deciders release."""
    said = {"By": "Anna", "Reason": "looked at"}
    decision: Dict[str, Any] = {"Of": 99, "Became": "x"}
    hold, release = {"Hold": "reel", "Name": "K-9"}, {"Release": "reel", "Name": "K-9"}
    for user, path, told, status in (
        ("office", "decisions", decision, 401),
        ("op", "decisions", decision, 404),
        ("op", "holds", hold, 200),
        ("office", "releases", release, 401),
        ("qm", "holds", hold, 401),
        ("qm", "releases", release, 200),
    ):
        text = json.dumps({**told, **said})
        assert site.asked("POST", f"/line/{path}", user, text)[0] == status, (user, path)
    assert site.asked("GET", "/line/book?after=0", "office")[0] == 200
    assert site.asked("GET", "/line/state?machine=M1")[0] == 401


def tablet(site: Any, word: str, uid: str, **body: Any) -> int:
    told = json.dumps(message(word, uid, **body))
    status: int = site.asked("POST", "/station/messages", "op", told)[0]
    return status


def test_a_tablet_stops_and_mends_a_machine(site: Any, tmp_path: pathlib.Path) -> None:
    plant(site)
    tablet(site, "MaterialsUnloaded", "u-1", Slot="1")
    tablet(site, "MaterialsLoaded", "u-2", Slot="1", Reel="K-2")
    etc = site.room / "etc"
    who = ["--ca", etc / "server.crt", "--cert", etc / "m2.crt", "--key", etc / "m2.key"]
    it = interlocked.Locked(tmp_path, site.url, *who)
    it.start()
    try:
        it.say(message("WorkStarted", "w-1", Board="B1"))
        it.wait_for_word("go B1")
        assert tablet(site, "MaterialsSpliced", "u-3", Slot="1", Reel="WRONG") == 409
        it.wait_for_word("stop Open (slot 1, WRONG, WrongPart")
        assert tablet(site, "MaterialsSpliced", "u-4", Slot="1", Reel="K-1") == 200
        it.wait_for_word("go B1")
        assert tablet(site, "MaterialsUnloaded", "u-5", Slot="1") == 200
        it.wait_for_word("stop AtSlot (slot 1, SlotEmpty")
    finally:
        it.end()
