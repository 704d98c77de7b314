"""Two lines on a fresh Debian 12, by docs/line-folder.md: each has its unit, desk, station, inbox,
metrics and recall. The tests are in the order of a day, and leave one line.
"""
import json
from typing import Iterator

import pytest
from lab.installed import (
    NO_SECOND,
    SECOND,
    SENDER,
    decide,
    make_second_line,
    refuse_work,
    undecided,
)
from lab.machine import JSON, OFFICE, URL, Machine, part
from lab.recaller import Recaller
from lab.waits import wait_for

pytestmark = [pytest.mark.root, pytest.mark.xdist_group("machine")]

URLS = {"L1": URL, "L2": f"{URL}:8443"}
UNITS = {"L1": "tracedesk", "L2": "tracedesk@L2"}
PORTS = {"L1": 8080, "L2": 8082}
REELS = {"L1": "K-01", "L2": "K-21"}  # on slot 1
DAY = "sed 's/M1/M2/g; s/CTRL-A/CTRL-B/g; s/SN-117/SN-217/g; s/K-0/K-2/g' /root/first.jsonl"
BY = {"badge": "4711", "reason": "tried"}
ONE_AGAIN = f"""{NO_SECOND}
rm -rf /etc/nginx/sites-*/tracedesk-L2 /etc/tracedesk/L2 /var/lib/nginx/tracedesk-L2-station
rm -rf /etc/systemd/system/tracedesk-watch.service.d
systemctl daemon-reload
systemctl unmask --quiet --runtime tracedesk-clock@L2.timer
systemctl restart nginx
"""


@pytest.fixture(scope="module")
def two(machine: Machine) -> Iterator[Machine]:
    """The machine with a second line, which had a day like the first one's."""
    try:
        machine.shell("systemctl mask --quiet --runtime tracedesk-clock@L2.timer")  # it is March
        make_second_line(machine)
        for block in SECOND[1:]:
            machine.shell(block.script)
        machine.write(f"{part('CAP-100N')}\n", "/root/second.jsonl")
        send = f"{SENDER} --url {URLS['L2']} --spool /root/second"
        machine.by_client(f"{DAY} >> /root/second.jsonl; {send} --put /root/second.jsonl")
        wait_for("the second site", lambda: health(machine, "L2") == "200")
        machine.by_client(send)
        yield machine
    finally:
        machine.shell(ONE_AGAIN)


def health(machine: Machine, line: str) -> str:
    return machine.ask(f"{URLS[line]}/health || true")


def got(machine: Machine, line: str, path: str) -> str:
    """What a reader gets of a line's site."""
    return machine.ask(f"{OFFICE} '{URLS[line]}{path}'", body=True)


def test_each_has_its_unit_and_desk(two: Machine) -> None:
    units = " ".join(UNITS.values())
    assert two.shell(f"systemctl is-active {units}").split() == ["active"] * 2
    for line, reel in REELS.items():
        there = {its: got(two, its, f"/reel?reel={reel}").split("\n")[0] for its in URLS}
        assert there[line] == "200" and sorted(there.values()) == ["200", "404"]
        assert f"127.0.0.1:{PORTS[line]}" in two.shell(f"ss -Htln 'sport = :{PORTS[line]}'")
        assert " files, " in two.shell(f"tracedesk-ops seal {line}; tracedesk-ops check {line}")


@pytest.mark.parametrize("line", URLS)
def test_each_has_its_station(two: Machine, line: str) -> None:
    number = line[1:]
    assert "<title>Station" in got(two, line, "/station/")
    told = json.loads(got(two, line, "/station/setup.json").partition("\n")[2])
    (its,) = told["machines"]
    assert (told["title"], its["machine"]) == (f"Line {number}", f"M{number}")
    slots = got(two, line, f"/station/desk/slots?machine=M{number}")
    assert slots.startswith("200") and REELS[line] in slots
    state = got(two, line, f"/station/desk/line/state?machine=M{number}")
    assert f'"Machine":"M{number}"' in state


def test_one_that_is_stopped_stops_no_other(two: Machine) -> None:
    for line, other in (("L1", "L2"), ("L2", "L1")):
        two.shell(f"systemctl stop {UNITS[line]}")
        wait_for("its site says so", lambda: health(two, line) == "503")
        assert health(two, other) == "200" and got(two, other, "/overdue").startswith("200")
        two.shell(f"systemctl start {UNITS[line]}")
        wait_for("it is back", lambda: health(two, line) == "200")


def test_each_has_its_untraced_work(two: Machine) -> None:
    """And each recall names that of both, until somebody decides."""
    for line, url in URLS.items():
        refuse_work(two, url, f"SN-{line}")
    for line, url in URLS.items():
        assert {*undecided(two, url)} & {f"SN-{its}" for its in URLS} == {f"SN-{line}"}
    said = two.shell("tracedesk-recall lot L-77 --show untraced 2> /dev/null || test $? = 3")
    assert all(f"SN-{line}" in said for line in URLS)
    for line, url in URLS.items():
        decide(two, url, f"SN-{line}")
        assert f"SN-{line}" not in undecided(two, url)


@pytest.mark.parametrize("line", URLS)
def test_each_has_its_metrics(two: Machine, line: str) -> None:
    two.shell("systemctl start tracedesk-watch")
    found = got(two, line, "/metrics").splitlines()
    assert {"tracedesk_up 1", "tracedesk_proxy_up 1", "tracedesk_service_active 1"} <= {*found}
    slots = [row for row in found if row.startswith("tracedesk_least_slot_pieces")]
    assert [row.partition("}")[0] for row in slots] == [
        f'tracedesk_least_slot_pieces{{machine="M{line[1:]}"'
    ]


def test_a_recall_and_a_hold_ask_both(two: Machine) -> None:
    anna = Recaller(two)
    said = anna.answer("lot", "L-77")
    assert "Complete: 2 boards" in said and "SN-117" in said and "SN-217" in said
    assert "Held: L-77, on all lines" in anna.answer("hold lot", "L-77", **BY)
    for line, port in PORTS.items():
        ask = f"curl -s {JSON} 'http://127.0.0.1:{port}/line/state?machine=M{line[1:]}'"
        assert '"Cause":"Held"' in two.shell(ask)
    assert "Released: L-77, on all lines" in anna.answer("release lot", "L-77", **BY)


def test_one_rolls_over_and_the_other_goes_on(two: Machine) -> None:
    before = two.shell("stat -c %i /var/lib/tracedesk/desk")
    said = two.shell(
        "tracedesk-ops rollover L2 2>&1; tracedesk-ops seal L2; tracedesk-ops check L2"
    )
    assert "the new desk is in place" in said and ": sound, 2 files, " in said
    assert two.shell("stat -c %i /var/lib/tracedesk/desk") == before
    assert REELS["L2"] in got(two, "L2", "/slots?machine=M2")


def test_an_upgrade_starts_both_again_and_a_removal_stops_both(two: Machine) -> None:
    show = f"systemctl show -P MainPID {' '.join(UNITS.values())}"
    before = two.shell(show).split()
    two.shell("cd /root/new; apt-get install --reinstall --yes ./tracedesk_*.deb 2>&1")
    after = two.shell(show).split()
    assert "0" not in after and len({*before, *after}) == 4
    two.shell("DPKG_MAINTSCRIPT_PACKAGE=tracedesk /var/lib/dpkg/info/tracedesk.prerm remove")
    assert two.shell(show).split() == ["0", "0"]
    two.shell(f"systemctl start {' '.join(UNITS.values())}")
    for line in URLS:
        wait_for("it is back", lambda: health(two, line) == "200")
