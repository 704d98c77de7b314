"""Each unit of the packages on a fresh Debian 12, with a real request, and its journal: what is
packaged is run as packaged.
"""
import datetime
import json
import re
import shlex
from typing import Callable, Iterator

import pytest
from lab import ROOT
from lab.installed import NO_SECOND, SECOND_PORT, make_second_line, metrics_of
from lab.machine import JSON, Machine, part
from lab.recaller import ANSWERS, ASKED, SIGNED, Recaller
from lab.waits import wait_for

pytestmark = [pytest.mark.root, pytest.mark.xdist_group("machine")]

WRONG = re.compile(
    r"Traceback|\w*Error\b|Errno|denied|not permitted|Failed with result|nobody foresaw"
)
LINE, FOLDER = "L2", "/var/lib/tracedesk/L2"  # a line that is a folder
PAPERS = {
    "recall.pdf": b"%PDF",
    "recall.xlsx": b"PK",
    "evidence.zip": b"PK",
    "boards.csv": b"board",
}


@pytest.fixture
def journal(machine: Machine) -> Iterator[Callable[[str], None]]:
    """Looks at what a unit said since the test began."""
    machine.shell("sleep 1")  # the journal's times are seconds
    since = machine.shell("date '+%F %T'").strip()

    def look(unit: str) -> None:
        said = machine.shell(f"journalctl --unit {unit} --since '{since}' --output cat --no-pager")
        wrong = [line for line in said.splitlines() if WRONG.search(line)]
        assert not wrong, f"{unit} said:\n{said}"

    yield look


def state_of(machine: Machine, unit: str) -> list[str]:
    """The result of a unit's last run, and how often it was started again by itself."""
    return machine.shell(f"systemctl show -P Result -P NRestarts {unit}").split()


def ran(machine: Machine, unit: str) -> None:
    """Runs a unit that ends, as its timer does."""
    machine.shell(f"systemctl reset-failed {unit} 2> /dev/null || true; systemctl start {unit}")
    assert state_of(machine, unit)[0] == "success"


def test_no_unit_is_left_out(machine: Machine) -> None:
    """Each has a test here by its name, in which `of` stands for @."""
    units = machine.shell("cd /lib/systemd/system; ls tracedesk*.service").split()
    packaged = {path.name for path in (ROOT / "packaging").glob("tracedesk*.service")}
    assert set(units) == packaged
    names = [name.removesuffix(".service").replace("@", "-of") for name in units]
    tests = {name.replace("-", "_") for name in names}
    assert tests == {name.removeprefix("test_") for name in globals() if name[5:] in tests}


def test_tracedesk(machine: Machine, journal: Callable[[str], None]) -> None:
    """A message, by the proxy."""
    assert machine.post("each-unit") == "200"
    journal("tracedesk")


def test_tracedesk_send_of(machine: Machine, journal: Callable[[str], None]) -> None:
    """A file of a message, from its folder to the desk's answer."""
    at = "/var/lib/tracedesk-send/m1"
    machine.write(f"{part('each-send')}\n", "/tmp/each.tmp")
    machine.shell(f"cp /tmp/each.tmp {at}/out/each.tmp; mv {at}/out/each.tmp {at}/out/each.jsonl")
    answered = f"tracedesk-send --spool {at}/spool --list sent | grep each-send || true"
    wait_for("the answer", lambda: "Accepted" in machine.shell(answered))
    journal("tracedesk-send@m1")


def test_tracedesk_watch(machine: Machine, journal: Callable[[str], None]) -> None:
    assert metrics_of(machine)["tracedesk_up"] == "1"
    assert state_of(machine, "tracedesk-watch")[0] == "success"
    journal("tracedesk-watch")


@pytest.fixture
def anna(machine: Machine) -> Recaller:
    return Recaller(machine)


def test_tracedesk_recall_page(anna: Recaller, journal: Callable[[str], None]) -> None:
    """A recall from the log-in to its papers, by both units."""
    machine, at = anna.machine, anna.asks("lot", "L-77")
    said = anna.text(at)
    assert 'id="answer">Complete: ' in said, re.sub(r"<[^>]*>", " ", said)
    assert "too much time" not in said
    for name, begin in PAPERS.items():
        assert anna.status(f"{at}{name}") == "200", name
        assert machine.by_client("head -c 9 /tmp/body").startswith(begin.decode()), name
    assert "none of these lines knows" in anna.answer("lot", "no-such-lot")  # and the next one
    owners = machine.shell(f"stat -c '%U %G %a' {ASKED} {ANSWERS} {ANSWERS}/2*").splitlines()
    assert owners[0] == "tracedesk-recall tracedesk-recall 2750"
    assert {*owners[1:]} == {"tracedesk tracedesk-recall 2750"}
    for unit in ("tracedesk-recall-page", "tracedesk-recall-work"):
        assert machine.shell(f"systemctl is-active {unit}").strip() == "active"
        assert state_of(machine, unit) == ["success", "0"]
        journal(unit)


def test_tracedesk_recall_work(anna: Recaller, journal: Callable[[str], None]) -> None:
    """What is no question of the page's is ended, and the next recall is run."""
    name = f"{datetime.datetime(2020, 1, 1):%Y%m%dT%H%M%S.%fZ}-00000000"
    bad = {"kind": "lot", "names": ["L", "--program", "/x"], "reader": "x", "at": ""}
    told = shlex.quote(json.dumps(bad))
    put = f"umask 007; printf %s {told} > {ASKED}/{name}.json"
    anna.machine.shell(f"runuser -u tracedesk-recall -- sh -c {shlex.quote(put)}")
    anna.asks("lot", "L-77")
    assert '"status": 2' in anna.machine.shell(f"cat {ANSWERS}/{name}/ended.json")
    journal("tracedesk-recall-work")


def test_tracedesk_recall_sign_of(anna: Recaller, journal: Callable[[str], None]) -> None:
    """The worker has evidence signed by a key that it can't read."""
    anna.machine.shell(SIGNED)
    sums = f"{anna.folder(anna.asks('lot', 'L-77'))}/evidence/SHA256SUMS"
    check = f"ssh-keygen -Y check-novalidate -n tracedesk-recall -s {sums}.sig < {sums}"
    key = anna.machine.shell("ssh-keygen -l -f /etc/tracedesk/recall-key.pub").split()[1]
    assert key in anna.machine.shell(check)
    journal("tracedesk-recall-sign@*")


# --- A line that is a folder


@pytest.fixture
def line(machine: Machine) -> Iterator[str]:
    """The URL of a line that is a folder. It goes away, since other tools would ask for it too."""
    make_second_line(machine)
    url = f"http://127.0.0.1:{SECOND_PORT}"
    wait_for("its desk takes a message", lambda: posted(machine, url, "each-line") == "200")
    yield url
    machine.shell(NO_SECOND)


def posted(machine: Machine, url: str, name: str) -> str:
    """The status of the answer to a part of this name."""
    curl = f"curl -s -o /dev/null -w '%{{http_code}}' {JSON}"
    return machine.shell(f"{curl} --data-binary '{part(name)}' {url}/messages || true").strip()


def sound(machine: Machine, files: int) -> None:
    """The line has so many files in its chain, the newest of its desk as it is."""
    machine.shell(f"tracedesk-ops seal {LINE}")
    assert f": sound, {files} files, " in machine.shell(f"tracedesk-ops check {LINE}")


def test_tracedesk_of(machine: Machine, line: str, journal: Callable[[str], None]) -> None:
    """It serves the desk of the line's folder again, once it is started again."""
    machine.shell(f"systemctl restart tracedesk@{LINE}")
    wait_for("it answers again", lambda: posted(machine, line, "each-line") == "200")
    assert machine.shell(f"stat -c '%U %a' {FOLDER}/desk").strip() == "tracedesk 600"
    sound(machine, 1)
    assert state_of(machine, f"tracedesk@{LINE}") == ["success", "0"]
    journal(f"tracedesk@{LINE}")


def test_tracedesk_clock_of(machine: Machine, line: str, journal: Callable[[str], None]) -> None:
    """It tells the desk on the line's own port, as if the machine's clock were in sync. Its timer
    began with the line's service.
    """
    unit = f"tracedesk-clock@{LINE}"
    assert machine.shell(f"systemctl is-active {unit}.timer").strip() == "active"
    at = f"/run/systemd/system/{unit}.service.d"
    packaged = (ROOT / "packaging/tracedesk-clock@.service").read_text(encoding="utf-8")
    (call,) = re.findall("^ExecStart=(.*)$", packaged, re.M)
    synced = f'[Service]\nExecStart=\nExecStart={call} --synced "echo yes"\n'
    machine.write(synced, f"{at}/synced.conf")
    try:
        machine.shell("systemctl daemon-reload")
        ran(machine, unit)
    finally:
        machine.shell(f"rm -r {at}; systemctl daemon-reload")
    said = json.loads(machine.shell(f"cat /run/tracedesk-clock/{LINE}.json"))
    assert said["Answer"] == "Accepted" and said["Number"] > 1
    journal(unit)


def test_tracedesk_line_seal_of(
    machine: Machine, line: str, journal: Callable[[str], None]
) -> None:
    ran(machine, f"tracedesk-line-seal@{LINE}")
    (name,) = machine.shell(f"ls {FOLDER}/sealed").split()
    digits = machine.shell(f"sha256sum {FOLDER}/sealed/{name}")[:24]
    assert name == f"{digits}.desk"
    assert machine.shell(f"stat -c '%U %a' {FOLDER}/sealed/{name}").strip() == "tracedesk 400"
    sound(machine, 1)
    journal(f"tracedesk-line-seal@{LINE}")


def test_tracedesk_line_rollover_of(
    machine: Machine, line: str, journal: Callable[[str], None]
) -> None:
    """As its timer calls it, but for how many pieces make it due."""
    unit = f"tracedesk-line-rollover@{LINE}"
    at = f"/run/systemd/system/{unit}.service.d"
    call = f"/usr/bin/tracedesk-ops rollover {LINE} --if-due --pieces 0"
    machine.write(f"[Service]\nExecStart=\nExecStart={call}\n", f"{at}/due.conf")
    try:
        machine.shell("systemctl daemon-reload")
        ran(machine, unit)
    finally:
        machine.shell(f"rm -r {at}; systemctl daemon-reload")
    assert posted(machine, line, "each-later") == "200"
    sound(machine, 2)
    journal(unit)
    journal(f"tracedesk@{LINE}")
