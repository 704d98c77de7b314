"""Recalls on a fresh Debian 12: docs/recall.md on a Friday, and who takes the page over."""
import json
import re
import shlex

import pytest
from lab.machine import Machine
from lab.recaller import ANSWERS, ASKED, LONGEST, SIGNED, Recaller
from lab.waits import wait_for

pytestmark = [pytest.mark.root, pytest.mark.xdist_group("machine")]

BY = {"badge": "4711", "reason": "recalled by its maker"}
STATE = "curl -sS 'http://127.0.0.1:8080/line/state?machine=M1'"
SHIPPED = "board,customer,date\nSN-117,Customer A,2026-03-09\n"
KEY = "/etc/tracedesk/recall-key"
SECRETS = f"{KEY} /etc/tracedesk/L1.conf /var/lib/tracedesk/desk /var/lib/tracedesk/sealed/*"


@pytest.fixture
def anna(machine: Machine) -> Recaller:
    made = Recaller(machine)
    machine.shell(SIGNED)
    return made


def held(machine: Machine) -> "list[str]":
    """The reels on M1 that a hold stops."""
    causes = json.loads(machine.shell(STATE))["Causes"]
    return [its["Reel"] for its in causes if its["Cause"] == "Held"]


def test_a_friday_at_five(anna: Recaller) -> None:
    """The steps of docs/recall.md from the log-in on, by who has that page alone."""
    machine = anna.machine
    assert "So far" in anna.text("/recall/")  # 1
    said = anna.answer("hold lot", "L-77", **BY)  # 2
    assert "Held: L-77, on all lines of this machine." in said and held(machine) == ["K-01"]
    machine.write(SHIPPED, "/tmp/shipped.csv")
    at = anna.asks("lot", "L-77", shipped="@/tmp/shipped.csv")  # 3, 7
    said = re.sub(r"<[^>]*>|\s+", " ", anna.text(at))
    assert "Complete: 1 board" in said and "SN-117" in said and "Customer A" in said  # 4
    stock = said.partition("Reels in stock and on slots")[2]
    assert "K-01" in stock.partition("Doubtful pieces")[0]  # 5
    assert "NOT FOUND" in anna.answer("lot", "L-7777")
    machine.shell("mkdir -p /root/friday && rm -rf /root/friday/*")
    assert anna.status(f"{at}evidence.zip") == "200"  # 8
    machine.shell("cd /root/friday; python3 -m zipfile -e /tmp/body .")
    machine.shell(f"sed 's/^/plant namespaces=\"tracedesk-recall\" /' {KEY}.pub > /root/signers")
    verify = "tracedesk-verify /root/friday --signers /root/signers --signer plant"
    told = machine.shell(f"{verify} --archives /var/lib/tracedesk/sealed 2>&1")
    assert "L-77" in told and "Complete" in told
    said = anna.answer("release lot", "L-77", **BY)  # 9
    assert "Released: L-77, on all lines of this machine." in said and held(machine) == []


def test_recalls_of_a_worker_that_is_killed_are_run_anew(anna: Recaller) -> None:
    """Two are asked at once. The unit starts again."""
    asked = {
        anna.puts("lot", lot): said for lot, said in (("L-77", "Complete"), ("L-7", "NOT FOUND"))
    }
    anna.waits([*asked][0], "said.txt")
    anna.machine.shell("systemctl kill --signal=KILL tracedesk-recall-work")
    for at, said in asked.items():
        anna.waits(at, "ended.json")
        assert f'id="answer">{said}: ' in anna.text(at)


def test_no_user_reads_the_key(anna: Recaller) -> None:
    """And the page's user and the proxy's neither have something signed nor write an answer."""
    may = "runuser -u {} -- test -{} {}"
    for user in ("tracedesk", "tracedesk-recall", "tracedesk-sign", "www-data"):
        anna.machine.shell(f"! {may.format(user, 'r', KEY)}")
    for user in ("tracedesk-recall", "www-data"):
        for place in ("/run/tracedesk-recall-sign", ANSWERS):
            anna.machine.shell(f"! {may.format(user, 'w', place)}")
    anna.machine.shell(f"! {may.format('www-data', 'w', ASKED)}")


# --- Who takes the page over: its user, in its own unit


def page_process(machine: Machine) -> str:
    return machine.shell("systemctl show -P MainPID tracedesk-recall-page").strip()


def taken_over(machine: Machine, script: str) -> str:
    """What a script prints that runs as the page does: its user and groups, its view of the files
    and its network.
    """
    process = page_process(machine)
    groups = machine.shell(f"grep ^Groups: /proc/{process}/status").split()[1:]
    ids = f"--reuid=tracedesk-recall --regid=tracedesk-recall --groups={','.join(groups)}"
    inside = f"nsenter -t {process} -m -n -i setpriv {ids} --no-new-privs --bounding-set=-all"
    return machine.shell(f"{inside} bash -c {shlex.quote(script)} 2>&1")


def test_who_takes_the_page_over_reads_neither_a_desk_nor_the_key(anna: Recaller) -> None:
    machine = anna.machine
    paths = machine.shell(f"ls {SECRETS}").split()
    assert len(paths) > 3
    tried = "; ".join(f"! head -c 1 {path} > /dev/null && echo kept" for path in paths)
    assert taken_over(machine, tried).split("\n").count("kept") == len(paths)
    for path in (
        ANSWERS,
        "/var/lib/tracedesk",
        "/etc/tracedesk",
        "/usr/lib/tracedesk",
        "/tmp/../etc",
    ):
        assert "kept" in taken_over(machine, f"! touch {path}/x && echo kept")
    for port in (8080, 8081, 443):
        assert "kept" in taken_over(machine, f"! : < /dev/tcp/127.0.0.1/{port} && echo kept")
    sign = "import socket; socket.socket(socket.AF_UNIX).connect('/run/tracedesk-recall-sign')"
    assert "Permission denied" in taken_over(machine, f'! python3 -c "{sign}"')


def test_a_question_of_his_leads_to_neither(anna: Recaller) -> None:
    """Links to what the worker can read, a pipe, a folder, and names that are options."""
    machine = anna.machine
    own = "curl -s --max-time 5 http://127.0.0.1:8080/overdue"
    question = {"kind": "lot", "names": "L-77", "reader": "x", "at": "", "part": "--program=/tmp/x"}
    links = {1: "/var/lib/tracedesk/desk", 2: KEY, 3: "/etc/tracedesk/L1.conf", 4: "/dev/zero"}
    name = "20991231T235959.00000{}Z-00000000".format
    made = [f"ln -s {to} {ASKED}/{name(n)}.json" for n, to in links.items()]
    made += [f"mkfifo {ASKED}/{name(5)}.json", f"mkdir {ASKED}/{name(6)}.json"]
    made += [f"printf %s {shlex.quote(json.dumps(question))} > {ASKED}/{name(7)}.json"]
    good = json.dumps({**question, "part": ""})
    made += [f"printf %s {shlex.quote(good)} > {ASKED}/{name(8)}.json"]
    made += [f"ln -s {KEY} {ASKED}/{name(8)}.csv"]
    taken_over(machine, "; ".join(made))
    at = f"{ANSWERS}/20991231T235959.00000"
    try:
        anna.asks("lot", "L-77")
        ended = f"ls {at}?Z-*/ended.json 2> /dev/null | wc -l || true"
        wait_for("each is ended", lambda: machine.shell(ended).strip() == "8", LONGEST)
        statuses = machine.shell(f"grep -ho '\"status\": [0-9]*' {at}?Z-*/ended.json").split("\n")
        assert '"status": 0' not in statuses, statuses
        secret = machine.shell(f"sed -n 3p {KEY}").strip()
        assert not machine.shell(f"grep -rlF {secret} {ANSWERS} || true")
        assert not machine.shell(f"grep -rla 'SQLite format' {at}* || true")
        assert machine.shell(own).startswith("board")
    finally:
        machine.shell(f"rm -rf {at}* {ASKED}/20991231*")
