"""The sender on a fresh Debian 12 loses nothing by kills, roll-overs and a wrong log-in."""
import subprocess

import pytest
from lab.machine import ARCHIVE, Machine, part
from lab.waits import wait_for

pytestmark = [pytest.mark.root, pytest.mark.xdist_group("machine")]

SEND = "tracedesk-send --url https://desk.plant --ca /etc/tracedesk/server.crt"
BY_PASSWORD = "--user m1 --password-file /etc/tracedesk/m1.password"
SPOOL = "/tmp/sent.spool"
SENT = f"tracedesk-send --spool {SPOOL} --list sent 2> /dev/null || true"
ACCEPTED = """
import pathlib
from tracedesk_ops import around, copies, line, sealed
folder = line.LineFolder(pathlib.Path("{archive}").parent)
query = "SELECT uid FROM accepted WHERE uid LIKE '{uids}' AND command LIKE 'PartDefined%'"
found = []
archives = around.survey(folder, sealed.named).archives
for file in [*(folder.sealed / its.file for its in archives), folder.desk]:
    with copies.opened(file) as database:
        found += [uid for (uid,) in database.execute(query)]
print(len(found), len(set(found)))
"""


def accepted(machine: Machine, uids: str) -> list[int]:
    """How many messages with such UniqueIDs the line has, and how many different ones."""
    script = ACCEPTED.format(archive=ARCHIVE, uids=uids)
    machine.write(script, "/tmp/accepted.py")
    machine.wait_for_desk()
    ask = "PYTHONPATH=/usr/lib/tracedesk python3 -B /tmp/accepted.py"
    said = machine.shell(f"systemctl stop tracedesk; {ask}")
    machine.restart("systemctl reset-failed tracedesk; systemctl start tracedesk")
    return [int(number) for number in said.split()]


def write_messages(machine: Machine, *texts: str) -> None:
    machine.shell("rm -f /tmp/sent.*")
    machine.write("".join(f"{text}\n" for text in texts), "/tmp/sent.jsonl")


def begin(machine: Machine, words: str) -> subprocess.Popen[str]:
    send = f"{SEND} {words} --spool {SPOOL} --follow - < /tmp/sent.jsonl 2>&1"
    return machine.started(f"{send}; echo status $?", by_client=True)


def test_a_sender_goes_on_over_a_roll_over_and_a_copy(machine: Machine) -> None:
    """Each message is taken, and none twice."""
    write_messages(machine, *(part(f"R{number}") for number in range(600)))
    sending = begin(machine, BY_PASSWORD)
    wait_for("it sends", lambda: machine.shell(SENT))
    machine.shell("tracedesk-ops rollover L1 2>&1")
    machine.shell("tracedesk-ops seal L1 2>&1")
    said, _ = sending.communicate()
    assert "status 0" in said
    assert machine.shell(SENT).count("Accepted") == 600
    assert accepted(machine, "t-R%") == [600, 600]


class Unit:
    """The sender of machine m1 as a service."""

    AT = "/var/lib/tracedesk-send/m1"

    def __init__(self, machine: Machine) -> None:
        self.machine = machine

    def show(self, what: str) -> str:
        return self.machine.shell(f"systemctl show -P {what} tracedesk-send@m1").strip()

    def answered(self) -> int:
        listed = f"tracedesk-send --spool {self.AT}/spool --list all"
        return int(self.machine.shell(f"{listed} | grep -c Answer || true"))

    def put(self, name: str, count: int, user: str = "root") -> None:
        """Puts a file of so many messages before it, as a user."""
        text = "".join(f"{part(f'{name}{number}')}\n" for number in range(count))
        self.machine.write(text, f"/tmp/{name}")
        hand = f"umask 027; cat > {self.AT}/out/{name}.tmp"
        move = f"mv {self.AT}/out/{name}.tmp {self.AT}/out/{name}.jsonl"
        self.machine.shell(f"runuser -u {user} -- sh -c '{hand}; {move}' < /tmp/{name}")

    def is_active(self) -> bool:
        return self.show("ActiveState") == "active"


@pytest.fixture
def unit(machine: Machine) -> Unit:
    machine.shell("id -u machine || useradd --system --groups tracedesk-send machine")
    machine.shell("systemctl enable --now tracedesk-send@m1")
    return Unit(machine)


def test_the_senders_unit_goes_on_over_a_kill_and_a_stop_of_the_desk(unit: Unit) -> None:
    machine, before = unit.machine, unit.answered()
    unit.put("U", 200, "machine")
    restarts = int(unit.show("NRestarts"))
    machine.shell("systemctl kill --signal=KILL tracedesk-send@m1; systemctl stop tracedesk")
    back = lambda: unit.is_active() and int(unit.show("NRestarts")) > restarts
    wait_for("the sender is back", back)
    machine.restart("systemctl start tracedesk")
    wait_for("200 messages are answered", lambda: unit.answered() == before + 200)
    machine.shell(f"runuser -u machine -- cat {unit.AT}/spool > /dev/null && exit 1 || true")
    listed = [f"tracedesk-send --spool {unit.AT}/spool --list {it}" for it in ("aside", "waiting")]
    assert machine.shell(f"{'; '.join(listed)}; ls {unit.AT}/out") == ""


def test_the_senders_unit_names_a_wrong_password_and_goes_on_with_the_right_one(unit: Unit) -> None:
    machine, before = unit.machine, unit.answered()
    secret = "/etc/tracedesk-send/m1.password"
    restart = "systemctl restart tracedesk-send@m1"
    machine.shell(
        f"cp {secret} /root/kept.password; cat /etc/tracedesk/office.password > {secret}; {restart}"
    )
    unit.put("V", 1)
    journal = "journalctl --unit tracedesk-send@m1 --output cat"
    is_named = lambda: unit.is_active() and "the log-in is refused" in machine.shell(journal)
    wait_for("a wrong password is named", is_named)
    machine.shell(f"cat /root/kept.password > {secret}; {restart}")
    wait_for("the message is answered", lambda: unit.answered() == before + 1)
