"""An upgrade from 1.0.0 on a second fresh Debian 12. Its packages are made of its newest commit,
with the programs under test, whose versions are still those. A line is set up by that commit's own
pages, and then docs/operations-install.md is followed. The tests are in the order of the steps.
"""
import os
import pathlib
import shutil
import subprocess
import tempfile
from typing import Iterator, NamedTuple

import pytest
from lab import ROOT
from lab.installed import difference, make_packages
from lab.machine import M1, URL, Block, Machine, blocks_of, booted, part, run
from lab.waits import wait_for

pytestmark = [pytest.mark.root, pytest.mark.xdist_group("upgrade")]

COMMIT = "2b3cd6d3"  # the newest of 1.0.0
FROM_1_0_0, UNPACK = blocks_of(ROOT / "docs/operations-install.md", "test_installed_upgrade.py")
HOME = "/var/lib/tracedesk"
AT_M1 = "/var/lib/tracedesk-send/m1"
OLD_WORDS = """
cd /etc/tracedesk
printf 'archive = /var/lib/tracedesk/archive\\ncopies = /var/backups/tracedesk\\n' >> L1.conf
ssh-keygen -q -t ed25519 -N '' -C plant -f recall-key; chown tracedesk recall-key
echo 'key = /etc/tracedesk/recall-key' >> L1.conf
systemctl enable --now tracedesk-backup.timer tracedesk-rollover.timer tracedesk-recall-page
"""
ENDED = """
tracedesk-backup
systemctl stop tracedesk-send@m1
"""
LOT = "tracedesk-recall lot L-77"


class Plant(NamedTuple):
    """The machine with 1.0.0, how the blocks of its pages differed, and what an upgrade said."""

    machine: Machine
    differences: dict[str, str]
    boards: str  # of a recall
    said: str


def old_checkout(room: pathlib.Path) -> pathlib.Path:
    """That of 1.0.0."""
    if subprocess.run(["git", "-C", ROOT, "cat-file", "-e", f"{COMMIT}^{{commit}}"]).returncode:
        pytest.skip("this checkout has no history of 1.0.0: git fetch --unshallow")
    at = room / "1.0.0"
    run("git", "clone", "--quiet", "--shared", "--no-checkout", ROOT, at)
    run("git", "-C", at, "checkout", "--quiet", COMMIT)
    return at


def old_packages(at: pathlib.Path, program: pathlib.Path) -> list[pathlib.Path]:
    """Those of this checkout of 1.0.0."""
    made = pathlib.Path(os.environ.get("TRACEDESK_OLD_PACKAGES") or at / "dist")
    if not made.exists():
        run(at / "dev/dist", "--program", program, "--only", "deb", "--to", made)
    return sorted(made.glob("*.deb"))


def old_blocks(at: pathlib.Path) -> Iterator[Block]:
    """What sets a line up, and what is done each day, by the pages of 1.0.0."""
    for name in ("install", "access", "daily"):
        page = at / f"docs/operations-{name}.md"
        text = page.read_text(encoding="utf-8").partition("\n## Upgrade")[0]
        page.write_text(text, encoding="utf-8")
        yield from (its for its in blocks_of(page) if "apt-get update" not in its.script)


@pytest.fixture(scope="module")
def plant(program: pathlib.Path) -> Iterator[Plant]:
    with tempfile.TemporaryDirectory() as name, booted() as machine:
        room = pathlib.Path(name)
        at = old_checkout(room)
        for file in old_packages(at, program):
            machine.put(file, f"/root/{file.name}")
        for file in make_packages(program, room).debs:
            machine.put(file, f"/root/new/{file.name}")
        machine.shell("systemctl mask --runtime tracedesk-clock.timer")  # it is March
        told = {its.place: difference(machine, its) for its in old_blocks(at)}
        machine.shell(OLD_WORDS)
        boards = machine.shell(f"{LOT} 2> /dev/null")
        machine.shell(ENDED)
        said = machine.shell("cd /root/new; apt-get install --yes ./tracedesk*.deb 2>&1")
        yield Plant(machine, {place: text for place, text in told.items() if text}, boards, said)


def test_the_older_release_ran_as_its_pages_say(plant: Plant) -> None:
    assert not plant.differences and "SN-117" in plant.boards


def test_the_upgrade_says_what_is_gone_and_keeps_what_was_set_up(plant: Plant) -> None:
    for name in ("backup", "rollover"):
        assert f"tracedesk-{name}.timer is gone" in plant.said
    machine = plant.machine
    machine.shell("systemctl is-active tracedesk tracedesk-recall-page")
    assert "Line 1" in machine.shell("cat /etc/tracedesk/station/setup.json")
    machine.shell(
        "cmp /etc/nginx/sites-available/tracedesk <(dpkg-deb --fsys-tarfile"
        " /root/new/tracedesk-plant_*.deb | tar -xO ./etc/nginx/sites-available/tracedesk)"
    )
    machine.shell("systemctl restart nginx")
    machine.wait_for_desk()
    assert machine.ask(f"{M1} {URL}/slots?machine=M1", body=True).startswith("200")
    assert machine.post("after-the-upgrade") == "200"


def test_each_tool_stops_at_words_that_are_gone(plant: Plant) -> None:
    said = plant.machine.shell("! tracedesk-ops seal L1 2>&1")
    assert "archive" in said and "copies" in said


def test_the_line_is_taken_over(plant: Plant) -> None:
    """Steps 1 and 2. The recall names the same boards."""
    machine = plant.machine
    machine.shell("sed -i '/^archive\\|^copies/d' /etc/tracedesk/L1.conf")
    said = machine.restart(FROM_1_0_0.script)
    assert "with 1 archives" in said
    assert ": sound, 2 files, " in machine.shell("tracedesk-ops check L1")
    new = machine.shell(f"{LOT} 2> /dev/null").splitlines()
    assert [row.split(",")[:2] for row in new] == [
        row.split(",")[:2] for row in plant.boards.splitlines()
    ]


def test_the_sender_goes_on(plant: Plant) -> None:
    """Step 3."""
    machine = plant.machine
    machine.shell(f"cd {AT_M1}; mv spool spool.old; systemctl start tracedesk-send@m1")
    machine.write(f"{part('by-the-new-sender')}\n", "/tmp/one")
    machine.shell(f"cp /tmp/one {AT_M1}/out/1.tmp; mv {AT_M1}/out/1.tmp {AT_M1}/out/1.jsonl")
    sent = f"tracedesk-send --spool {AT_M1}/spool --list sent 2> /dev/null || true"
    wait_for("its answer", lambda: "Accepted" in machine.shell(sent))


def test_the_timers_the_key_and_the_page_are_those_of_today(plant: Plant) -> None:
    """Steps 4 to 6."""
    machine = plant.machine
    machine.shell("systemctl enable --now tracedesk-line-{seal,rollover}@L1.timer")
    machine.shell("systemctl start tracedesk-line-seal@L1 tracedesk-line-rollover@L1")
    machine.shell(
        "chown root: /etc/tracedesk/recall-key; cd /etc/tracedesk"
        "; sed -i 's,^key.*,key = /run/tracedesk-recall-sign,' L1.conf"
        "; systemctl enable --now tracedesk-recall-sign.socket"
    )
    machine.shell(
        f"cd /; {LOT} --evidence /root/evidence > /dev/null"
        "; test -s /root/evidence/SHA256SUMS.sig"
    )
    owners = machine.shell("stat -c '%U %a' /var/lib/tracedesk-recall{,/asked,/answers}")
    assert owners.split("\n")[:3] == ["root 755", "tracedesk-recall 2750", "tracedesk 2750"]
    assert machine.shell("systemctl is-active tracedesk-recall-page").strip() == "active"


def test_the_packages_are_unpacked_on_another_linux(plant: Plant) -> None:
    """Without a package manager that knows them."""
    machine = plant.machine
    before = machine.shell(f"sha256sum {HOME}/sealed/*.desk")
    machine.shell("systemctl stop 'tracedesk*'; apt-get purge --yes 'tracedesk*'")
    machine.shell("! command -v tracedesk-line")
    machine.put(pathlib.Path(shutil.which("xz") or "/usr/bin/xz"), "/usr/local/bin/xz")
    machine.restart(f"cd /root/new\n{UNPACK.script}\nsystemctl enable --now tracedesk")
    assert machine.shell("tracedesk-ops check L1") and before in machine.shell(
        f"sha256sum {HOME}/sealed/*.desk"
    )
