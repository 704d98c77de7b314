"""The packages, and the machine on which all commands of docs/operations-*.md were run."""
from __future__ import annotations

import contextlib
import csv
import io
import json
import os
import pathlib
import shlex
import tempfile
from typing import Iterator, NamedTuple

from lab import ROOT
from lab.machine import (
    M1,
    OFFICE,
    URL,
    Block,
    Machine,
    blocks,
    blocks_of,
    booted,
    is_same,
    part,
    run,
)
from lab.waits import wait_for


ARCHIVES = """python3 -B - <<'END'
import pathlib, sys
sys.path.insert(0, "/usr/lib/tracedesk")
from tracedesk_ops import around, line, sealed
folder = line.LineFolder(pathlib.Path("/var/lib/tracedesk"))
print(*(archive.file for archive in around.survey(folder, sealed.named).archives))
END
"""
SECOND = blocks_of(ROOT / "docs/line-folder.md", "test_installed_two.py")
SECOND_PORT = 8082
NO_SECOND = """
systemctl disable --now tracedesk@L2 tracedesk-line-{seal,rollover}@L2.timer 2> /dev/null
rm -rf /var/lib/tracedesk/L2 /etc/tracedesk/L2.conf
"""
BY_ANNA = {"By": "Anna", "Reason": "tried"}
SENDER = (
    "tracedesk-send --ca /etc/tracedesk/server.crt --user m1"
    " --password-file /etc/tracedesk/m1.password"
)


class Packages(NamedTuple):
    """Debian's packages, and the same packages with a later version."""

    debs: list[pathlib.Path]
    newer: list[pathlib.Path]


def make_packages(program: pathlib.Path, room: pathlib.Path) -> Packages:
    """Makes them, or takes those of the folder that TRACEDESK_PACKAGES in the environment names."""
    made = pathlib.Path(os.environ.get("TRACEDESK_PACKAGES") or room / "made")
    if not made.exists():
        run(ROOT / "dev/dist", "--program", program, "--to", made)
    debs = sorted(made.glob("*.deb"))
    return Packages(debs, [newer_than(deb, room) for deb in debs])


def newer_than(deb: pathlib.Path, room: pathlib.Path) -> pathlib.Path:
    """The same package with a later version, which also those that need it name."""
    name, version, architecture = deb.stem.split("_")
    raw = room / f"newer {name}"
    run("dpkg-deb", "--raw-extract", deb, raw)
    control = raw / "DEBIAN/control"
    control.write_text(control.read_text().replace(version, f"{version}+1"))
    made = room / f"{name}_{version}+1_{architecture}.deb"
    run("dpkg-deb", "-Zgzip", "-z1", "--root-owner-group", "--build", raw, made)
    return made


class Installed(NamedTuple):
    """The machine, the packages, and how each block of the pages, by its place, differs from
    them.
    """

    machine: Machine
    packages: Packages
    differences: dict[str, str]


def difference(machine: Machine, block: Block) -> str:
    """Runs a block, and says how it differs from the page, or nothing."""
    try:
        said = machine.run_block(block)
    except AssertionError as fault:
        return str(fault)
    if block.prints is not None and not is_same(block.prints, said):
        return f"the page says {block.prints!r}, and it printed {said!r}"
    return ""


@contextlib.contextmanager
def installed(program: pathlib.Path) -> Iterator[Installed]:
    with tempfile.TemporaryDirectory() as room, booted() as machine:
        packages = make_packages(program, pathlib.Path(room))
        for file in packages.debs:
            machine.put(file, f"/root/{file.name}")
        for file in packages.newer:
            machine.put(file, f"/root/new/{file.name}")
        # what these tests say is of March: the time of this machine would expire each reel
        machine.shell("systemctl mask --runtime tracedesk-clock.timer")
        differences = {
            block.place: difference(machine, block)
            for block in blocks()
            if "apt-get update" not in block.script  # the machine was made with these packages
        }
        wrong = {place: text for place, text in differences.items() if text}
        assert machine.answers(), f"the desk doesn't answer behind the page's commands: {wrong}"
        machine.set_up()
        yield Installed(machine, packages, differences)


def metrics_of(machine: Machine) -> dict[str, str]:
    """What readers get of the watch after a run of it."""
    machine.shell("systemctl start tracedesk-watch")
    text = machine.ask(f"{OFFICE} {URL}/metrics", body=True)
    assert text.startswith("200\n"), text
    lines = [line for line in text.splitlines()[1:] if not line.startswith("#")]
    return dict(line.rsplit(" ", 1) for line in lines)


def archives_of(machine: Machine, least: int) -> list[str]:
    """The line's archives, oldest first. The desk is rolled over until there are so many."""
    while len(files := machine.shell(ARCHIVES).split()) < least:
        assert machine.post(f"more-{len(files)}") == "200"
        machine.restart("tracedesk-ops rollover L1 2>&1")
    return files


def make_second_line(machine: Machine) -> None:
    """Line L2 in a folder, as docs/line-folder.md makes it."""
    machine.shell(SECOND[0].script)
    answers = f"curl -s http://127.0.0.1:{SECOND_PORT}/overdue || true"
    wait_for("the desk of L2 answers", lambda: machine.shell(answers))


def refuse_work(machine: Machine, url: str, board: str) -> None:
    """Has the desk behind a site refuse a start of work, by a sender: an entry of its book."""
    body = {"Machine": "no-machine", "Board": board}
    word = {"MessageName": "TraceDesk.WorkStarted", "MessageBody": body}
    told = {**json.loads(part(f"untraced-{board}")), **word}
    machine.write(f"{json.dumps(told)}\n", "/tmp/refused.jsonl")
    send = f"{SENDER} --url {url} --spool /tmp/refused"
    machine.by_client(f"rm -rf /tmp/refused-* /tmp/refused; {send} --put /tmp/refused.jsonl")
    machine.by_client(f"{send} || test $? = 1")


def undecided(machine: Machine, url: str) -> dict[str, int]:
    """The boards of a line about which nobody decided yet, each with the number of its entry."""
    text = machine.ask(f"{OFFICE} {url}/line/undecided", body=True).partition("\n")[2]
    rows = csv.DictReader(io.StringIO(text, newline=""))
    return {row["board"]: int(row["n"]) for row in rows if row["kind"] == "work"}


def decide(machine: Machine, url: str, board: str) -> None:
    """Somebody with a log-in of senders decides that a board is scrapped."""
    said = {"Of": undecided(machine, url)[board], "Became": "scrapped", **BY_ANNA}
    post = f"{M1} --data-binary {shlex.quote(json.dumps(said))} {url}/line/decisions"
    assert machine.ask(post) == "200"
