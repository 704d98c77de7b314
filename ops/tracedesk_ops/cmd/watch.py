"""Writes what there is to know of a running desk as a text file for Prometheus, whole or not at
all.

usage: tracedesk-watch [--to FILE] [--port N] [--health URL] [--unit NAME] [--setup FILE]
                       [--line LINE] [--clock FILE] [--timeout SECONDS]
       tracedesk-watch --list

examples:
  tracedesk-watch                the file that nginx serves as /metrics; tracedesk-watch.timer has
                                 it written each minute
  tracedesk-watch --to -         prints it
  tracedesk-watch --to /var/lib/prometheus/node-exporter/tracedesk.prom    for the textfile
                                                                           collector of a node
                                                                           exporter
  tracedesk-watch --list         the metrics, one a line: name, type, meaning and source

The desk is asked by its own routes, a connection a request, and its file is never opened: a running
desk alone has it. Each metric says from where its value is. Machines are those of the station's
setup.json.

A source that can't be read is named on standard error. Its metrics are left out, and
tracedesk_watch_source_up says so. When the desk is down the file is written with tracedesk_up 0. It
gives way to the new one by a rename.

Exit status: 0 written, whatever was found; 1 not written, and the file before it stays; 2 bad
command line; 9 an unexpected failure.
"""
from __future__ import annotations

import argparse
import collections
import csv
import datetime
import http.client
import json
import os
import pathlib
import shutil
import ssl
import subprocess
import time
from collections.abc import Callable, Generator
from typing import Any

from tracedesk import Desk, NotTaken, NotThere, Refused
from tracedesk_ops import metrics, model, options, places, plant
from tracedesk_ops import reader_of, sealed_watch, stored

TO = pathlib.Path("/run/tracedesk-watch/metrics")
SETUP = pathlib.Path("/etc/tracedesk/station/setup.json")
CLOCK = pathlib.Path("/run/tracedesk-clock/desk.json")  # ops/tracedesk-clock writes it
HEALTH = "https://127.0.0.1/health"
SECONDS_FOR_SYSTEMD, SECONDS_FOR_NGINX = 10, 15  # packaging/nginx.conf waits less for the desk
FAULTS = (
    *plant.FAULTS,
    NotTaken,
    http.client.HTTPException,
    ValueError,
    LookupError,
    TypeError,
    AttributeError,
    ArithmeticError,
    RecursionError,
    subprocess.SubprocessError,
    csv.Error,
)


def is_there(path: str | pathlib.Path) -> bool:
    """Whether there is something; a PermissionError if that can't be seen."""
    try:
        os.stat(path)
        return True
    except FileNotFoundError:
        return False


def read_if_there(path: pathlib.Path) -> Any:
    """What a file of JSON says, or None."""
    return json.loads(path.read_bytes()) if is_there(path) else None


class Once(Desk):
    """The running desk, or nginx, which is asked once, by a connection of its own: so nobody waits
    for the watch.
    """

    def until(self, call: Callable[[], tuple[Any, str, float]]) -> Any:
        self.headers["Connection"] = "close"
        try:
            with self.within(None, lambda: None):
                found, why, _ = call()
        finally:
            self.close()
        if found is None:
            raise NotTaken(why)
        return found

    def rows(self, path: str, **asked: Any) -> list[Any]:
        """The rows of a report; none if the desk doesn't know what is asked."""
        try:
            return self.report(path, **asked)
        except NotThere as answer:
            if answer.kind == "Path":
                raise NotTaken("no desk answers") from None
            return []

    def has(self, uid: str) -> bool:
        """Whether the desk has accepted a UniqueID, by a message that it refuses in any case."""
        answer = self.ask(stored.question(uid).encode())
        if not isinstance(answer, Refused):
            raise NotTaken(f"it can't be asked which desk it is: {answer}")
        return answer.refusal == "IdReused"


class Watch:
    """The sources: each yields its samples. Those before a fault stay."""

    def __init__(self, asked: argparse.Namespace) -> None:
        self.asked = asked
        self.desk = Once(f"http://127.0.0.1:{asked.port}", timeout=asked.timeout)
        self.is_up = False
        self.sealed = asked.db.with_name(model.SEALED)

    def tried(self, name: str, source: metrics.Samples) -> Generator[metrics.Sample, None, bool]:
        """The samples of a source, and whether it gave all; else the reason is told."""
        try:
            yield from source
            return True
        except FAULTS as fault:
            plant.tell(f"{name}: {str(fault) or repr(fault)}")
            return False

    def whole(self) -> metrics.Samples:
        """All samples of this moment."""
        self.is_up = yield from self.tried("the desk", self.answers())
        yield "up", int(self.is_up), {}
        proxy_is_up = yield from self.tried("nginx", self.proxy())
        yield "proxy_up", int(proxy_is_up), {}
        for name, source in (
            ("reports", self.reports),
            ("book", self.book),
            ("service", self.service),
            ("file", self.file),
            ("backup", self.backup),
            ("clock", self.clock),
            ("status", self.status),
        ):
            is_whole = yield from self.tried(name, source())
            yield "watch_source_up", int(is_whole), {"source": name}
        yield "watch_timestamp_seconds", round(time.time(), 3), {}

    def answers(self) -> metrics.Samples:
        began = time.monotonic()
        self.desk.rows("/reel", reel="-")  # one that hardly a plant has
        yield "get_seconds", round(time.monotonic() - began, 6), {}

    def proxy(self) -> metrics.Samples:
        """Whether nginx answers. It is on this machine, so its certificate is not looked at."""
        trust = ssl.SSLContext(ssl.PROTOCOL_TLS_CLIENT)
        trust.check_hostname, trust.verify_mode = False, ssl.CERT_NONE
        nginx = Once(self.asked.health, trust, timeout=SECONDS_FOR_NGINX)
        nginx.until(lambda: (nginx.once("GET", "", None, {}), "", 0.0))
        yield from ()

    def reports(self) -> metrics.Samples:
        """What is overdue, and of each machine what ends first."""
        if not self.is_up:
            raise plant.Fault("the desk is not asked for them: it is down")
        yield "overdue_pieces", len(self.desk.rows("/overdue")), {}
        for machine, product in machines_of(self.asked.setup):
            yield from self.machine(machine, product)

    def machine(self, machine: str, product: str | None) -> metrics.Samples:
        slots = self.desk.rows("/slots", machine=machine)
        kit: list[Any] = []
        if product:
            kit = self.desk.rows("/kit", product=product, machine=machine, boards=1)
        pieces = collections.Counter({row.slot: 0 for row in kit})
        for row in slots:
            pieces[row.slot] += row.remaining
        lives = [row.minutes_left for row in slots if isinstance(row.minutes_left, int)]
        if lives:
            yield "least_floor_life_seconds", 60 * min(lives), {"machine": machine}
        if pieces:
            yield "least_slot_pieces", min(pieces.values()), {"machine": machine}

    def book(self) -> metrics.Samples:
        """How many entries the line's book has; nothing of a desk that has none."""
        if not self.is_up:
            raise plant.Fault("the desk is not asked for it: it is down")
        status, body, _ = self.desk.until(
            lambda: (self.desk.once("GET", "/line/counts", None, {}), "", 0.0)
        )
        if status != http.client.NOT_FOUND:
            told = json.loads(body)
            for name in ("Entries", "Open", "Undecided"):
                yield f"book_{name.lower()}", int(told[name]), {}

    # --- What no route tells

    def service(self) -> metrics.Samples:
        unit = self.asked.unit
        done = subprocess.run(
            ["systemctl", "show", "--property=ActiveState,NRestarts,LoadState", unit],
            stdin=subprocess.DEVNULL,
            capture_output=True,
            **plant.TEXT,
            timeout=SECONDS_FOR_SYSTEMD,
        )
        told = dict(line.split("=", 1) for line in done.stdout.splitlines() if "=" in line)
        if told.get("LoadState") != "loaded":
            why = done.stderr.strip() or "no such unit is loaded"
            raise plant.Fault(f"systemctl show {unit} ended with status {done.returncode}: {why}")
        yield "service_active", int(told["ActiveState"] == "active"), {}
        yield "service_restarts_total", int(told["NRestarts"]), {}

    def file(self) -> metrics.Samples:
        """The size of the desk's file and what follows from it; no file is opened."""
        size, log = os.stat(self.asked.db).st_size, f"{self.asked.db}-wal"
        pieces = size // metrics.BYTES_A_PIECE
        seconds = round(pieces * plant.SECONDS_A_MILLION / 1_000_000, 3)
        yield "file_bytes", size, {}
        yield "log_bytes", os.stat(log).st_size if is_there(log) else 0, {}
        yield "disk_free_bytes", shutil.disk_usage(self.asked.db.parent).free, {}
        yield "pieces_estimate", pieces, {}
        yield "next_start_estimate_seconds", seconds, {}

    def backup(self) -> metrics.Samples:
        """The newest sealed file; one of the future is none to trust."""
        if is_there(self.sealed):
            has = self.desk.has if self.is_up else lambda _: True
            yield from sealed_watch.newest(self.sealed, has)

    def clock(self) -> metrics.Samples:
        """The answer that the idle clock had last, if it is on."""
        if told := read_if_there(self.asked.clock):
            second = second_of(told["UniqueID"], "clock-%Y-%m-%dT%H:%MZ")
            yield "clock_timestamp_seconds", second, {}
            yield "clock_commands", int(told["Number"]), {}

    def status(self) -> metrics.Samples:
        """What each sender says of itself. One that can't be read doesn't hide the others."""
        spoilt = []
        folder = self.asked.db.with_name(model.STATUS)
        there = folder.glob("[!.]*.json") if is_there(folder) else ()
        for file in sorted(there):
            try:
                yield from list(said_by(json.loads(file.read_bytes())))
            except FAULTS as fault:
                spoilt.append(f"{file}: {str(fault) or repr(fault)}")
        if spoilt:
            raise plant.Fault("; ".join(spoilt))


def said_by(told: dict[str, Any]) -> metrics.Samples:
    """What the status of a sender says."""
    sender = {"sender": str(told["Sender"])}
    yield "sender_waiting", int(told["Waiting"]), sender
    yield "sender_aside", int(told["Aside"]), sender
    if told["OldestWaiting"]:
        since = second_of(told["OldestWaiting"])
        yield "sender_oldest_waiting_timestamp_seconds", since, sender
    yield "sender_timestamp_seconds", second_of(told["At"]), sender
    for machine, state in told["Machines"].items():
        yield "interlock_go", int(state["State"] == "go"), {**sender, "machine": machine}


def second_of(text: str, form: str = "%Y-%m-%dT%H:%M:%SZ") -> int:
    moment = datetime.datetime.strptime(text, form)
    return int(moment.replace(tzinfo=datetime.timezone.utc).timestamp())


def machines_of(path: pathlib.Path) -> list[tuple[str, str | None]]:
    """The machines of the station's setup.json, each with the product of its sheet or None."""
    try:
        told = read_if_there(path) or {"machines": []}
        return list({row["machine"]: row.get("product") for row in told["machines"]}.items())
    except (ValueError, KeyError, TypeError, AttributeError) as fault:
        raise plant.Fault(
            f"{path} has no list of machines: {fault!r}; docs/station.md says how it is written"
        ) from fault


def offer_places(reader: argparse.ArgumentParser) -> None:
    """Adds the words that say where everything is."""
    reader.add_argument(
        "--port",
        type=int,
        default=places.PORT,
        metavar="N",
        help=f"where the desk answers ({places.PORT})",
    )
    reader.add_argument(
        "--health", default=HEALTH, metavar="URL", help=f"what nginx is asked ({HEALTH})"
    )
    reader.add_argument(
        "--unit", default="tracedesk", metavar="NAME", help="the service (tracedesk)"
    )
    for name, default, what in (
        ("setup", SETUP, "the machines"),
        ("clock", CLOCK, "the idle clock's last answer"),
    ):
        reader.add_argument(
            f"--{name}",
            type=pathlib.Path,
            default=default,
            metavar="FILE",
            help=f"{what} ({default})",
        )


def words() -> argparse.Namespace:
    reader = reader_of(__doc__)
    reader.add_argument("--list", action="store_true", help="print the metrics")
    reader.add_argument(
        "--to", metavar="FILE", default=str(TO), help=f"the file that is written, or - ({TO})"
    )
    offer_places(reader)
    reader.add_argument(
        "--timeout",
        type=float,
        default=10,
        metavar="SECONDS",
        help="for one answer of the desk (10)",
    )
    options.set_up(reader)
    asked = reader.parse_args()
    if asked.timeout <= 0:
        reader.error("--timeout: an answer takes some time")
    if not asked.health.startswith("https://"):
        reader.error("--health: it is an https URL")
    return asked


def main() -> int:
    asked = words()
    text = metrics.METRICS if asked.list else metrics.text_of(Watch(asked).whole())
    return plant.replaced("-" if asked.list else asked.to, text, "--to")
