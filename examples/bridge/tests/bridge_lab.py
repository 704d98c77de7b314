"""What the bridge's tests share: messages of machines and of the desk, a filter, and a folder with
a spool.
"""
from __future__ import annotations

import contextlib
import json
import pathlib
import sqlite3
import subprocess
import sys
from typing import Any, Iterable, Optional

import at_port
from at_port import PATIENCE, until
from tracedesk_dev import ROOT

BRIDGE = ROOT / "examples/bridge/tracedesk-bridge"
EXAMPLE = ROOT / "examples/bridge/cfx.jq"
MACHINE = "Vendor1.Model1.Machine34"


def line_of(message: Any) -> bytes:
    return json.dumps(message, separators=(",", ":")).encode()


def one_lane() -> str:
    """The example for a machine with one lane."""
    return EXAMPLE.read_text().replace('machine: "M1", lanes: 2', 'machine: "M1", lanes: 1')


def said(name: str, uid: str = "u-1", source: str = MACHINE, **body: Any) -> dict[str, Any]:
    """A message of a machine."""
    return {
        "MessageName": name,
        "UniqueID": uid,
        "Source": source,
        "TimeStamp": "2026-03-02T07:10:59.9999999+01:00",
        "MessageBody": body,
    }


def ours(
    word: str, uid: str, source: str = MACHINE, stamp: str = "2026-03-02T06:10:59Z", **body: Any
) -> bytes:
    """A message of the desk."""
    return line_of(at_port.told(word, uid, source, stamp, **body))


def start(uid: str, **more: Any) -> bytes:
    """A start of a board, as a machine says it."""
    return line_of(
        said("CFX.Production.WorkStarted", uid, **{"PrimaryIdentifier": f"SN-{uid}", **more})
    )


def elements_of(board: str, slot: str, pieces: Iterable[tuple[str, Any]]) -> list[dict[str, Any]]:
    """What a machine says of the pieces of a unit from one slot, after IPC's SDK: an element for
    each unit and material.
    """
    carrier, _, position = board.rpartition("-")
    found: dict[Any, list[dict[str, str]]] = {}
    for name, reel in pieces:
        found.setdefault(reel, []).append({"ReferenceDesignator": name})
    return [
        {
            "UnitIdentifier": carrier,
            "UnitPositionNumber": int(position),
            "QuantityInstalled": len(names),
            "Material": {"UniqueIdentifier": reel},
            "CarrierLocation": {"LocationName": slot},
            "InstalledComponents": names,
        }
        for reel, names in found.items()
    ]


class Room:
    """A folder with a spool and a filter."""

    def __init__(self, at: pathlib.Path) -> None:
        self.at, self.spool, self.aside = at, at / "spool", at / "spool.dead"
        self.table, self.file = at / "table.jq", at / "said.log"
        self.table.write_text(one_lane())
        self.running: Optional[subprocess.Popen[bytes]] = None

    def command(self, *more: Any) -> list[Any]:
        return [sys.executable, BRIDGE, "--table", self.table, "--spool", self.spool, *more]

    def run(
        self, *more: Any, given: bytes = b"", status: int = 0
    ) -> subprocess.CompletedProcess[bytes]:
        done = subprocess.run(
            self.command(*more), input=given, capture_output=True, timeout=PATIENCE
        )
        assert done.returncode == status, done.stderr.decode()
        return done

    def follow(self, *more: Any) -> None:
        self.running = subprocess.Popen(
            self.command(self.file, "--follow", *more), stderr=subprocess.DEVNULL
        )

    def end(self) -> None:
        if self.running:
            self.running.kill()
            self.running.wait()
            self.running = None

    def waiting(self) -> list[str]:
        return [str(it["UniqueID"]) for it in self.made()]

    def made(self) -> list[dict[str, Any]]:
        """The messages that wait, but those about dead letters."""
        return [it for it in map(json.loads, self.texts()) if "Sha256" not in it]

    def texts(self, state: str = "waiting") -> list[bytes]:
        """The messages of a state, in their order."""
        return list(at_port.texts_in(self.spool, state).values())

    def move(self, number: int, state: str) -> None:
        """What becomes of a message, as the sender keeps it; 0 is each that waits."""
        with contextlib.closing(sqlite3.connect(self.spool, timeout=PATIENCE)) as database:
            its = "state = 'waiting'" if number == 0 else f"n = {number}"
            database.execute(f"UPDATE message SET state = ? WHERE {its}", [state])
            database.commit()

    def wait_for(self, wanted: list[str]) -> None:
        until(lambda: self.waiting() == wanted, lambda: f"wanted {wanted}, got {self.waiting()}")

    def position(self) -> Optional[int]:
        """How far the bridge has kept that the file was read; none where it has kept nothing."""
        its = at_port.rows_in(self.spool, "SELECT value FROM kept WHERE name = 'position'")
        with contextlib.suppress(LookupError):
            return int(json.loads(its[0][0])[str(self.file)]["Files"][-1]["At"])
        return None

    def wait_until_at(self, place: int) -> None:
        """Waits until the bridge has kept that it read to this place of its file."""
        until(lambda: self.position() == place, lambda: f"the bridge has kept {self.position()}")

    def dead(self) -> list[bytes]:
        return [it.read_bytes() for it in sorted(self.aside.glob("*.json"))]
