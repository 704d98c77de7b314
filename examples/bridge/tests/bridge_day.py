"""Days of a machine with a log, and one that the bridge translates while the bridge, the sender and
the desk are killed.

The machine writes the rows of the day, some of them twice, into a file that the bridge follows with
the example's filter. tracedesk-send sends the bridge's messages to `serve`. At random moments the
bridge, the sender or the program gets SIGKILL and is started again; some kills hit two of them.
After that
  - each table of the desk has the rows that `feed` leaves of the messages, each given once and in
    order;
  - the answers are those that `feed` gives, in order, and the trace of each board has the reel of
    each piece;
  - each refused message is set aside, and nothing else; a row that lacks a member is a dead letter,
    and nothing else.
"""
from __future__ import annotations

import contextlib
import csv
import datetime
import pathlib
import random
import subprocess
import sys
import time
from typing import Any, Mapping

import killed
from at_port import SENDER
from bridge_lab import Room, line_of, ours
from filters import Filter
from fronts import csv_line, csv_record, json_records
from tracedesk_dev import ROOT
from tracedesk_dev.ports import free_port

LOG = ROOT / "examples/bridge/log.jq"
ZONE = "Europe/Berlin"
COLUMNS = ("Time", "Event", "Panel", "Unit", "Side", "Designator", "Slot", "Reel", "Next", "Module")
HEADING = ";".join(COLUMNS).encode()
MORNING = datetime.datetime(2026, 3, 2, 7)
SHEET = {"1": ("CAP", ["C1", "C2", "C3"]), "2": ("RES", ["R1", "R2"])}
ALL = [(slot, name) for slot, (_, names) in SHEET.items() for name in names]
Row = Mapping[str, str]


def text_of(row: Row) -> bytes:
    return ";".join(row.get(name, "") for name in COLUMNS).encode()


class Log:
    """A machine's log: rows, each some seconds after the one before, and what the filter gives."""

    def __init__(self, folder: pathlib.Path, machine: str = '"M1"', **settings: bool) -> None:
        text = LOG.read_text().replace('def machine: "M1";', f"def machine: {machine};")
        for name in settings:
            assert f"def {name}: false;" in text
            text = text.replace(f"def {name}: false;", f"def {name}: true;")
        (folder / "log.jq").write_text(text)
        self.filter, self.at = Filter(folder / "log.jq", ZONE), MORNING
        self.rows: list[Row] = []  # that were said

    def row(self, event: str, **its: str) -> Row:
        self.at += datetime.timedelta(seconds=7)
        return {"Time": f"{self.at}", "Event": event, **its}

    def line(self, row: Row) -> list[bytes]:
        """The messages of a row of a file that grows."""
        self.rows.append(row)
        (record,) = csv_line(text_of(row), HEADING)
        return [it.text for it in self.filter.made(record, "said.csv")]

    def says(self, event: str, **its: str) -> list[bytes]:
        return self.line(self.row(event, **its))

    def file(self, *rows: Row) -> list[bytes]:
        """The messages of a file of rows."""
        (record,) = csv_record(b"\n".join([HEADING, *map(text_of, rows)]))
        assert not record.fault
        return [it.text for it in self.filter.made(record, "P-1.csv")]


def host(number: object, word: str, **body: Any) -> bytes:
    """What the host says to the desk itself."""
    return ours(word, f"h-{word}-{number}", "host", "2026-03-02T05:00:00Z", **body)


def sheet(product: str, *slots: str, number: str = "1") -> bytes:
    rows = [
        {"Slot": it, "PartNumber": SHEET[it][0], "Designators": SHEET[it][1]}
        for it in slots or SHEET
    ]
    return host(f"{product}-{number}", "SheetDefined", Product=product, Machine="M1", Rows=rows)


class Day:
    """Boards that a machine places, piece by piece, from two slots whose reels run out. The
    machine knows what the desk has to find out: which reel each piece is of.
    """

    def __init__(self, log: Log, seed: int) -> None:
        self.log, self.chance = log, random.Random(seed)
        self.said: list[bytes] = []
        self.pieces: dict[str, dict[str, str]] = {}
        self.on: dict[str, tuple[str, int]] = {}
        self.before: list[bytes] = []
        self.count = 0

    def set_up(self, *sheets: bytes) -> None:
        for slot, (part, _) in SHEET.items():
            self.before.append(host(slot, "PartDefined", PartNumber=part))
        self.before += [*sheets, host("P", "ProductSelected", Machine="M1", Product="PR")]

    def next_reel(self, slot: str) -> str:
        self.count += 1
        reel, more = f"K-{self.count:02}", self.chance.randint(1, 3)
        left = self.chance.randint(5, 12)
        its = {"PartNumber": SHEET[slot][0], "Lot": f"L-{reel}", "Level": "1"}
        # the supplier's label says more than the tape has
        self.before.append(host(reel, "ReelReceived", Reel=reel, Quantity=left + more, **its))
        self.on[slot] = reel, left
        return reel

    def place(self, board: str, slot: str, name: str, **row: str) -> Row:
        """A piece, and before it the end of each tape that has none left."""
        for it, (old, left) in list(self.on.items()):
            if not left:
                self.said += self.log.says("OUT", Slot=it, Reel=old, Next=self.next_reel(it))
        reel, left = self.on[slot]
        self.on[slot] = reel, left - 1
        self.pieces.setdefault(board, {})[name] = reel
        return self.log.row("PLACE", Designator=name, Reel=reel, Slot=slot, **row)

    def load(self) -> None:
        for slot in SHEET:
            self.said += self.log.says("LOAD", Slot=slot, Reel=self.next_reel(slot))

    def build(self, boards: int) -> None:
        """So many boards on one lane."""
        for board in (f"B{number}" for number in range(boards)):
            self.said += self.log.says("START", Panel=board)
            for slot, name in ALL:
                self.said += self.log.line(self.place(board, slot, name, Panel=board))
            self.said += self.log.says("END", Panel=board)

    def is_traced(self, program: pathlib.Path, desk: pathlib.Path) -> None:
        """The trace of each board has the reel of each piece."""
        for board, wanted in self.pieces.items():
            target = f"/trace/board?board={board.replace('/', '%2F')}&detail=4"
            words: list[Any] = [program, "report", "--db", desk, "--get", target]
            table = subprocess.run(words, stdout=subprocess.PIPE, text=True, check=True).stdout
            rows = csv.DictReader(table.splitlines())
            assert {it["designator"]: it["reel"] for it in rows} == wanted, board


class Run(killed.Run):
    """A machine that writes a log, a bridge with the example's filter, its sender and a desk."""

    kinds = (
        ("bridge",),
        ("sender",),
        ("bridge", "desk"),
        ("bridge",),
        ("desk",),
        ("bridge", "sender"),
        ("bridge",),
    )

    def __init__(
        self, program: pathlib.Path, at: pathlib.Path, seed: int, boards: int, kills: int
    ) -> None:
        killed.Run.__init__(self, program, at, seed, kills)
        self.room, self.file, self.port = Room(at), at / "said.log", free_port()
        self.room.table.write_text(LOG.read_text())
        self.day = Day(Log(at), seed)
        self.day.set_up(sheet("PR"))
        self.day.load()
        self.day.build(boards)
        self.wanted_dead: list[bytes] = []
        self.say_rows()
        wanted: dict[bytes, None] = {}
        for line in (it for it in self.lines if it not in self.wanted_dead):
            (record,) = json_records(line)
            wanted.update({it.text: None for it in self.day.log.filter.made(record)})
        self.wanted = list(wanted)
        for desk in ("desk", "clean"):
            killed.fed(program, self.at / desk, b"\n".join(self.day.before))
        self.clean = killed.fed(
            program, self.at / "clean", b"\n".join(self.wanted) + b"\n"
        ).splitlines()

    def say_rows(self) -> None:
        """The rows of the day, and among them some again, some that the desk refuses, and some that
        are dead letters.
        """
        for number, row in enumerate(self.day.log.rows):
            self.lines.append(line_of(row))
            if number % 29 == 7:
                self.lines.append(self.chance.choice(self.lines[-40:]))
            if number % 37 == 3:
                self.lines.append(line_of({**row, "Event": "UNLOAD", "Slot": f"{number}"}))
            if number % 41 == 5:
                self.wanted_dead.append(line_of({**row, "Event": f"ODD-{number}"}))
                self.lines.append(self.wanted_dead[-1])

    def words(self) -> dict[str, list[Any]]:
        sender = [sys.executable, SENDER, "--url", f"http://127.0.0.1:{self.port}"]
        return {
            "desk": killed.serving(self.program, self.at, self.port),
            "sender": [*sender, "--spool", self.spool, "--stay"],
            "bridge": self.room.command(*self.source(), "--zone", ZONE),
        }

    def source(self) -> list[Any]:
        return [self.file, "--follow"]

    def write(self) -> None:
        """Lines in pieces that end anywhere."""
        data = b"\n".join(self.lines) + b"\n"
        with open(self.file, "ab", buffering=0) as file:
            while data:
                some = self.chance.randint(1, 6000)
                file.write(data[:some])
                data = data[some:]
                time.sleep(self.chance.uniform(0, 0.05))
        self.is_written = True

    def is_done(self) -> bool:
        with contextlib.suppress(FileNotFoundError):
            return (
                self.is_written
                and self.room.position() == self.file.stat().st_size
                and not self.waits()
            )
        return False

    def look_at_all(self) -> None:
        """Each message acted once and in order, and each board's trace has the reel of each
        piece.
        """
        self.look_at(self.wanted)
        assert [line.rstrip(b"\n") for line in self.room.dead()] == self.wanted_dead
        self.day.is_traced(self.program, self.at / "desk")
