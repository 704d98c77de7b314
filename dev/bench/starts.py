"""Measures how long `serve` takes to start, and its memory, by the pieces in the desk's file;
prints a table for docs/figures.md.

usage: dev/bench/run starts [--program FILE] [--pieces N,N,..] [--turns N] [FOLDER]

examples:
  dev/bench/run starts                                   all of it, on an idle machine: half an hour
  dev/bench/run starts --pieces 10000,100000 --turns 1   a first look
  dev/bench/run starts --program ./tracedesk /srv        another program, on this disk

One file grows in FOLDER, or in the folder for temporary files, and is measured at each size: a line
of four machines with 40 slots each. Each board passes all four and gets 100 pieces on each, and
reels of 2,000 pieces are spliced. A start is the time from the run of the program to its first
answer over HTTP, by the clock and of the processor. Resident is the memory that it has then, and
most the most that it had until then (VmRSS and VmHWM of /proc). The medians of the turns are told.
"""
import argparse
import itertools
import json
import os
import pathlib
import statistics
import subprocess
import tempfile
import time
import uuid
from typing import Iterator

from tracedesk_dev import program, trial

SIZES = "10000,100000,400000,1000000,4000000"
MACHINES, SLOTS, REEL = 4, 40, 2_000
Said = tuple[bytes, int]  # a message, and the pieces that it places


class Line:
    """The messages of a line that goes on for ever."""

    def __init__(self) -> None:
        self.minute, self.told, self.reels = 0, 0, 0
        self.left: dict[tuple[str, str], int] = {}  # pieces on a slot

    def say(self, word: str, **body: object) -> Said:
        self.told += 1
        day, minutes = divmod(self.minute, 24 * 60)
        envelope = {
            "MessageName": "TraceDesk." + word,
            "UniqueID": str(uuid.UUID(int=self.told)),
            "Source": "LINE1",
            "TimeStamp": f"2026-01-{5 + day:02}T{minutes // 60:02}:{minutes % 60:02}:00Z",
            "MessageBody": body,
        }
        names = body.get("Designators", [])
        return json.dumps(envelope).encode() + b"\n", len(names) if isinstance(names, list) else 0

    def sheet(self, machine: int) -> dict[str, list[str]]:
        """The slots with their designators: three on the first half, two on the others."""
        names = (f"{'CRUL'[machine]}{number}" for number in itertools.count(1))
        return {
            str(slot): [next(names) for _ in range(3 if slot <= SLOTS // 2 else 2)]
            for slot in range(1, SLOTS + 1)
        }

    def messages(self) -> Iterator[Said]:
        sheets = {f"LINE1-M{number + 1}": self.sheet(number) for number in range(MACHINES)}
        for machine, sheet in sheets.items():
            for slot in sheet:
                yield self.say("PartDefined", PartNumber=f"{machine}-P{slot}")
            rows = [
                {"Slot": slot, "PartNumber": f"{machine}-P{slot}", "Designators": names}
                for slot, names in sheet.items()
            ]
            yield self.say("SheetDefined", Product="CTRL-A100", Machine=machine, Rows=rows)
            yield self.say("ProductSelected", Machine=machine, Product="CTRL-A100")
        while True:
            self.minute += 1
            for machine, sheet in sheets.items():
                yield from self.board(machine, sheet)

    def board(self, machine: str, sheet: dict[str, list[str]]) -> Iterator[Said]:
        for slot, names in sheet.items():
            if self.left.get((machine, slot), 0) < 2 * len(names):
                yield from self.reel(machine, slot)
            self.left[machine, slot] -= len(names)
        its: dict[str, object] = {"Machine": machine, "Board": f"SN-{self.minute:07}"}
        yield self.say("WorkStarted", **its)
        yield self.say("MaterialsInstalled", **its, Designators=sum(sheet.values(), []))
        yield self.say("WorkCompleted", **its)

    def reel(self, machine: str, slot: str) -> Iterator[Said]:
        """One more reel, at level 3 on every tenth slot."""
        self.reels += 1
        name, lot = f"R{self.reels:06}", f"LOT-{self.reels // 3:05}"
        its: dict[str, object] = {"Level": "1" if int(slot) % 10 else "3", "Quantity": REEL}
        yield self.say("ReelReceived", Reel=name, PartNumber=f"{machine}-P{slot}", Lot=lot, **its)
        word = "MaterialsSpliced" if (machine, slot) in self.left else "MaterialsLoaded"
        yield self.say(word, Machine=machine, Slot=slot, Reel=name)
        self.left[machine, slot] = self.left.get((machine, slot), 0) + REEL


def grown(
    tracedesk: str, file: pathlib.Path, messages: Iterator[Said], pieces: int
) -> tuple[int, int]:
    """Feeds messages until so many more pieces are placed; how many messages, and pieces."""
    ticks, commands, placed = program.Ticks(), 0, 0
    with subprocess.Popen(
        [tracedesk, "feed", "--db", file], stdin=subprocess.PIPE, stdout=subprocess.DEVNULL
    ) as running:
        assert running.stdin
        while placed < pieces:
            text, some = next(messages)
            running.stdin.write(text)
            commands, placed = commands + 1, placed + some
            ticks.tell(f"{placed:,} of {pieces:,} pieces")
    if running.returncode:
        program.stop(f"feed ended with status {running.returncode}")
    return commands, placed


def started(tracedesk: str, file: pathlib.Path) -> tuple[float, float, int, int]:
    """Seconds of a start, by the clock and of the processor; its resident memory at the end and the
    most until then, in bytes.
    """
    began = time.perf_counter()
    with trial.served(tracedesk, file) as (process, connection):
        connection.request("GET", "/overdue")
        connection.getresponse().read()
        seconds = time.perf_counter() - began
        told = pathlib.Path(f"/proc/{process.pid}/stat").read_text().rpartition(")")[2].split()
        processor = sum(map(int, told[11:13])) / os.sysconf("SC_CLK_TCK")  # user and system
        resident, most = (trial.memory_of(process, name) for name in ("VmRSS", "VmHWM"))
        return seconds, processor, resident, most


def words(reader: argparse.ArgumentParser) -> None:
    program.offer(reader)
    reader.add_argument("--pieces", default=SIZES, metavar="N,N,..", help=f"the sizes ({SIZES})")
    reader.add_argument("--turns", type=int, default=3, metavar="N", help="starts of each size (3)")
    reader.add_argument("folder", nargs="?", metavar="FOLDER", help="where the file grows")


def main(asked: argparse.Namespace, reader: argparse.ArgumentParser) -> None:
    sizes = sorted(map(int, asked.pieces.split(",")))
    if asked.turns < 1 or sizes[0] < 1:
        reader.error("there is at least one turn, and a piece")
    tracedesk, commands, pieces = program.to_use(asked.program), 0, 0
    print("| pieces | commands | MB | start, s | processor, s | resident, MB | most, MB |")
    print(f"|{7 * '---:|'}")
    with tempfile.TemporaryDirectory(dir=asked.folder) as room:
        file, messages = pathlib.Path(room, "desk"), Line().messages()
        for size in sizes:
            some = grown(tracedesk, file, messages, size - pieces)
            commands, pieces = commands + some[0], pieces + some[1]
            turns = [started(tracedesk, file) for _ in range(asked.turns)]
            start, processor, resident, most = (statistics.median(its) for its in zip(*turns))
            print(
                f"| {pieces:,} | {commands:,} | {file.stat().st_size / 1e6:.1f} | {start:.2f} |"
                f" {processor:.2f} | {resident / 1e6:.1f} | {most / 1e6:.1f} |",
                flush=True,
            )
