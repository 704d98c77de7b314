"""Measures how the processor time of a kit list, an unload, a lot trace and an install that spends
reels grows with a line, one time, four times and sixteen times as large; prints a table for
docs/figures.md.

usage: dev/bench/run growth [--program FILE] [--other FILE] [--only WORD,WORD,..] [--times N,N,..]

examples:
  dev/bench/run growth                           all of it: some minutes
  dev/bench/run growth --other ./peer            another program beside it
  dev/bench/run growth --only kit --times 1,4    a first look

  kit      a kit list of 20 rows over 500 reels at rest, 25 of each part
  unload   an unload of one of 1,920 slots, 120 on each machine
  trace    the trace of a lot of 10 pieces among 1,000 reels, at detail 1
  removal  an install of 300 pieces that spends 300 reels of one tape, whose names fall along it

Times are of the processor, from the kernel's count for the run of `serve`, and medians of several
turns. The exponent is that of the growth from one size to the next: 1 is linear.
"""
import argparse
import json
import math
import pathlib
import statistics
import subprocess
import tempfile
from typing import Callable, Iterator, NamedTuple

from tracedesk_dev import program, trial

ASKED = tuple[str, str, bytes]  # a method, a target, a body
TURNS = 11


class Line:
    """The messages of a line, each accepted."""

    def __init__(self) -> None:
        self.told = 0
        self.parts: set[str] = set()  # those that are defined: a second definition is refused

    def say(self, word: str, **body: object) -> bytes:
        self.told += 1
        envelope = {
            "MessageName": "TraceDesk." + word,
            "UniqueID": f"u{self.told}",
            "Source": "LINE1",
            "TimeStamp": "2026-01-05T00:00:00Z",
            "MessageBody": body,
        }
        return json.dumps(envelope).encode() + b"\n"

    def sheet(self, machine: str, parts: list[str], designators: int = 1) -> Iterator[bytes]:
        """A sheet of a slot for each part, selected on the machine."""
        for part in sorted(set(parts) - self.parts):
            self.parts.add(part)
            yield self.say("PartDefined", PartNumber=part)
        rows = [
            {
                "Slot": f"{slot}",
                "PartNumber": part,
                "Designators": [f"R{slot}-{place}" for place in range(designators)],
            }
            for slot, part in enumerate(parts)
        ]
        yield self.say("SheetDefined", Product="A", Machine=machine, Rows=rows)
        yield self.say("ProductSelected", Machine=machine, Product="A")

    def reel(self, name: str, part: str, lot: str = "L", quantity: int = 100) -> bytes:
        its: dict[str, object] = {"Lot": lot, "Level": "1", "Quantity": quantity}
        return self.say("ReelReceived", Reel=name, PartNumber=part, **its)

    def on(self, word: str, machine: str, slot: int, **more: object) -> bytes:
        return self.say("Materials" + word, Machine=machine, Slot=f"{slot}", **more)


class Case(NamedTuple):
    """What a file is fed; the requests that are measured, each with those that follow it."""

    fed: Iterator[bytes]
    turns: list[tuple[ASKED, list[ASKED]]]


def post(message: bytes) -> ASKED:
    return "POST", "/messages", message


def kit(times: int) -> Case:
    line, parts = Line(), [f"P{number}" for number in range(20 * times)]

    def fed() -> Iterator[bytes]:
        yield from line.sheet("M", parts)
        for number in range(500 * times):
            yield line.reel(f"K{number}", parts[number % len(parts)])

    asked: ASKED = ("GET", "/kit?product=A&machine=M&boards=500", b"")
    return Case(fed(), [(asked, [])] * TURNS)


def unload(times: int) -> Case:
    line, machines, slots = Line(), [f"M{number}" for number in range(16 * times)], 120

    def fed() -> Iterator[bytes]:
        for machine in machines:
            yield from line.sheet(machine, ["P"] * slots)
            for slot in range(slots):
                yield line.reel(f"{machine}-{slot}", "P")
                yield line.on("Loaded", machine, slot, Reel=f"{machine}-{slot}")

    first = list(fed())
    machine = machines[len(machines) // 2]
    turns = [
        (
            post(line.on("Unloaded", machine, slot)),
            [post(line.on("Loaded", machine, slot, Reel=f"{machine}-{slot}"))],
        )
        for slot in range(TURNS)
    ]
    return Case(iter(first), turns)


def trace(times: int) -> Case:
    line = Line()

    def fed() -> Iterator[bytes]:
        yield from line.sheet("M", ["P"], 10)
        for number in range(1_000 * times):
            yield line.reel(f"K{number}", "P", f"L{number}")
        yield line.on("Loaded", "M", 0, Reel="K500")
        yield line.say("WorkStarted", Machine="M", Board="B")
        names = [f"R0-{place}" for place in range(10)]
        yield line.say("MaterialsInstalled", Machine="M", Board="B", Designators=names)

    return Case(fed(), [(("GET", "/trace/lot?lot=L500&detail=1", b""), [])] * TURNS)


def removal(times: int) -> Case:
    line, pieces = Line(), 300 * times
    names = [f"R0-{place}" for place in range(pieces)]

    def tape(turn: int) -> Iterator[bytes]:
        for number in range(pieces, -1, -1):
            reel = f"K{turn}-{number:06}"
            yield line.reel(reel, "P", quantity=1)
            yield line.on("Loaded" if number == pieces else "Spliced", "M", 0, Reel=reel)
        yield line.say("WorkStarted", Machine="M", Board=f"B{turn}")

    def install(turn: int) -> ASKED:
        its: dict[str, object] = {"Machine": "M", "Board": f"B{turn}"}
        return post(line.say("MaterialsInstalled", **its, Designators=names))

    def after(turn: int) -> list[ASKED]:
        if turn == 3:
            return []
        done = [
            line.say("WorkCompleted", Machine="M", Board=f"B{turn}"),
            line.on("Unloaded", "M", 0),
        ]
        return [post(message) for message in (*done, *tape(turn + 1))]

    first = [*line.sheet("M", ["P"], pieces), *tape(1)]
    return Case(iter(first), [(install(turn), after(turn)) for turn in (1, 2, 3)])


CASES: dict[str, tuple[str, Callable[[int], Case]]] = {
    "kit": ("a kit list", kit),
    "unload": ("an unload", unload),
    "trace": ("a lot trace", trace),
    "removal": ("an install that spends reels", removal),
}


def processor(process: subprocess.Popen[bytes]) -> int:
    """The nanoseconds that all threads of a run have had of a processor."""
    tasks = pathlib.Path(f"/proc/{process.pid}/task").glob("*/schedstat")
    return sum(int(task.read_text().split()[0]) for task in tasks)


def measured(tracedesk: str, case: Case, folder: pathlib.Path) -> float:
    """The median of the turns, in milliseconds."""
    file = folder / "desk"
    trial.remove(file)
    lines = b"".join(case.fed)
    done = subprocess.run([tracedesk, "feed", "--db", file], input=lines, capture_output=True)
    if done.returncode or b'"Refused"' in done.stdout:
        program.stop(f"feed ended with status {done.returncode}, or refused a message")
    spent = []
    with trial.served(tracedesk, file) as (process, connection):

        def ask(method: str, target: str, body: bytes) -> None:
            said = {"Content-Type": "application/json"} if body else {}
            connection.request(method, target, body.rstrip() or None, said)
            answer = connection.getresponse()
            if answer.status != 200 or b'"Refused"' in answer.read():
                program.stop(f"{method} {target} was answered {answer.status}, or refused")

        for asked, between in case.turns:
            before = processor(process)
            ask(*asked)
            spent.append(processor(process) - before)
            for other in between:
                ask(*other)
    return statistics.median(spent) / 1e6


def words(reader: argparse.ArgumentParser) -> None:
    program.offer(reader)
    reader.add_argument("--other", metavar="FILE", help="another program to measure beside it")
    reader.add_argument("--only", default=",".join(CASES), metavar="WORD,..", help="these alone")
    reader.add_argument("--times", default="1,4,16", metavar="N,..", help="the sizes (1,4,16)")


def main(asked: argparse.Namespace, reader: argparse.ArgumentParser) -> None:
    names, times = asked.only.split(","), [int(size) for size in asked.times.split(",")]
    if not set(names) <= set(CASES):
        reader.error(f"there are {', '.join(CASES)}")
    programs = [program.to_use(asked.program), *([asked.other] if asked.other else [])]
    sizes = " | ".join(f"{size}x, ms" for size in times)
    print(f"| Asked | Program | {sizes} | exponents |")
    print(f"|---|---|{(len(times) + 1) * '---:|'}")
    with tempfile.TemporaryDirectory(dir=trial.in_memory()) as room:
        for name in names:
            title, make = CASES[name]
            for each, its in zip(programs, ("tracedesk", "the other")):
                told = [measured(each, make(size), pathlib.Path(room)) for size in times]
                steps = zip(told, told[1:], times, times[1:])
                grown = [math.log(b / a) / math.log(n / m) for a, b, m, n in steps]
                cells = [f"{spent:.3f}" for spent in told]
                exponents = ", ".join(f"{exponent:.2f}" for exponent in grown)
                print(f"| {title} | {its} | {' | '.join(cells)} | {exponents} |", flush=True)
