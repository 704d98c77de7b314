"""Measures `tracedesk-line serve`, beside `tracedesk serve`: an accepted message, a refused one, a
machine's state, and the opening of a file with a long book; prints tables for docs/figures.md.

usage: dev/bench/run line [--program FILE] [--boards N] [--entries N] [--turns N]

examples:
  dev/bench/run line                          a day of 300 boards, five turns: some minutes
  dev/bench/run line --boards 20 --turns 1    a first look
  LINE=./tracedesk-line dev/bench/run line    another tracedesk-line than the one next to tracedesk

A turn is each of these once; figures are medians of the turns. The files are in memory, so that no
disk hides a difference. Microseconds of the processor are the kernel's count for the server, per
request; those by the clock are medians over the requests. The requests are

- the messages of dev/tracedesk_dev/shift.py, without the ones that are refused, on one connection
- on a new file, so many definitions of parts, and as many refused starts of work, in turn, of which
  each makes an entry
- the state of a machine of 120 slots that may work, and of one whose slots are all empty
- the first answer of a server, with a file of the first messages and an empty book, and with the
  same and a book of so many entries
"""
import argparse
import contextlib
import http.client
import pathlib
import shutil
import sqlite3
import statistics
import subprocess
import tempfile
import time
from collections.abc import Iterator

from bench import growth
from tracedesk_dev import program, shift, trial
from tracedesk_ops import plant

Took = tuple[float, float]  # microseconds by the clock, and of the processor
Asked = tuple[str, str, bytes | None]
SLOTS, ASKS = 120, 200
GO, STOP = "M0", "M1"  # machines
ENTRY = """
    INSERT INTO book VALUES (?, 1, 'handling', 'S', ?, 'M', '1', '', 'K9', 'UnknownReel', 0, ?)
"""
PAIRS = {  # of figures, and how much more the second may be
    ("`tracedesk serve`, a message", "`tracedesk-line serve`, a message"): 0.03,
    ("a part", "a refused start"): 0.2,
    ("an opening, an empty book", "an opening, a long book"): 0.05,
}


def ask(link: http.client.HTTPConnection, asked: Asked, wanted: bytes) -> float:
    """The seconds of a request, whose answer has to end so."""
    began = time.perf_counter()
    link.request(*asked)
    answer = link.getresponse().read()
    took = time.perf_counter() - began
    if not answer.endswith(wanted):
        program.stop(f"{asked[1]}: wanted {wanted!r}, got {answer[:200]!r}")
    return took


def timed(tool: str, file: pathlib.Path, its: list[list[tuple[Asked, bytes]]]) -> Iterator[Took]:
    """What requests of each of these lists take, in turn on one connection."""
    with trial.served(tool, file) as (process, link):
        times: list[list[float]] = [[] for _ in its]
        spent = [0 for _ in its]
        for turn in zip(*its):
            for at, one in enumerate(turn):
                before = growth.processor(process)
                times[at].append(ask(link, *one))
                spent[at] += growth.processor(process) - before
    for took, all_spent in zip(times, spent):
        yield 1e6 * statistics.median(took), all_spent / 1e3 / len(took)


def day(boards: int) -> list[tuple[Asked, bytes]]:
    """A day's messages, but for the refused ones."""
    lines = shift.Shift(boards=boards).lines
    return [(post(it.text), it.answer) for it in lines if it.wanted != "Refused"]


def post(message: bytes) -> Asked:
    return "POST", "/messages", message


def made(tracedesk: str, file: pathlib.Path, messages: list[bytes]) -> None:
    """A desk's file with these messages."""
    trial.remove(file)
    words, given = [tracedesk, "feed", "--db", str(file)], b"\n".join(messages) + b"\n"
    subprocess.run(words, input=given, capture_output=True, check=True)


def refused(tool: str, file: pathlib.Path) -> Iterator[Took]:
    """Accepted and refused messages."""
    trial.remove(file)
    line = growth.Line()
    parts = [post(line.say("PartDefined", PartNumber=f"P{it}")[:-1]) for it in range(ASKS)]
    starts = [post(line.say("WorkStarted", Machine="M", Board=f"B{it}")[:-1]) for it in range(ASKS)]
    accepted = [(it, b'"u%d"}' % at) for at, it in enumerate(parts, 1)]
    others = [(it, b'"u%d"}' % at) for at, it in enumerate(starts, ASKS + 1)]
    return timed(tool, file, [accepted, others])


def slots() -> list[bytes]:
    """The messages of a machine that may work, and of one whose slots are empty."""
    line = growth.Line()
    told = [it for machine in (GO, STOP) for it in line.sheet(machine, ["P"] * SLOTS)]
    for slot in range(SLOTS):
        told.append(line.reel(f"K{slot}", "P"))
        told.append(line.on("Loaded", GO, slot, Reel=f"K{slot}"))
    told.append(line.say("WorkStarted", Machine=GO, Board="B"))
    return [it.rstrip() for it in told]


def states(tool: str, file: pathlib.Path) -> Iterator[Took]:
    """The state of both machines."""
    its: list[list[tuple[Asked, bytes]]] = [
        [(("GET", f"/line/state?machine={it}", None), b'"State":"%s"}' % state)] * ASKS
        for it, state in ((GO, b"go"), (STOP, b"stop"))
    ]
    return timed(tool, file, its)


def write_book(file: pathlib.Path, entries: int) -> None:
    told = growth.Line().say("MaterialsLoaded", Machine="M", Slot="1", Reel="K9").decode().rstrip()
    rows = [(number, f"u{number}", told) for number in range(1, entries + 1)]
    with contextlib.closing(sqlite3.connect(file)) as database, database:
        database.executemany(ENTRY, rows)


def opening(tool: str, file: pathlib.Path) -> Took:
    """The first answer of a server, from its start on."""
    began = time.perf_counter()
    with trial.served(tool, file) as (process, link):
        ask(link, ("GET", "/line/counts", None), b"}")
        took = time.perf_counter() - began
        return 1e6 * took, growth.processor(process) / 1e3


def turn(
    tracedesk: str, tool: str, asked: argparse.Namespace, room: pathlib.Path
) -> dict[str, Took]:
    """All figures once."""
    file, other, lines = room / "desk", room / "other", day(asked.boards)
    figures = {}
    for name, each in (("tracedesk", tracedesk), ("tracedesk-line", tool)):
        trial.remove(file)
        (figures[f"`{name} serve`, a message"],) = timed(each, file, [lines])
    shutil.copyfile(file, other)
    write_book(other, asked.entries)
    figures["an opening, an empty book"] = opening(tool, file)
    figures["an opening, a long book"] = opening(tool, other)
    figures["a part"], figures["a refused start"] = refused(tool, file)
    made(tracedesk, file, slots())
    figures["a state, go"], figures["a state, stop"] = states(tool, file)
    return figures


def words(reader: argparse.ArgumentParser) -> None:
    program.offer(reader)
    reader.add_argument("--boards", type=int, default=300, metavar="N")
    reader.add_argument("--entries", type=int, default=10_000, metavar="N")
    reader.add_argument("--turns", type=int, default=5, metavar="N")


def main(asked: argparse.Namespace, _reader: argparse.ArgumentParser) -> None:
    tracedesk = program.to_use(asked.program)
    tool = plant.next_to(tracedesk, "line")
    if not tool:
        program.stop("there is no tracedesk-line next to it: dev/build --line, or LINE=FILE")
    with tempfile.TemporaryDirectory(dir=trial.in_memory()) as folder:
        room = pathlib.Path(folder)
        turns = [turn(tracedesk, tool, asked, room) for _ in range(asked.turns)]
    print("| A request | by the clock, us | of the processor, us |\n|---|---:|---:|")
    for name in turns[0]:
        clock, processor = (statistics.median(it[name][at] for it in turns) for at in (0, 1))
        print(f"| {name} | {clock:,.1f} | {processor:,.1f} |")
    print("\n| Of the processor, more | | at most |\n|---|---:|---:|")
    for (first, second), most in PAIRS.items():
        share = statistics.median(it[second][1] / it[first][1] for it in turns) - 1
        print(f"| {second} than {first} | {share:+.1%} | {most:.0%} |")
