"""Counts the instructions of `feed`, of an audit and of a lot trace, which a busy machine doesn't
change.

usage: dev/bench/run instructions [--program FILE] [--commands N]

examples:
  dev/bench/run instructions                      the first 1,000 commands of a line
  dev/bench/run instructions --commands 400       a few thousand pieces

The messages are those of dev/tracedesk_dev/shift.py. valgrind counts each instruction that the
program runs, in millions. The lot is the one with the most pieces. Its trace is at detail 1, less a
trace of a lot that nobody received, which only opens the file.
"""
import argparse
import contextlib
import pathlib
import re
import sqlite3
import subprocess
import tempfile

from tracedesk_dev import program, shift


def millions(words: list[str | pathlib.Path], given: bytes = b"") -> float:
    """The millions of instructions of a run."""
    tool = ["valgrind", "--tool=callgrind", "--callgrind-out-file=/dev/null", "--log-fd=2"]
    done = subprocess.run([*tool, *words], input=given, capture_output=True, check=False)
    found = re.search(rb"Collected : (\d+)", done.stderr)
    if found is None or done.returncode not in (0, 1):
        program.stop(f"callgrind counted nothing: {done.stderr.decode()[-200:]}")
    return int(found.group(1)) / 1e6


def first_commands(commands: int) -> bytes:
    """The lines up to the one that is accepted as this command."""
    accepted = 0
    told = []
    for said in shift.Shift(boards=60 + commands // 8).lines:
        told.append(said.text)
        accepted += said.wanted == "Accepted"
        if accepted == commands:
            return b"\n".join(told) + b"\n"
    program.stop(f"the line has {accepted} commands alone")


def largest_lot(file: pathlib.Path) -> tuple[int, str, int]:
    """All pieces, the lot with the most of them, and how many it has."""
    with contextlib.closing(sqlite3.connect(file)) as desk:
        rows = desk.execute(
            "SELECT lot, count(*) AS pieces FROM placement JOIN reel USING (reel) GROUP BY lot"
            " ORDER BY pieces DESC"
        ).fetchall()
    if not rows:
        program.stop("no piece is placed by then: ask for more --commands")
    lot, of_lot = rows[0]
    return sum(pieces for _, pieces in rows), lot, of_lot


def words(reader: argparse.ArgumentParser) -> None:
    program.offer(reader)
    reader.add_argument("--commands", type=int, default=1000)


def main(asked: argparse.Namespace, _reader: argparse.ArgumentParser) -> None:
    program.want("valgrind", "valgrind")
    tracedesk = program.to_use(asked.program)
    given = first_commands(asked.commands)
    with tempfile.TemporaryDirectory() as room:
        file = pathlib.Path(room, "desk")
        told = {
            "feed --db": millions([tracedesk, "feed", "--db", file], given),
            "feed in memory": millions([tracedesk, "feed"], given),
            "audit": millions([tracedesk, "audit", "--db", file]),
        }
        pieces, lot, of_lot = largest_lot(file)

        def trace(name: str) -> float:
            target = f"/trace/lot?lot={name}&detail=1"
            return millions([tracedesk, "report", "--db", file, "--get", target])

        told[f"trace of a lot of {of_lot:,} pieces"] = trace(lot) - trace("NONE")
    print(f"| {asked.commands:,} commands, {pieces:,} pieces | Million instructions |")
    print("|---|---:|")
    for name, count in told.items():
        print(f"| {name} | {count:,.1f} |")
