"""Measures a day of a line: to a file, in memory and over HTTP; prints a table for docs/figures.md.

usage: dev/bench/run day [--program FILE] [--boards N,N,..] [--turns N] [--folder FOLDER]

examples:
  dev/bench/run day --boards 60 --turns 1
  dev/bench/run day --boards 60,300,1500 --folder /srv

The messages are those of dev/tracedesk_dev/shift.py. Figures are medians of --turns turns, one
after the other. `feed` gets all lines at once, with a file and without one. `serve` gets them one
by one over one connection: a latency is from the last byte of a message to the last byte of its
answer. Opening is a run on the finished file without a line. The files are made in FOLDER, on the
disk that is measured. It wants Debian's package time, for the memory.
"""
import argparse
import os
import pathlib
import statistics
import subprocess
import tempfile
import time
from typing import IO

from tracedesk_dev import program, shift, trial

Figures = dict[str, float]


def used(name: str, words: list[str], given: IO[bytes] | int, out: IO[bytes]) -> Figures:
    """Seconds of a run, by the clock and of the processor, and the most memory that it had."""
    with tempfile.NamedTemporaryFile("r") as usage:
        timed = ["/usr/bin/time", "-q", "-f", "%U %S %M", "-o", usage.name, *words]
        begun = time.perf_counter()
        done = subprocess.run(timed, stdin=given, stdout=out)
        seconds = time.perf_counter() - begun
        if done.returncode not in (0, 1):
            program.stop(f"{' '.join(words)}: status {done.returncode}")
        user, system, memory = usage.read().split()[-3:]
    return {
        f"{name}: seconds": seconds,
        f"{name}: seconds of the processor": float(user) + float(system),
        f"{name}: MB of memory": int(memory) * 1024 / 1e6,
    }


def fed(name: str, words: list[str], lines: list[shift.Said]) -> Figures:
    """All lines at once; the answers have to be those that are wanted."""
    with tempfile.TemporaryFile() as given, tempfile.TemporaryFile() as answers:
        given.writelines(said.text + b"\n" for said in lines)
        given.seek(0)
        figures = used(name, words, given, answers)
        answers.seek(0)
        if answers.read().splitlines() != [said.answer for said in lines]:
            program.stop(f"{' '.join(words)}: an answer was not as wanted")
    return figures


def one_by_one(tracedesk: str, file: pathlib.Path, lines: list[shift.Said]) -> Figures:
    """Each line alone, over HTTP."""
    times = []
    with trial.served(tracedesk, file) as (process, connection):
        for said in lines:
            begun = time.perf_counter()
            connection.request("POST", "/messages", said.text)
            answer = connection.getresponse().read()
            times.append(time.perf_counter() - begun)
            if answer != said.answer:
                program.stop(f"serve: wanted {said.answer!r}, got {answer!r}")
        memory = trial.memory_of(process, "VmHWM") / 1e6
    times.sort()
    return {
        "serve: microseconds, median": 1e6 * times[len(times) // 2],
        "serve: microseconds, 99 %": 1e6 * times[len(times) * 99 // 100],
        "serve: MB of memory": memory,
    }


def measured(tracedesk: str, folder: pathlib.Path, boards: int) -> Figures:
    """The figures of one size in one turn."""
    lines, file = shift.Shift(boards=boards).lines, folder / "desk"
    feed = [tracedesk, "feed", "--db", str(file)]
    trial.remove(file)
    figures = {"boards": float(boards), "lines": float(len(lines))}
    figures |= fed("feed", feed, lines)
    figures["file, MB"] = os.path.getsize(file) / 1e6
    with tempfile.TemporaryFile() as out:
        figures |= used("opening", feed, subprocess.DEVNULL, out)
    figures |= fed("feed in memory", [tracedesk, "feed"], lines)
    trial.remove(file)
    return figures | one_by_one(tracedesk, file, lines)


def words(reader: argparse.ArgumentParser) -> None:
    program.offer(reader)
    reader.add_argument("--boards", default="60,300,1500", metavar="N,N,..")
    reader.add_argument("--turns", type=int, default=3, metavar="N")
    reader.add_argument("--folder", metavar="FOLDER")


def main(asked: argparse.Namespace, _reader: argparse.ArgumentParser) -> None:
    program.want("/usr/bin/time", "time")
    tracedesk, columns = program.to_use(asked.program), []
    with tempfile.TemporaryDirectory(dir=asked.folder) as room:
        for boards in map(int, asked.boards.split(",")):
            turns = [measured(tracedesk, pathlib.Path(room), boards) for _ in range(asked.turns)]
            columns.append({name: statistics.median(it[name] for it in turns) for name in turns[0]})
    for name in columns[0]:
        row = [f"{it[name]:,.0f}" if it[name] >= 100 else f"{it[name]:.3g}" for it in columns]
        print(f"| {name} | {' | '.join(row)} |")
