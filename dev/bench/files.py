"""Measures a seal, a roll-over and a restore of a line that takes messages meanwhile, and how long
a sender waits; prints a table for docs/figures.md.

usage: dev/bench/run files [--program FILE] [--chain FILE] [--pieces N] [--turns N] [FOLDER]

examples:
  dev/bench/run files --pieces 200000
  dev/bench/run files --pieces 5000 --turns 1        a first look

The line's folder is in FOLDER, or in the folder for temporary files. Its desk has the pieces of
dev/bench/run starts, and is served by the tracedesk-line next to the program, or that of LINE. A
refused load is in its book. One sender posts a message each 20 ms, and the same one again until it
is Accepted; it waits while the proxy would have it wait. A turn is a seal, a roll-over, and a
restore of the file from which the new desk was begun, for which the desk is stopped, and started
again. The table has the medians of the turns by the clock, and the longest time until a message
was Accepted.
"""
import argparse
import contextlib
import http.client
import json
import os
import pathlib
import signal
import statistics
import subprocess
import tempfile
import threading
import time
from collections.abc import Iterator, Sequence

from bench import starts
from tracedesk_dev import program
from tracedesk_dev.ports import lent
from tracedesk_ops import plant

PAUSE = 0.02  # seconds between messages
STAMP = "2026-01-05T00:00:00Z"
ACTIONS = ("seal", "rollover", "restore")


class Sender(threading.Thread):
    """Posts messages until the end; `waits` has how long each one took to be Accepted."""

    def __init__(self, port: int) -> None:
        super().__init__(daemon=True)
        self.port = port
        self.waits: list[float] = []
        self.ends = threading.Event()

    def run(self) -> None:
        number = 0
        while not self.ends.is_set():
            number += 1
            began = time.monotonic()
            while not self.is_accepted(f"sender-{id(self)}-{number}") and not self.ends.is_set():
                time.sleep(PAUSE)
            self.waits.append(time.monotonic() - began)
            time.sleep(PAUSE)

    def is_accepted(self, uid: str) -> bool:
        """Whether the desk takes a message, which says nothing but the time."""
        return b'"Accepted"' in self.answer(uid, "ClockSet")

    def answer(self, uid: str, word: str, **body_: str) -> bytes:
        """The desk's answer, empty while it is away."""
        text = {"MessageName": f"TraceDesk.{word}", "UniqueID": uid, "Source": "sender"}
        body = json.dumps({**text, "TimeStamp": STAMP, "MessageBody": body_})
        with contextlib.closing(http.client.HTTPConnection("127.0.0.1", self.port)) as link:
            with contextlib.suppress(OSError, http.client.HTTPException):
                link.request("POST", "/messages", body, {"Connection": "close"})
                return link.getresponse().read()
        return b""


class Line:
    """A line's folder with a desk that is served."""

    def __init__(self, folder: pathlib.Path, tracedesk: str, port: int) -> None:
        self.folder, self.tracedesk, self.port = folder, tracedesk, port
        self.desk = folder / "desk"
        self.pid, self.serve = folder.with_name("pid"), folder.with_name("serve")
        serves = plant.next_to(tracedesk, "line")
        if serves is None:
            program.stop("there is no tracedesk-line next to it: dev/build --line, or LINE=FILE")
        words = f"'{serves}' serve --db '{self.desk}' --port {port}"
        self.serve.write_text(f"{words} > /dev/null & echo $! > '{self.pid}'\n")

    def service(self) -> list[object]:
        """The words of a tool that stops and starts the desk."""
        stop, start = f"kill $(cat '{self.pid}')", f"sh '{self.serve}'"
        return ["--port", self.port, "--stop", stop, "--start", start]

    def start(self) -> None:
        subprocess.run(["sh", self.serve], check=True)

    def stop(self) -> None:
        os.kill(int(self.pid.read_text()), signal.SIGTERM)
        while subprocess.run(["fuser", "-s", self.desk], stderr=subprocess.DEVNULL).returncode == 0:
            time.sleep(PAUSE)

    def do(self, action: str) -> None:
        tool = program.ROOT / "ops" / "tracedesk-ops"
        words: list[object] = [tool, action, self.folder, "--program", self.tracedesk]
        if action == "restore":
            self.stop()
            called(words)
            self.start()
        else:
            called([*words, *(self.service() if action == "rollover" else ("--port", self.port))])


def called(words: Sequence[object]) -> None:
    """Calls a tool, which has to end with status 0."""
    done = subprocess.run([*map(str, words)], capture_output=True, text=True)
    if done.returncode:
        program.stop(f"{words[1]} ended with status {done.returncode}: {done.stderr}")


@contextlib.contextmanager
def sending(line: Line) -> Iterator[Sender]:
    sender = Sender(line.port)
    sender.start()
    while not sender.waits:
        time.sleep(PAUSE)
    sender.answer("refused", "MaterialsLoaded", Machine="LINE1-M1", Slot="1", Reel="none")
    sender.waits.clear()
    try:
        yield sender
        seen = len(sender.waits)
        while len(sender.waits) < seen + 2:  # what it has begun by now
            time.sleep(PAUSE)
    finally:
        sender.ends.set()
        sender.join()


def turn(line: Line, action: str) -> tuple[float, float]:
    """Seconds of an action, and of the longest wait of a sender."""
    with sending(line) as sender:
        began = time.monotonic()
        line.do(action)
        seconds = time.monotonic() - began
    return seconds, max(sender.waits)


def words(reader: argparse.ArgumentParser) -> None:
    program.offer(reader)
    reader.add_argument("--chain", metavar="FILE", help="tracedesk-chain; else CHAIN names it")
    reader.add_argument("--pieces", type=int, default=200_000, metavar="N", help="(200000)")
    reader.add_argument("--turns", type=int, default=3, metavar="N", help="(3)")
    reader.add_argument("folder", nargs="?", metavar="FOLDER", help="where the line's folder is")


def main(asked: argparse.Namespace, reader: argparse.ArgumentParser) -> None:
    tracedesk = program.to_use(asked.program)
    if asked.chain:
        os.environ["CHAIN"] = asked.chain
    with tempfile.TemporaryDirectory(dir=asked.folder) as room, lent() as port:
        line = Line(pathlib.Path(room, "L1"), tracedesk, port)
        line.folder.mkdir()
        starts.grown(tracedesk, line.desk, starts.Line().messages(), asked.pieces)
        line.start()
        told = [{action: turn(line, action) for action in ACTIONS} for _ in range(asked.turns)]
        line.stop()
    print(f"| {asked.pieces:,} pieces | seconds, median | longest answer, s |\n|---|---:|---:|")
    for action in ACTIONS:
        seconds, longest = zip(*(one[action] for one in told))
        print(f"| {action} | {statistics.median(seconds):.2f} | {max(longest):.2f} |")
