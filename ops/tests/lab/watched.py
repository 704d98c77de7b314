"""A desk behind the packaged nginx whose numbers are known, its watch, and its idle clock."""
from __future__ import annotations

import contextlib
import pathlib
import re
import socket
import threading
import time
from typing import Any, Iterator

from lab.site import Site
from lab.tools import Ended, Word, run, tool
from lab.waits import PATIENCE
from tracedesk_ops.line import LineFolder

ODD = 'M "3" \\'  # a machine's name
SAMPLE = re.compile(r"tracedesk_(\w+)(?:\{(.*)\})? (\S+)")
VALUE = re.compile(r'"((?:[^"\\\n]|\\["\\n])*)"')
AWAY = (503, '{"Answer":"Proxy","Fault":"NoAnswer"}')  # of nginx, for a desk that is away

Metrics = dict[
    str, float
]  # by names as `least_slot_pieces{M1}`: a sample, and the values of its labels


def read(text: str) -> Metrics:
    """The samples of a whole file; promtool judges its form."""
    found: Metrics = {}
    for line in text.splitlines():
        if not line.startswith("#"):
            sample = SAMPLE.fullmatch(line)
            assert sample, f"no sample: {line!r}"
            labels = ",".join(VALUE.findall(sample[2] or ""))
            name = f"{sample[1]}{{{labels}}}" if labels else sample[1]
            assert name not in found, f"twice: {line}"
            found[name] = float(sample[3])
    assert text.endswith("\n") and "watch_timestamp_seconds" in found, "it was cut"
    return found


def expect(found: Metrics, **wanted: Any) -> None:
    """Looks whether metrics have these values, or are not there: None. `up__M1` is `up{M1}`."""
    names = {name: re.sub(r"__(.+)", r"{\1}", name) for name in wanted}
    assert {name: found.get(short) for name, short in names.items()} == wanted


def make_line(site: Site) -> None:
    """A line whose slots, floor lives and overdue pieces are known. All times are before one
    moment, so that no minute begins amid them.
    """
    moment = time.monotonic()

    def accept(word: str, minutes_ago: int, **body: Any) -> None:
        told = site.say(word, body, minutes_ago + (time.monotonic() - moment) / 60)
        assert told["Answer"] == "Accepted", f"{word} was answered {told}"

    rows = [
        {"Slot": "1", "PartNumber": "CAP", "Designators": ["C1", "C2"]},
        {"Slot": "2", "PartNumber": "RES", "Designators": ["R1"]},
    ]
    for part in ("CAP", "RES"):
        accept("PartDefined", 4000, PartNumber=part)
    for machine in ("M1", "M2", ODD):
        accept("SheetDefined", 4000, Product="CTRL-A", Machine=machine, Rows=rows)
        accept("ProductSelected", 4000, Machine=machine, Product="CTRL-A")
    for reel, part, level, pieces in (
        ("K-1", "CAP", "5a", 500),
        ("K-2", "CAP", "1", 700),
        ("K-3", "RES", "3", 90),
        ("K-4", "CAP", "1", 40),
        ("K-5", "RES", "1", 33),
    ):
        body = {"Reel": reel, "PartNumber": part, "Lot": "L", "Level": level, "Quantity": pieces}
        accept("ReelReceived", 3000, **body)
    for word, machine, slot, reel in (
        ("MaterialsLoaded", "M1", "1", "K-1"),
        ("MaterialsSpliced", "M1", "1", "K-2"),
        ("MaterialsLoaded", "M1", "2", "K-3"),
        ("MaterialsLoaded", "M2", "1", "K-4"),
        ("MaterialsLoaded", ODD, "2", "K-5"),
    ):
        accept(word, 2900, Machine=machine, Slot=slot, Reel=reel)
    accept("WorkStarted", 2800, Machine="M1", Board="B-1")
    accept("MaterialsInstalled", 1000, Machine="M1", Board="B-1", Designators=["C1", "C2", "R1"])


class Watched:
    """The tools' words for a site."""

    def __init__(self, site: Site) -> None:
        self.site, self.room = site, site.room
        self.file = self.room / "watch/metrics"
        self.line = LineFolder(self.room)
        self.answer = self.room / "clock.json"  # of the idle clock
        self.said: dict[str, Word] = {
            "to": self.file,
            "port": site.desk_port,
            "health": f"{site.url}/health",
            "line": self.room,
            "setup": self.room / "etc/station/setup.json",
            "clock": self.answer,
            "timeout": PATIENCE,
        }

    def words(self, **changed: Word) -> list[Word]:
        """A call of the watch, with some of its words others."""
        pairs = {**self.said, **changed}.items()
        return [tool("watch"), *(word for name, value in pairs for word in (f"--{name}", value))]

    def call(self, limit: int = 0, /, **changed: Word) -> Ended:
        return run(self.words(**changed), env={"PATH": self.site.path}, limit=limit)

    def look(self, **changed: Word) -> tuple[Metrics, str]:
        """What a run writes, and what it says of what it can't read."""
        done = self.call(**changed).expect()
        return read(pathlib.Path(str(changed.get("to", self.file))).read_text()), done.err

    def metrics(self, **changed: Word) -> Metrics:
        return self.look(**changed)[0]

    def clock(self, synced: str = "echo yes", **changed: Word) -> Ended:
        """A call of the idle clock."""
        pairs: dict[str, Word] = {
            "url": f"http://127.0.0.1:{self.site.desk_port}",
            "synced": synced,
            "answer": self.answer,
            "patience": PATIENCE,
            **changed,
        }
        words = [word for name, value in pairs.items() for word in (f"--{name}", value)]
        return run([tool("clock"), *words], env={"PATH": self.site.path})

    def health(self) -> tuple[int, str]:
        """What nginx says of the desk to anybody."""
        status, _, body = self.site.asked("GET", "/health")
        return status, body

    @contextlib.contextmanager
    def desk_is_down(self) -> Iterator[None]:
        self.site.kill_desk()
        try:
            yield
        finally:
            self.site.start_desk()


@contextlib.contextmanager
def watched(program: pathlib.Path) -> Iterator[Watched]:
    site = Site(str(program))
    with site:
        make_line(site)
        yield Watched(site)


@contextlib.contextmanager
def saying(answers: dict[str, bytes]) -> Iterator[int]:
    """A port that says these bytes of these paths, and closes."""
    with socket.create_server(("127.0.0.1", 0)) as port:

        def serve() -> None:
            with contextlib.suppress(OSError):
                while True:
                    link, _ = port.accept()
                    with link:
                        asked = link.recv(4096).decode(errors="replace")
                        link.sendall(answers.get(re.split(r"[ ?]", asked)[1], b""))

        threading.Thread(target=serve, daemon=True).start()
        yield port.getsockname()[1]
        port.shutdown(socket.SHUT_RDWR)
