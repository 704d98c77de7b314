"""A line for tests of the interlock: `tracedesk-line serve` over a file, with what a tablet says to
it; and a sender of machine M1 in this process.
"""
from __future__ import annotations

import contextlib
import csv
import http.client
import io
import json
import pathlib
import shutil
import subprocess
import time
import urllib.parse
from typing import Any, Dict, List, Optional, Tuple

import at_port
from at_port import PATIENCE
from tracedesk import desk, interlock, sender, spool
from tracedesk_dev.ports import free_port

SLOTS = {"1": ("1a", "1b", "1c"), "2": ("2a", "2b")}
MINUTES = 60  # of an hour
Body = Dict[str, Any]


class Served:
    """A line that is served. Slot N takes reels of part PN; product OTHER has slot 1 alone."""

    def __init__(self, program: pathlib.Path, room: pathlib.Path) -> None:
        self.program, self.file, self.port, self.count = (
            str(program),
            room / "line.db",
            free_port(),
            0,
        )
        self.url = f"http://127.0.0.1:{self.port}"
        self.begin()

    def begin(self) -> None:
        where = ["--db", str(self.file), "--port", str(self.port), "--connections", "1000000"]
        self.process = subprocess.Popen(
            [self.program, "serve", *where], stdin=subprocess.DEVNULL, stdout=subprocess.DEVNULL
        )
        end = time.monotonic() + PATIENCE
        while time.monotonic() < end:
            try:
                self.asked("/line/counts")
                return
            except ConnectionRefusedError:
                time.sleep(0.01)

    def end(self) -> None:
        self.process.kill()
        self.process.wait()

    def asked(self, target: str, body: Optional[Body] = None) -> Tuple[int, str]:
        """The status and the text of an answer, on a connection of its own: a line serves one."""
        link = http.client.HTTPConnection("127.0.0.1", self.port, timeout=PATIENCE)
        text = None if body is None else json.dumps(body)
        link.request("GET" if body is None else "POST", target, text, {"Connection": "close"})
        answer = link.getresponse()
        told = answer.status, answer.read().decode()
        link.close()
        return told

    def message(self, word: str, source: str = "M1", **body: Any) -> Body:
        """A message, a minute behind the one before."""
        self.count += 1
        at = f"2026-03-02T{6 + self.count // MINUTES % 18:02}:{self.count % MINUTES:02}:00Z"
        return at_port.told(word, f"u{self.count}", source, at, **body)

    def say(self, word: str, source: str = "tablet", **body: Any) -> Body:
        """Somebody else than the machine's sender says something."""
        told: Body = json.loads(self.asked("/messages", self.message(word, source, **body))[1])
        return told

    def scan(self, word: str, slot: str, reel: str = "", source: str = "tablet") -> str:
        """A scan at a tablet: the refusal, empty if it is accepted."""
        more = {"Reel": reel} if reel else {}
        return str(self.say(word, source, Machine="M1", Slot=slot, **more).get("Refusal", ""))

    def state(self, machine: str = "M1") -> Body:
        target = "/line/state?" + urllib.parse.urlencode({"machine": machine})
        told: Body = json.loads(self.asked(target)[1])
        return told

    def decide(self, of: int, became: str = "looked at") -> None:
        self.speak("decisions", Of=of, Became=became)

    def speak(self, what: str, **said: Any) -> None:
        status, told = self.asked(f"/line/{what}", {**said, "By": "Anna", "Reason": "saw it"})
        assert status == 200, told

    def book(self) -> List[Dict[str, str]]:
        return list(csv.DictReader(io.StringIO(self.asked("/line/book?after=0")[1])))

    def receive(self, slot: str, reel: str, quantity: int = 100) -> None:
        card: Body = {
            "PartNumber": f"P{slot}",
            "Lot": f"L-{reel}",
            "Level": "1",
            "Quantity": quantity,
        }
        self.say("ReelReceived", Reel=reel, **card)

    def furnished(self, quantity: int = 100) -> pathlib.Path:
        """The file with parts, sheets and reels, of which K1 is on its slot; then it ends."""
        for slot in SLOTS:
            self.say("PartDefined", PartNumber=f"P{slot}")
        for product, slots in (("PR", "12"), ("OTHER", "1")):
            rows = [
                {"Slot": it, "PartNumber": f"P{it}", "Designators": list(SLOTS[it])} for it in slots
            ]
            self.say("SheetDefined", Product=product, Machine="M1", Rows=rows)
        self.say("ProductSelected", Machine="M1", Product="PR")
        for slot in SLOTS:
            for number in range(1, 5):
                self.receive(slot, f"{slot}-K{number}", quantity)
            assert not self.scan("MaterialsLoaded", slot, f"{slot}-K1")
        self.end()
        return self.file


class Line(Served):
    """With a sender of M1 that has an interlock, in this process. Its file is a furnished one."""

    def __init__(self, program: pathlib.Path, room: pathlib.Path, furnished: pathlib.Path) -> None:
        for it in furnished.parent.glob(f"{furnished.name}*"):
            shutil.copy(it, room)
        super().__init__(program, room)
        self.room, self.told, self.count = room, [], 100  # type: pathlib.Path, List[str], int
        self.begin_sender()

    def asked(self, target: str, body: Optional[Body] = None) -> Tuple[int, str]:
        if hasattr(self, "desk"):
            self.desk.close()
        return super().asked(target, body)

    def begin_sender(self) -> None:
        self.spool = spool.Spool(self.room / "spool", name="m1")
        self.desk = desk.Desk(self.url)
        # nothing hangs here: a busy machine is waited for, and no thread looks at each request
        setattr(self.desk, "within", lambda *_: contextlib.nullcontext())
        self.states = interlock.Interlock(self.spool, ["M1"])
        self.sender = sender.Sender(
            self.spool, self.desk, tell=self.told.append, interlock=self.states
        )

    def put(self, word: str, **body: Any) -> str:
        """The machine hands a message over; its name in the spool."""
        told = self.message(word, Machine="M1", **body)
        return self.spool.put(json.dumps(told).encode())

    def report(self, word: str, **body: Any) -> str:
        """The machine says something, which is sent; the word after it."""
        self.put(word, **body)
        self.sender.send_waiting()
        return self.word()

    def start(self, board: str = "B1") -> None:
        assert self.report("WorkStarted", Board=board) == f"go {board}"

    def install(self, board: str, *names: str) -> str:
        return self.report("MaterialsInstalled", Board=board, Designators=list(names))

    def look(self) -> str:
        """The word of the threads, without a question."""
        self.states.look()
        return self.states.word("M1")

    def word(self) -> str:
        """The word after the next question, while the machine is heard."""
        self.spool.renew("program")
        its = self.states.states["M1"]
        self.states.states["M1"] = its._replace(begun=interlock.NEVER)
        self.states.ask(self.desk)
        self.desk.close()
        return self.look()
