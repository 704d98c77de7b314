"""tracedesk-send with a spool, before something that answers as a desk does."""
from __future__ import annotations

import json
import pathlib
import subprocess
import sys
import time
from typing import Any, Dict, Tuple

import at_port
from at_port import PATIENCE, SENDER

Said = Tuple[int, Dict[str, str], Dict[str, Any]]  # a status, headers and an answer
LOST: Said = (0, {}, {})  # the message is there, and the connection breaks


def line(uid: str, word: str = "PartDefined") -> bytes:
    return at_port.text(word, uid, PartNumber=uid)


class Answering(at_port.Answering):
    """Says what its script says next; then Accepted, of `bad` Refused, and of a word that is none
    Ignored.
    """

    server: Server

    def do_POST(self) -> None:
        told = json.loads(self.body())
        name, uid = told.get("MessageName"), told["UniqueID"]
        self.server.came.append((time.monotonic(), uid))
        self.server.said.append(told)
        said: Said = 200, {}, {"Answer": "Accepted", "Number": 1, "UniqueID": uid}
        if self.server.script:
            said = self.server.script.pop(0)
            if said == LOST:
                self.close_connection = True
                return
        elif "TimeStamp" not in told:
            said = 422, {}, {"Answer": "Faulty", "Fault": "EnvelopeMember", "Member": "TimeStamp"}
        elif name == "TraceDesk.PartsDefined":
            said = 202, {}, {"Answer": "Ignored", "MessageName": name}
        elif uid.startswith("bad"):
            answer = {"Answer": "Refused", "At": "P", "Refusal": "PartExists", "UniqueID": uid}
            said = 409, {}, answer
        self.reply(said[0], json.dumps(said[2], separators=(",", ":")).encode(), said[1])


class Server(at_port.Server):
    """What came, and when; and what it says next: a status, headers and an answer."""

    def __init__(self, answering: type[Answering]) -> None:
        self.came: list[tuple[float, str]] = []
        self.said: list[dict[str, Any]] = []
        self.script: list[Said] = []
        self.put: dict[str, bytes] = {}  # files that came, by their paths
        super().__init__(answering)


class Lab:
    """A sender with a spool, and something that answers as a desk does."""

    answering: type[Answering] = Answering

    def __init__(self, room: pathlib.Path) -> None:
        self.room, self.spool, self.out = room, room / "spool", room / "out"
        self.out.mkdir()
        self.server = Server(self.answering)
        self.url, self.end = self.server.url, self.server.end

    def words(self, *more: Any) -> list[str]:
        head = [sys.executable, str(SENDER), "--url", self.url, "--spool", str(self.spool)]
        return [*head, *map(str, more)]

    def send(
        self, *more: Any, given: bytes = b"", **how: Any
    ) -> "subprocess.CompletedProcess[bytes]":
        return subprocess.run(
            self.words(*more), input=given, capture_output=True, timeout=PATIENCE, **how
        )

    def uids(self) -> list[str]:
        return [uid for _, uid in self.server.came]

    def names(self, state: str = "waiting") -> list[str]:
        return list(at_port.texts_in(self.spool, state))
