"""The service of a desk."""
from __future__ import annotations

import argparse
import http.client
import socket
import subprocess
import time

from tracedesk import Desk
from tracedesk_ops.plant import PATIENCE, Fault, as_caller, is_open, start_seconds, tell
from tracedesk_ops.plant import wait_until_closed

SECONDS = 20  # that an answer may take
CLOSING = 5  # seconds within which a service that closed its file gives up its port


class Service:
    """The desk's service. What was stopped is started at the end: always, or unless somebody had
    stopped it before. An earlier call had, if it was cut off. A sender sends again what it has no
    answer to.
    """

    def __init__(
        self, asked: argparse.Namespace, always: bool = True, cut_off: bool = False
    ) -> None:
        self.commands = {"stop": asked.stop, "start": asked.start}
        self.db, self.port, self.cut_off = asked.db, asked.port, cut_off
        self.starts = always or cut_off or is_open(asked.db)
        self.stopped: float | None = None  # since when

    def stop(self) -> None:
        """Stops it, unless another desk answers on the port that is named, or none does."""
        opened, taken = self.db.exists() and is_open(self.db), self.is_taken()
        if opened != taken and self.db.exists():
            what = "a run has" if opened else "no run has"
            answers = "nothing" if opened else "something"
            raise Fault(
                f"{what} {self.db} open, and {answers} answers on port {self.port}: say by --port"
                " where this desk answers"
            )
        self.stopped = time.monotonic()
        self.call("stop")
        if self.db.exists():  # after a loss of the disk, or of the file, it is not
            wait_until_closed(self.db, PATIENCE)
        end = time.monotonic() + CLOSING
        while (taken := self.is_taken()) and time.monotonic() < end:
            time.sleep(0.05)
        if taken:
            raise Fault(
                f"the service is stopped, and something answers on port {self.port}: say by --port"
                " where this desk answers"
            )

    def start(self, pieces: int = 0) -> float:
        """Starts the service if it doesn't run, waits until it answers, and returns how many
        seconds it was not there.
        """
        if not self.starts:
            tell("the service did not run before, and is left so")
        if not self.starts or self.stopped is None and not self.cut_off:
            return 0.0
        if not is_open(self.db):
            self.call("start")
        self.wait(PATIENCE + 5 * start_seconds(pieces))
        return time.monotonic() - self.stopped if self.stopped else 0.0

    def call(self, word: str) -> None:
        with as_caller():
            done = subprocess.run(self.commands[word], shell=True, stdin=subprocess.DEVNULL)
        if done.returncode:
            raise Fault(f"{self.commands[word]!r} ended with status {done.returncode}")

    def wait(self, seconds: float) -> None:
        """Waits until a run has the desk's file open and the port answers: one without the other is
        not this desk.
        """
        end = time.monotonic() + seconds
        while not (is_open(self.db) and self.answers()):
            if time.monotonic() > end:
                what = (
                    f"nothing answers on port {self.port}"
                    if is_open(self.db)
                    else f"no run has {self.db} open"
                )
                raise Fault(
                    f"the service was started, and after {seconds} seconds {what}: journalctl"
                    " --unit tracedesk"
                )
            time.sleep(0.1)

    def is_taken(self) -> bool:
        """Whether something listens on the port."""
        with socket.socket() as it:
            return it.connect_ex(("127.0.0.1", self.port)) == 0

    def answers(self) -> bool:
        try:
            with Desk(f"http://127.0.0.1:{self.port}", timeout=SECONDS) as desk:
                desk.once("GET", "/reel?reel=-", None, {"Connection": "close"})
                return True
        except (OSError, http.client.HTTPException):
            return False
