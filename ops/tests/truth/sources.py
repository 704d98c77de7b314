"""The senders of a run."""
import contextlib
import pathlib
from typing import Optional

from tracedesk import desk as desks
from tracedesk import sender, spool
from truth.world import Killed, Killer


START = "TraceDesk.WorkStarted"


class Source:
    """A sender that stays: its spool, and a lock on that until it ends or is killed. A Spool and a
    Sender are made anew then, as by a new process."""

    def __init__(self, folder: pathlib.Path, name: str, desk: desks.Desk) -> None:
        self.folder, self.name, self.desk = folder, name, desk
        self.held = contextlib.ExitStack()
        self.begin()
        self.last = ""

    def begin(self) -> None:
        self.spool = spool.Spool(self.folder, name=self.name)
        self.sender: Optional[sender.Sender] = None

    def put(self, message: bytes) -> None:
        self.last = self.spool.put(message)

    def send(self, kill_after: Optional[int] = None) -> None:
        """Sends what waits; it may be killed before one of its writes, and begins anew then."""
        Killer.left = kill_after
        try:
            self.send_all()
        except Killed as killed:
            self.held.__exit__(Killed, killed, None)
            self.begin()
            self.send_all()
        finally:
            Killer.left = None

    def send_all(self) -> None:
        if self.sender is None:
            self.held.enter_context(self.spool.sending())
            self.sender = sender.Sender(self.spool, self.desk)
        while self.sender.send_waiting():
            pass

    def start_of(self, board: str) -> str:
        """The message by which the desk accepted the start of a board, if it did, by what is in the
        spool."""
        for name in reversed(self.spool.names("sent")):
            told = self.spool.message(name)
            if (told["MessageName"], told["MessageBody"].get("Board")) == (START, board):
                return name
        return ""

    def end(self) -> None:
        """Ends the sender: what is called for its spool needs that."""
        self.held.close()
        self.begin()

    def accepted(self) -> bool:
        """Whether the last message was accepted, as the machine or the operator sees it: not where
        there is no answer."""
        return self.last in self.spool.names("sent")
