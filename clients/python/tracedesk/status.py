"""The status of a sender, as the line's watch and recalls read it: a file that is put into a folder
of the line every few seconds.
"""
from __future__ import annotations

import json
import pathlib
import threading
import time
from typing import Any, Callable, Dict

from .console import NEWS_OF_A_FAULT, PAUSE_OF_A_FAULT
from .desk import Desk
from .interlock import Interlock
from .records import utc
from .disk import write_synced

READABLE = 0o644  # the watch is another user
TIMEOUT = 10.0  # seconds for one file
PERIOD = 15  # seconds for which it counts


class Status:
    """It is put into a folder, or into one of the proxy's. It has a thread of its own, so that a
    place that is away holds no message up.
    """

    def __init__(
        self,
        where: str,
        desk_of: Callable[[str], Desk],
        desk: Desk,
        interlock: Interlock,
        tell: Callable[[str], None],
    ) -> None:
        self.where, self.desk, self.interlock, self.tell = where.rstrip("/"), desk, interlock, tell
        self.to = desk_of(self.where) if "://" in where else None
        if self.to is None and not pathlib.Path(where).is_dir():
            raise ValueError(f"{where} is no folder: make it, or name another")
        self.next_news, self.one = 0.0, threading.Lock()

    def begin(self) -> None:
        def run() -> None:
            while True:
                self.put()
                time.sleep(PAUSE_OF_A_FAULT)

        threading.Thread(target=run, daemon=True).start()

    def put(self) -> None:
        """Puts the file there, whole; a fault is reported once a minute."""
        name = f"{self.interlock.spool.name}.json"
        with self.one:
            try:
                text = json.dumps(self.told(), sort_keys=True, separators=(",", ":")).encode()
                if self.to is None:
                    write_synced(pathlib.Path(self.where, name), text + b"\n", READABLE)
                else:
                    self.send(self.to, name, text + b"\n")
            except Exception as fault:
                if time.monotonic() >= self.next_news:
                    self.next_news = time.monotonic() + NEWS_OF_A_FAULT
                    self.tell(
                        f"the status isn't put into {self.where}: {fault or repr(fault)}. It is"
                        f" tried again every {PAUSE_OF_A_FAULT:.0f} seconds"
                    )

    @staticmethod
    def send(to: Desk, name: str, text: bytes) -> None:
        try:
            kind = {"Content-Type": "application/json"}
            status, body, _ = to.once("PUT", f"/{name}", text, kind)
        finally:
            to.close()
        if status not in (200, 201, 204):
            raise OSError(f"status {status}: {body[:100].decode(errors='replace')}")

    def told(self) -> Dict[str, Any]:
        """What waits, what was set aside, the machines, and what the sender can't mend itself."""
        spool = self.interlock.spool
        waiting, oldest = spool.waiting()
        return {
            "At": utc(),
            "Period": PERIOD,
            "Sender": spool.name,
            "Waiting": waiting,
            "OldestWaiting": utc(oldest) if waiting else None,
            "Aside": len(spool.names("aside")),
            "Fault": self.desk.fault,
            "Machines": self.interlock.told(),
            "Version": 1,
        }
