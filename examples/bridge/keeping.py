"""What a bridge keeps: the messages in its spool, and the records of which it can make none."""
from __future__ import annotations

import hashlib
import pathlib

from tracedesk import Spool, disk, forms, records

FEEDER = "the bridge"  # the name of its lease


def digest(text: bytes) -> str:
    return hashlib.sha256(text).hexdigest()[:16]


class Kept:
    """The spool, which knows the messages that wait in it, were sent in the last days, or were not
    taken. `feeds` is whether the bridge is the voice of a machine, and not of a file that has an
    end.
    """

    def __init__(self, spool: Spool, feeds: bool = False) -> None:
        self.spool, self.feeds = spool, feeds

    def put(self, message: forms.Message) -> tuple[str, bool]:
        """Puts a message in where it isn't there yet: its name in the spool, and whether it is new.
        A report of work that was not taken is never put in again, whatever it is made of now: a
        person decides about it."""
        is_report = records.is_report({"MessageName": f"TraceDesk.{message.word}"})
        for it in self.spool.of_uid(message.unique_id):
            if it.text == message.text or is_report and it.state in ("aside", "dropped"):
                return it.name, False
        return self.spool.put(message), True

    def is_answered(self, name: str) -> bool:
        """Whether the answer to a message is on disk: until then it waits."""
        return self.spool.kept(name).state != "waiting"

    def is_own(self, path: pathlib.Path) -> bool:
        """Whether a file is of the spool. It is opened by SQLite alone: when another handle of it
        is closed, this process loses its locks.
        """
        mine = self.spool.path.absolute()
        is_named_so = path.name in (mine.name, f"{mine.name}-wal", f"{mine.name}-shm")
        return is_named_so and path.absolute().parent.resolve() == mine.parent.resolve()

    def live(self) -> None:
        """Says that the machine is heard."""
        if self.feeds:
            self.spool.renew(FEEDER)


class Dead:
    """A folder of records as they came, each with its reason. One that comes again has its place
    already. It has at most so many:
    then whoever brings one more waits until somebody has looked at them."""

    def __init__(self, folder: pathlib.Path, most: int) -> None:
        self.folder, self.most = folder, most
        if not folder.is_dir():
            folder.mkdir(mode=0o700)
            disk.sync_folder(folder.parent)
        self.read()

    def read(self) -> None:
        folder = self.folder
        self.places = {it.stem.partition("-")[2]: it.stem for it in sorted(folder.glob("*.json"))}
        self.last = max(
            [
                0,
                *(
                    int(it.partition("-")[0])
                    for it in self.places.values()
                    if it.partition("-")[0].isdecimal()
                ),
            ]
        )

    def put(self, text: bytes, why: str) -> str:
        known = digest(text)
        if known not in self.places and len(self.places) >= self.most:
            self.read()
            if len(self.places) >= self.most:
                raise OSError(
                    f"{self.folder} has {len(self.places)} messages, and --dead says no more: look"
                    " at their reasons, and delete what is done with"
                )
        if known not in self.places:
            self.last += 1
            self.places[known] = f"{self.last:08}-{known}"
        name = self.places[known]
        disk.write_synced(self.folder / f"{name}.why", f"{why}\n".encode())
        disk.write_synced(self.folder / f"{name}.json", text + b"\n")
        disk.sync_folder(self.folder)
        return name
