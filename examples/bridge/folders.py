"""Takes files that a machine writes into a folder: each is a record, and is moved aside once what
it gives is on disk.
"""
from __future__ import annotations

import os
import pathlib
import stat
import time
from typing import Optional

import fronts
from bridge import Bridge
from tracedesk import console, disk

LOOK = 0.5  # seconds between two looks
SETTLES = 5.0  # seconds without a change, after which a file that wasn't renamed is whole
TAKEN = "taken"


class Folder:
    """A folder of files, each of a form that its ending names. `form` is that of all of them."""

    def __init__(self, bridge: Bridge, path: pathlib.Path, form: Optional[str]) -> None:
        self.bridge, self.path, self.form = bridge, path, form
        self.waits: dict[pathlib.Path, tuple[tuple[int, int], float]] = {}

    def files(self) -> list[tuple[pathlib.Path, os.stat_result]]:
        """The files, the oldest first."""
        found = []
        for path in self.path.iterdir():
            is_record = fronts.of_file(path, self.form) and not self.bridge.kept.is_own(path)
            if is_record and not path.name.startswith("."):
                its = path.stat()
                if stat.S_ISREG(its.st_mode):
                    found.append((path, its))
        return sorted(found, key=lambda it: (it[1].st_mtime_ns, it[0].name))

    def is_whole(self, path: pathlib.Path, its: os.stat_result) -> bool:
        """Whether nobody writes to a file: it is older, or stayed as it is for as long."""
        known, now = (its.st_size, its.st_mtime_ns), time.monotonic()
        if self.waits.get(path, (None, 0.0))[0] != known:
            self.waits[path] = known, now
        return time.time() - its.st_mtime >= SETTLES or now - self.waits[path][1] >= SETTLES

    def look(self) -> bool:
        """Takes what is there, in order, up to a file that isn't whole; whether one is left."""
        files = self.files()
        self.waits = {path: it for path, it in self.waits.items() if path in dict(files)}
        for path, its in files:
            if not self.is_whole(path, its):
                return True
            self.bridge.take(path.read_bytes(), path.name, fronts.of_file(path, self.form))
            self.move(path)
            self.bridge.look()
        return False

    def move(self, path: pathlib.Path) -> None:
        """Moves a file aside, under a name that none has there."""
        aside = self.path / TAKEN
        aside.mkdir(exist_ok=True)
        to, number = aside / path.name, 1
        while to.exists():
            number += 1
            to = aside / f"{path.stem}.{number}{path.suffix}"
        path.rename(to)
        disk.sync_folder(aside)
        disk.sync_folder(self.path)


def take_folder(
    bridge: Bridge, path: pathlib.Path, follows: bool, form: Optional[str] = None
) -> None:
    """Takes the files of a folder; where it is followed, without an end."""
    folder = Folder(bridge, path, form)
    while console.patiently(folder.look) or follows:
        bridge.look()
        time.sleep(LOOK)
