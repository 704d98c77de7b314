"""A line is a folder, and nothing of it lies anywhere else.

    desk                the line's list, which its service alone has open, with its log
    sealed/             copies of it at a moment, which nobody writes any more: sealed.py
    lost/               what a restore took off, until a person decides about it
    .tracedesk-work/    unfinished: nothing in it counts, and the next change removes it

A folder is a line's if it has a desk or sealed/. No other one is changed, but by who makes a line.

    LineFolder(pathlib.Path("/var/lib/tracedesk/L1")).desk
"""
from __future__ import annotations

import contextlib
import dataclasses
import fcntl
import os
import pathlib
import shutil
from collections.abc import Iterator

WORK = ".tracedesk-work"  # it is removed with all in it, so nobody else has this name


class Busy(Exception):
    """Another tool has the line's folder."""

    def __init__(self, path: pathlib.Path) -> None:
        super().__init__(f"another tool works in {path}: ask again when it has ended")


class NotALine(Exception):
    """A folder that is no line's."""

    def __init__(self, path: pathlib.Path) -> None:
        super().__init__(
            f"{path} is no line's folder: it has no desk and no sealed/. Name the folder of a line,"
            " or let tracedesk-ops make a line in an empty one"
        )


@dataclasses.dataclass(frozen=True)
class LineFolder:
    """The folder of a line. Its name is the line's."""

    path: pathlib.Path

    @property
    def name(self) -> str:
        return self.path.name

    @property
    def desk(self) -> pathlib.Path:
        return self.path / "desk"

    @property
    def sealed(self) -> pathlib.Path:
        return self.path / "sealed"

    @property
    def lost(self) -> pathlib.Path:
        return self.path / "lost"

    @property
    def work(self) -> pathlib.Path:
        return self.path / WORK

    def want(self, is_new: bool = False) -> None:
        """Looks whether the folder is a line's, or may become one; a NotALine if not."""
        if not (is_new and self.name or self.sealed.is_dir() or self.desk.is_file()):
            raise NotALine(self.path)

    @contextlib.contextmanager
    def held(self, is_new: bool = False) -> Iterator[None]:
        """Keeps other tools out of the folder; a Busy if one is in it."""
        self.want(is_new)
        folder = os.open(self.path, os.O_RDONLY | os.O_DIRECTORY)
        try:
            try:
                fcntl.flock(folder, fcntl.LOCK_EX | fcntl.LOCK_NB)
            except BlockingIOError:
                raise Busy(self.path) from None
            yield
        finally:
            os.close(folder)

    @contextlib.contextmanager
    def changed(self, is_new: bool = False) -> Iterator[pathlib.Path]:
        """Holds the folder, and gives an empty one within it for unfinished work. What a call
        leaves there that is killed, the next one clears.
        """
        with self.held(is_new):
            self.clear()
            for path in (self.sealed, self.lost, self.work):
                path.mkdir(mode=0o700, exist_ok=True)
            try:
                yield self.work
            except Exception:
                shutil.rmtree(self.work, ignore_errors=True)  # it may be what fills the disk
                raise
            self.clear()

    def clear(self) -> None:
        if not self.work.exists():
            return
        if not self.sealed.is_dir():
            raise NotALine(self.path)
        shutil.rmtree(self.work)
