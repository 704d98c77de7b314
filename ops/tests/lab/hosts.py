"""Machines with a line's folder, and what the model of histories.py remembers of their desks."""
from __future__ import annotations

import dataclasses
import pathlib

from lab import files, folders
from tracedesk_ops import sealed
from tracedesk_ops.line import LineFolder

Path = pathlib.Path
Command = tuple[str, str]  # its UniqueID and its text

CLOCK = "ClockSet"
ACCEPT = """
    INSERT INTO accepted SELECT count(*) + 1, ?, 'S', 0, count(*) + 1, ?, '' FROM accepted"""


@dataclasses.dataclass(frozen=True)
class Lists:
    """What a desk has, as this model remembers it."""

    begun: str = ""
    commands: tuple[Command, ...] = ()  # without those of its beginning
    notes: tuple[str, ...] = ()

    def continues(self, other: Lists) -> bool:
        return (
            self.begun == other.begun
            and self.commands[: len(other.commands)] == other.commands
            and self.notes[: len(other.notes)] == other.notes
        )


History = list[Lists]  # a desk and those behind it, the oldest first


def covers(one: History, other: History) -> bool:
    """Whether a history has all of another one, in its order."""
    last = len(other) - 1
    return len(one) > last and one[:last] == other[:last] and one[last].continues(other[last])


def is_whole(path: Path) -> bool:
    return path.stem == sealed.digits_of(path)


class Host:
    """A machine with the line's folder."""

    def __init__(self, folder: Path, has: Lists) -> None:
        self.line, self.has = LineFolder(folder), has

    def change(self, query: str, *values: object) -> None:
        with files.opened(self.line.desk) as database:
            database.execute(query, values)

    def accept(self, *commands: Command) -> None:
        for command in commands:
            self.change(ACCEPT, *command)
        self.has = dataclasses.replace(self.has, commands=self.has.commands + commands)

    def note(self, uid: str) -> None:
        folders.note(self.line, uid)
        self.has = dataclasses.replace(self.has, notes=(*self.has.notes, uid))
