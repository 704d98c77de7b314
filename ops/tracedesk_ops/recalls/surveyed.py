"""The files of lines that a recall asks, looked at once."""
from __future__ import annotations

import datetime
import pathlib
from collections.abc import Iterator, Sequence

from tracedesk_ops import around, catalogue, plant
from tracedesk_ops.firstlook import Line
from tracedesk_ops.line import LineFolder


BY_MIRRORS = "mirrors"  # in the place of a minute: as far as they go
OLDEST = 2 * 24 * 60  # minutes that a mirror may be behind then


class Surveyed:
    """The files of each line, from the oldest on; `faults` are what can't be asked, and `notes`
    what a reader has to know. Copies of the running desks are made in `room`. A line without its
    desk has to be known until the minute `as_of`, or until that in which the mirrors end.
    """

    def __init__(
        self, lines: Sequence[Line], room: pathlib.Path, as_of: int | str | None = None
    ) -> None:
        self.lines, self.room = lines, room
        self.minute = datetime.datetime.now(datetime.timezone.utc)
        self.files: dict[str, list[catalogue.Archive]] = {}
        self.stamps: dict[str, tuple[set[str], set[str]]] = {}  # as they were before
        self.faults: list[str] = []
        self.notes: list[str] = []
        self.mirrors: dict[Line, catalogue.Archive | None] = {}  # with the newest file of each
        for line in lines:
            self.survey(line)
        end = self.end_of_mirrors() if isinstance(as_of, str) else as_of
        self.as_of = None if end is None else min(end, self.now)  # a desk may be ahead
        for line, newest in self.mirrors.items():
            self.without_desk(line, newest)

    def paths(self) -> Iterator[tuple[str, pathlib.Path]]:
        """Each file, with its line's name."""
        for line in self.lines:
            for file in self.files[line.name]:
                yield line.name, file.path

    def is_as_before(self, line: Line) -> bool:
        return around.stamp(LineFolder(line.folder)) == self.stamps[line.name]

    def survey(self, line: Line) -> None:
        """Looks at a line's folder. The files that are asked are the sealed ones, each behind the
        one from which it was begun, and the desk as it is now. Without a desk its newest copy is
        one of them.
        """
        its, room = LineFolder(line.folder), self.room / str(len(self.files))
        room.mkdir()
        self.stamps[line.name] = around.stamp(its)
        survey = around.survey(its, room=room)
        newest = survey.desk or survey.last
        self.files[line.name] = [*survey.archives, *([newest] if newest else [])]
        self.faults += survey.faults
        if not line.folder.is_dir():
            self.faults.append(f"{line.folder}: there is no such folder: mount its disk")
        elif not its.desk.exists():
            self.mirrors[line] = newest
        elif survey.desk and not plant.is_open(its.desk):
            self.faults.append(
                f"{line.name}: no desk of this machine has {its.desk} open: pieces that came since"
                " are not in the answer. Start its service, or ask on the desk's machine"
            )
        if not survey.archives:
            self.notes.append(f"{line.name}: no archives yet in {line.folder}")

    @property
    def now(self) -> int:
        """The minute of the question."""
        return int(self.minute.timestamp()) // 60

    def end_of_mirrors(self) -> int | None:
        """The minute until which all mirrors go that aren't too old."""
        ends = [newest.last_minute for newest in self.mirrors.values() if newest]
        return min((end for end in ends if end >= self.now - OLDEST), default=None)

    def without_desk(self, line: Line, newest: catalogue.Archive | None) -> None:
        """Takes that a line has no desk here. Its newest sealed file may go far enough: a desk's
        time never goes back, so what came later is of that minute or a later one.
        """
        text = f"{line.name}: {line.folder} has no desk: pieces"
        if newest:
            text += f" that came after {newest.file}, {catalogue.spelled(newest.last_minute)},"
        text += " are not in the answer"
        if newest and self.as_of is not None and newest.last_minute >= self.as_of:
            self.notes.append(text)
        else:
            self.faults.append(f"{text}. Ask on the desk's machine, or pull a newer mirror")
