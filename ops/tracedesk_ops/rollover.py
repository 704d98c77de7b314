"""A roll-over: the line's desk is sealed, and a new one that answers as it would takes its place,
by one rename. Until then there is one more sealed file, and nothing else has changed.

While the desk runs, it is sealed at a moment that has no board in work, and the new desk is begun
from the sealed file. In the stop the new desk gets what the old one has taken since. So each
command is in the sealed file or in the new desk, and the old desk's end is kept nowhere else.

    rollover.due(line.desk, 1_000_000)
    rollover.roll_over(line, service, made, successor, in_stop=False)
"""
from __future__ import annotations

import contextlib
import os
import pathlib
import sqlite3
import time
from collections.abc import Callable, Iterator
from typing import NamedTuple, Protocol

from tracedesk_ops import copies, files, lineage, plant, sealed, sealing
from tracedesk_ops.line import LineFolder
from tracedesk_ops.sealed import FilesFault, Sealed

Path = pathlib.Path

DUE_PIECES = 1_000_000  # docs/operations-daily.md, "The file grows"
FULL = 0.9  # of the greatest number of commands
ROOM = 4.2  # times the desk: the sealed file, a copy of it, a desk as large, and the old one's end
# in the unfinished work: the digits of the file that the new desk was begun from, and that the
# service was stopped
BEGUN, STOPPED = "begun", "stopped"
SECONDS_FOR_BOARDS = 60.0  # for which a moment is waited for that has no board in work
PAUSE = 0.5
SIZES = """SELECT (SELECT count(*) FROM accepted), greatest,
    (SELECT coalesce(sum(placed), 0) FROM reel) FROM version"""
IN_WORK = "SELECT machine, board FROM board WHERE machine <> '' ORDER BY machine"
TOLD = "SELECT 1 FROM accepted WHERE number > ? AND command <> 'ClockSet' LIMIT 1"


class NotRolledOver(FilesFault):
    """Why the old desk goes on."""


class BoardInWork(Exception):
    """The desk can't be left at this moment; some seconds later perhaps."""


class NewDesk(Protocol):
    """The desk that goes on from a sealed file: successor.py."""

    path: Path

    def begin(self, file: Sealed) -> None:
        ...

    def take(self, file: Sealed, end: Path) -> None:
        ...


class Stops(Protocol):
    """The desk's service: service.py."""

    def stop(self) -> None:
        ...

    def start(self, pieces: int = 0) -> float:
        ...


class Due(NamedTuple):
    """Whether it is time for a roll-over, in words too."""

    is_due: bool
    words: str


# --- What a desk's file says


def due(desk: Path, pieces: int) -> Due:
    """Of a desk that may run: then its newest commands are in its log alone, and don't count."""
    with sealed.opened(desk) as database:
        ((commands, greatest, placed),) = copies.rows(database, SIZES)
    is_full = commands >= FULL * greatest
    return Due(
        placed >= pieces or is_full,
        f"{placed:,} placed pieces and {commands:,} commands; the next start takes about"
        f" {plant.start_seconds(placed)} seconds; a roll-over is due at {pieces:,} pieces, and at"
        f" {FULL:.0%} of {greatest:,} commands",
    )


def can_be_left(file: Path, is_in_work: bool) -> None:
    """Looks whether a desk has something to be archived, and no board in work, or one may be."""
    copies.fold(file)
    plant.without_log(file)
    with sealed.opened(file) as database:
        begun = sealed.begun_with(database, sealed.begun_from(database), "main")
        if not copies.rows(database, TOLD, begun):
            raise NotRolledOver(
                "the desk has taken no command since it was begun, so there is nothing to archive"
            )
        if not is_in_work and (rows := copies.rows(database, IN_WORK)):
            boards = ", ".join(f"{board} on {machine}" for machine, board in rows)
            raise BoardInWork(
                f"in work: {boards}. Complete it first; --with-board-in-work goes on without what"
                " is placed on it"
            )


def pieces_of(file: Path) -> int:
    with sealed.opened(file) as database:
        return int(copies.rows(database, SIZES)[0][2])


def waited_for(made: Callable[[Path], Sealed], work: Path, seconds: float) -> Sealed:
    """A sealed file of a moment without a board in work."""
    until = time.monotonic() + seconds
    while True:
        try:
            return made(work)
        except BoardInWork as why:
            if time.monotonic() > until:
                raise NotRolledOver(str(why)) from why
            time.sleep(PAUSE)


# --- The roll-over


def was_placed(line: LineFolder) -> bool:
    """Whether a call that was cut off had put its new desk in place."""
    with contextlib.suppress(OSError, sqlite3.Error), sealed.opened(line.desk) as database:
        return (line.work / BEGUN).read_text("ascii") == sealed.begun_from(database)
    return False


def roll_over(
    line: LineFolder,
    service: Stops,
    made: Callable[[Path], Sealed],
    successor: Callable[[Path, bool], NewDesk],
    in_stop: bool,
) -> Sealed | None:
    """Rolls the line's desk over; the file that its new desk was begun from, or none if an earlier
    call had done it. `made` seals the desk, which runs or is stopped; `successor` gives a new one
    that is made at low priority, or isn't. With `in_stop` all of it is done while the service is
    stopped.
    """
    is_placed = was_placed(line)
    with line.changed() as work:
        if is_placed:
            plant.tell("an earlier call had put the new desk in place")
            service.start()
            return None
        plant.want_room(work, ROOM * sealing.bytes_of(line.desk), "copies of the desk")
        if not in_stop and plant.is_open(line.desk):
            try:
                file = waited_for(made, work, SECONDS_FOR_BOARDS)
            except sealing.NotSealed as why:
                plant.tell(f"all of it is done while the service is stopped: {why}")
            else:
                new = begun_from(line, successor(work, True), file)
                with stopped(service, work, pieces_of(file.path)):
                    put_in_place(line, work, new, file)
                return file
        with stopped(service, work, 0):
            file = waited_for(made, work, 0)
            put_in_place(line, work, begun_from(line, successor(work, False), file), file)
        return file


def begun_from(line: LineFolder, new: NewDesk, file: Sealed) -> NewDesk:
    """Begins the new desk, unless something is wrong with the files behind it."""
    for fault in sealing.faults_since(file, lineage.of(line)):
        raise NotRolledOver(f"{file.path} was sealed, and the old desk goes on: {fault}")
    new.begin(file)
    return new


@contextlib.contextmanager
def stopped(service: Stops, work: Path, pieces: int) -> Iterator[None]:
    """Stops the service meanwhile; it is started again whatever happens."""
    try:
        (work / STOPPED).touch()
        service.stop()
        yield
    finally:
        if gone := service.start(pieces):
            plant.tell(f"the desk was not there for {gone:.0f} seconds")


def put_in_place(line: LineFolder, work: Path, new: NewDesk, file: Sealed) -> None:
    """Gives the new desk what the old one has behind the file, and the old one's name. No run can
    open the old one meanwhile, and none afterwards.
    """
    end = work / "end"
    copies.fold(line.desk)
    plant.without_log(line.desk)
    hold = plant.Held(line.desk)
    try:
        hold.copy_to(end)
        last = Sealed(end, "", file.begun, 0, 0)
        if place := sealed.lacked(last, file):
            raise NotRolledOver(
                f"{line.desk} lacks row {place.number} of {place.table} that {file.path} has: it"
                " is another desk than the one that was sealed"
            )
        new.take(file, end)
        new.path.chmod(0o600)
        files.keep(new.path)
        (work / BEGUN).write_text(file.digits, "ascii")
        files.keep(work / BEGUN)
        os.replace(new.path, line.desk)
        files.keep(line.path)
        hold.spoil()
    finally:
        hold.let_go()
    plant.tell(f"{file.path} is sealed, with {file.commands:,} commands; the new desk is in place")
