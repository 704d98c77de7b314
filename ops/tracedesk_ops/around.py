"""What a recall asks of a line's folder: the files behind its running desk, and what can't be
asked.

The desk in the folder says from which file it was begun. What other files have and this history
has not is lacking, also if one of them went on from the same file. Without a desk, as in a mirror,
the newest sealed file stands for it.

    survey(LineFolder(pathlib.Path("/var/lib/tracedesk/L1"))).archives
"""
from __future__ import annotations

import contextlib
import pathlib
import sqlite3
from collections.abc import Callable, Iterator, Sequence
from typing import NamedTuple

from tracedesk_ops import copies, files, lineage, sealed
from tracedesk_ops.catalogue import RUNNING, Archive
from tracedesk_ops.line import LineFolder
from tracedesk_ops.sealed import FilesFault, Sealed

Path = pathlib.Path
Read = Callable[[Path], Sealed]

LAST = "SELECT coalesce(max(effective), 0) FROM accepted"


class Survey(NamedTuple):
    """The sealed files from which a desk of the line's history was begun, the oldest first; the
    newest copy of its running desk, if there is one; what isn't asked or is lacking; and the desk
    as it is now.
    """

    archives: list[Archive]
    last: Archive | None
    faults: list[str]
    desk: Archive | None = None


def survey(line: LineFolder, read: Read = sealed.read, room: Path | None = None) -> Survey:
    """Reads and compares the files of a line. A copy of its desk is left in a room, if one is
    given.
    """
    faults: list[str] = []
    running: Archive | None = None
    desk: Sealed | None = None
    there, lost = (
        lineage.read_all(folder, faults, read) if folder.is_dir() else []
        for folder in (line.sealed, line.lost)
    )
    try:
        with desk_now(line.desk, room) as desk:
            running = row_of(desk) if desk and room else None
            members = history(desk, there, lost)
            if members:
                faults += (its.text() for its in lineage.lacking(members, [*lost, *there]))
            copies_of = [file for file in there if desk and lineage.is_held(file, desk)]
            last = max(copies_of, key=lambda file: file.rows, default=None)
    except (FilesFault, OSError, sqlite3.Error, copies.Changing) as fault:
        now = [desk] if desk and room else []
        # what the desk has is asked with it
        tops = lineage.tops(there, now) if now or not line.desk.exists() else []
        rows = [*map(row_of, begun_from(there, begun_now(line.desk), tops))]
        rows.sort(key=lambda row: row.last_minute)  # over a gap time alone has an order
        return Survey(rows, None, [*faults, str(fault)], running)
    if desk:
        members.pop()
    elif members and members[-1].digits not in {file.begun for file in there}:
        last = members.pop()
    return Survey([*map(row_of, members)], row_of(last) if last else None, faults, running)


def history(desk: Sealed | None, there: list[Sealed], lost: list[Sealed]) -> list[Sealed]:
    """The files of a desk's history with it, the oldest first; without it those of the newest
    file.
    """
    if desk is None:
        return lineage.chain(there, lost) if there or lost else []
    by_digits = {file.digits: file for file in there}
    for file in (*there, *lost):
        if file.begun and file.begun not in by_digits:
            raise lineage.Missing(file)
    return lineage.behind(desk, by_digits)


def begun_from(
    there: Sequence[Sealed], digits: str = "", tops: Sequence[Sealed] = ()
) -> list[Sealed]:
    """The files from which a desk was begun and those that no other continues, each behind that of
    its own beginning: they are asked also if one is missing. `digits` are of a further one.
    """
    begun = {file.begun for file in there} | {digits}
    waiting = [file for file in there if file.digits in begun or file in tops]
    found: list[Sealed] = []
    while waiting:
        left = {file.digits for file in waiting}
        ready = [file for file in waiting if file.begun not in left]
        found += ready
        waiting = [file for file in waiting if file not in ready]
    return found


def stamp(line: LineFolder) -> tuple[set[str], set[str]]:
    """What a roll-over or a restore changes, and a seal does not: the files from which a desk was
    begun, and those in lost/.
    """
    begun = {begun_now(line.desk)}
    for path in line.sealed.glob("*.desk"):
        with contextlib.suppress(OSError, sqlite3.Error, FilesFault):
            begun.add(sealed.begun_in(path))
    return begun, {path.name for path in line.lost.glob("*.desk")}


def begun_now(desk: Path) -> str:
    """The digits of the file from which a desk was begun, that may run; empty if it says none."""
    with contextlib.suppress(OSError, sqlite3.Error, copies.Changing), desk_now(desk) as now:
        return now.begun if now else ""
    return ""


@contextlib.contextmanager
def desk_now(desk: Path, room: Path | None = None) -> Iterator[Sealed | None]:
    """A copy of a desk's file as it is now, which may run; none if there is none. It stays in a
    room that is given.
    """
    if not desk.exists():
        yield None
        return
    with contextlib.ExitStack() as held:
        copy = Path(room or held.enter_context(files.Room()), RUNNING)
        copies.copy(desk, copy)
        copies.fold(copy)
        yield sealed.read_of(copy, files.sha256_of(copy) if room else "")


def row_of(file: Sealed) -> Archive:
    with sealed.opened(file.path) as database:
        ((last,),) = copies.rows(database, LAST)
    return Archive(file.path, file.sha256, last, file.commands)
