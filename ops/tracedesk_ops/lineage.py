"""The order of a line's sealed files, which of them are superfluous, and what they lack of what was
taken off.

The chain is made of the files that no other one continues, each linked to the file from which its
desk was begun. It has one newest file, or the fault is named: a file is missing, or two went on
from one. What a restore took off is in lost/: it is no part of the chain, and what it continues
isn't either.

    found = lineage.of(line)
    found.chain         # from the oldest to the newest
    found.lacked        # what senders have to send again
    found.faults        # why that isn't all
"""
from __future__ import annotations

import dataclasses
import pathlib
import sqlite3
from collections.abc import Callable, Mapping, Sequence
from typing import NamedTuple

from tracedesk_ops import catalogue, entries, sealed
from tracedesk_ops.line import LineFolder
from tracedesk_ops.sealed import FilesFault, Sealed

Path = pathlib.Path

KEPT = 3  # of the newest files, also those that another one continues

# What a sender said. The clock changes no answer, and nobody has to send it again.
SAID = """
    CREATE TEMP TABLE wanted (uid TEXT, source TEXT, own INTEGER, command TEXT, minute INTEGER,
        file INTEGER, PRIMARY KEY (uid, source, own, command)) WITHOUT ROWID"""
WANT = """
    INSERT OR IGNORE INTO wanted SELECT uid, source, own, command, effective, ?
    FROM other.accepted WHERE number > ? AND command <> 'ClockSet'"""
FOUND = """
    DELETE FROM wanted WHERE EXISTS (SELECT 1 FROM other.accepted there
        WHERE there.uid = wanted.uid AND there.source = wanted.source
        AND there.own = wanted.own AND there.command = wanted.command)"""
LEFT = """
    SELECT file, source, count(*), min(minute) FROM wanted GROUP BY file, source ORDER BY 1, 2"""
# The same of the book: what an entry says, wherever it is and whatever number it has.
SAYS = ", ".join(entries.SAYS)
ENTRIES = f"CREATE TEMP TABLE entry ({SAYS}, file, PRIMARY KEY ({SAYS})) WITHOUT ROWID"
WANT_ENTRIES = f"""
    INSERT OR IGNORE INTO entry SELECT {SAYS}, ? FROM other.book
    WHERE kind NOT IN ('{"', '".join(entries.OF_THE_FILE)}')"""
FOUND_ENTRIES = f"DELETE FROM entry WHERE ({SAYS}) IN (SELECT {SAYS} FROM other.book)"
LEFT_ENTRIES = "SELECT file, '', 0, 0, count(*) FROM entry GROUP BY file"
CARRIED_OTHERWISE = f"""
    SELECT min(n) FROM main.book its WHERE of > 0 AND kind <> '{entries.DECISION}' AND NOT EXISTS
        (SELECT 1 FROM other.book old WHERE old.n = its.of AND ({SAYS}) = ({{}}))""".format(
    ", ".join(f"its.{name}" for name in entries.SAYS)
)


class NoNewest(FilesFault):
    """Nothing is sealed, or nothing since a restore that isn't a beginning of what it took off."""


class Missing(FilesFault):
    """A file is missing from which another one was begun."""

    def __init__(self, file: Sealed) -> None:
        super().__init__(
            f"{sealed.name_of(file.begun)} is missing, from which {file.path} was begun: take it"
            " from a mirror"
        )
        self.digits = file.begun


class Forked(FilesFault):
    """Two files went on from one, or are of two desks."""

    def __init__(self, one: Sealed, other: Sealed, place: str) -> None:
        super().__init__(
            f"{one.path} and {other.path} are two histories of this line: {place}. A person decides"
            " which one is the line's, and restores it"
        )
        self.files = (one, other)


class Lacked(NamedTuple):
    """What a file has of one source, or in its book, and no file of the chain has."""

    file: Path
    source: str
    commands: int
    since: int  # the minute of the first of them
    entries: int = 0

    def text(self) -> str:
        if self.entries:
            return (
                f"{self.entries} entries of the book are in {self.file}, and no file of the chain"
                " has them: look at them, and hold and decide again what still counts"
            )
        return (
            f"{self.commands} commands of {self.source} are in {self.file}, the first of"
            f" {catalogue.spelled(self.since)}, and no file of the chain has them: have that sender"
            " send them again"
        )


@dataclasses.dataclass(frozen=True)
class Lineage:
    """The files of a line, as far as they can be read, and what they are to one another."""

    files: list[Sealed]
    lost: list[Sealed]
    chain: list[Sealed]  # from the oldest to the newest; empty if it isn't whole
    lacked: list[Lacked]
    faults: list[str]


def of(line: LineFolder) -> Lineage:
    """All files of a line, read and compared."""
    faults: list[str] = []
    files, lost = read_all(line.sealed, faults), read_all(line.lost, faults)
    members: list[Sealed] = []
    lacked: list[Lacked] = []
    try:
        members = chain(files, lost)
        lacked = lacking(members, [*lost, *files])
        faults += filter(None, map(carried_otherwise, members, members[1:]))
    except FilesFault as fault:
        faults.append(str(fault))
    return Lineage(files, lost, members, lacked, faults)


def read_all(
    folder: Path, faults: list[str], read: Callable[[Path], Sealed] | None = None
) -> list[Sealed]:
    """The files of a folder; what is wrong with the others is added to `faults`."""
    found = []
    try:
        for path in sealed.paths_in(folder):
            try:
                found.append((read or sealed.read)(path))
            except sealed.Damaged as fault:
                faults.append(str(fault))
    except sealed.Damaged as fault:
        faults.append(str(fault))
    return found


# --- Order


def chain(files: Sequence[Sealed], lost: Sequence[Sealed] = ()) -> list[Sealed]:
    """The files of the line's history, from the oldest to the newest. Each file from which another
    one was begun has to be there, also behind what was taken off.
    """
    by_digits = {file.digits: file for file in files}
    for file in (*files, *lost):
        if file.begun and file.begun not in by_digits:
            raise Missing(file)
    named = {file.begun for file in (*files, *lost)}
    newest = [file for file in tops(files, lost) if file.digits not in named]
    if not newest:
        raise NoNewest(
            "no sealed file is newer than what a restore took off: seal the desk, once its senders"
            " have sent again what it lacks"
        )
    chains = [behind(file, by_digits) for file in newest]
    if len(chains) > 1:
        raise Forked(newest[0], newest[1], fork_of(chains[0], chains[1]))
    return chains[0]


def tops(files: Sequence[Sealed], lost: Sequence[Sealed]) -> list[Sealed]:
    """The files that no other one continues, of two equal ones the one that a desk was begun from.
    A file can only be continued by one with as many rows.
    """
    named = {file.begun for file in (*files, *lost)}
    found: list[Sealed] = []
    for file in sorted(files, key=lambda file: (-file.rows, file.digits not in named, file.digits)):
        if not any(is_held(file, other) for other in (*found, *lost)):
            found.append(file)
    return found


def is_held(file: Sealed, other: Sealed) -> bool:
    """Whether another file continues one. Desks that were begun from two files, or one of them
    from none, have no first command in common.
    """
    return file.begun == other.begun and sealed.continues(other, file)


def behind(newest: Sealed, by_digits: Mapping[str, Sealed]) -> list[Sealed]:
    """A file and those behind it, the oldest first."""
    found = [newest]
    while digits := found[-1].begun:
        if digits not in by_digits:
            raise Missing(found[-1])
        found.append(by_digits[digits])
    return found[::-1]


def fork_of(one: Sequence[Sealed], other: Sequence[Sealed]) -> str:
    """Where two chains part, in words."""
    first, second = next(pair for pair in zip(one, other) if pair[0].digits != pair[1].digits)
    places = [sealed.lacked(first, second), sealed.lacked(second, first)]
    place = min(filter(None, places))  # two files with the same rows are one for `tops`
    if place == sealed.RowPlace(sealed.HISTORY.table, 1):
        return "they have no command in common, so they are of two desks"
    if place.table == sealed.BOOK.table:
        return f"they part at entry {place.number} of the book"
    minutes = {sealed.minute_at(file, place.number) for file in (first, second)} - {None}
    since = catalogue.spelled(min(filter(None, minutes), default=0))
    return f"they part at command {place.number}, since {since}"


def superfluous(files: Sequence[Sealed], lost: Sequence[Sealed] = ()) -> list[Sealed]:
    """The files that the chain continues, and from which nothing was begun, but for the newest few.
    Without a whole chain nothing is superfluous.
    """
    try:
        members = chain(files, lost)
    except FilesFault:
        return []
    named = {file.begun for file in (*files, *lost)}
    order: list[Sealed] = []
    for member in members:
        held = [file for file in files if file not in members and is_held(file, member)]
        order += [*sorted(held, key=lambda file: file.rows), member]
    return [file for file in order[:-KEPT] if file not in members and file.digits not in named]


def carried_otherwise(older: Sealed, newer: Sealed) -> str:
    """What is wrong with the entries that a file carries on of the one from which it was begun."""
    try:
        with sealed.opened(newer.path) as database, sealed.attached(database, older.path):
            if not older.entries or not newer.entries:
                return ""
            ((number,),) = database.execute(CARRIED_OTHERWISE).fetchall()
    except sqlite3.Error as fault:
        raise sealed.Damaged(f"{newer.path} and {older.path} can't be compared: {fault}") from fault
    if number is None:
        return ""
    return f"{newer.path} carries entry {number} of its book as {older.path} doesn't have it"


# --- Loss


def lacking(members: Sequence[Sealed], others: Sequence[Sealed]) -> list[Lacked]:
    """What senders told the other files and no file of the chain has: by each command's UniqueID,
    source, own minute and text, and by all that an entry of the book says.
    """
    digits = {file.digits for file in members}
    try:
        with sealed.opened(members[-1].path) as database:
            for table in (SAID, ENTRIES):
                database.execute(table)
            for place, file in enumerate(others):
                if file.digits not in digits:
                    with sealed.attached(database, file.path):
                        begun = sealed.begun_with(database, file.begun, "other")
                        database.execute(WANT, [place, begun])
                        if file.entries:
                            database.execute(WANT_ENTRIES, [place])
            for file in reversed(members):
                with sealed.attached(database, file.path):
                    database.execute(FOUND)
                    if file.entries:
                        database.execute(FOUND_ENTRIES)
            rows = [*database.execute(LEFT).fetchall(), *database.execute(LEFT_ENTRIES).fetchall()]
    except sqlite3.Error as fault:
        raise sealed.Damaged(f"what the chain lacks can't be found: {fault}") from fault
    return sorted(Lacked(others[row[0]].path, *row[1:]) for row in rows)
