"""Seals a line's desk: copies it, has the copy audited, and names it by its content. A copy that
fails is not kept.

A running desk goes on meanwhile, and is asked nothing: its file and its log have each command that
it has acknowledged. A desk that has taken nothing since is the same file as before.

    made = sealing.seal(line, program.audit)
    sealing.faults_since(made, lineage.of(line))
"""
from __future__ import annotations

import os
import pathlib
import sqlite3
from collections.abc import Callable

from tracedesk_ops import copies, files, lineage, plant, sealed
from tracedesk_ops.line import LineFolder
from tracedesk_ops.lineage import Lineage
from tracedesk_ops.sealed import FilesFault, Sealed

Path = pathlib.Path
Audit = Callable[[Path], plant.Lawful]  # a plant.Fault if a file is not lawful


class NotSealed(FilesFault):
    """Why there is no new sealed file. The desk goes on as before."""


NOT_NOW = (copies.InUse, plant.Fault, OSError, sqlite3.Error)


def seal(line: LineFolder, audit: Audit) -> Sealed:
    """Seals the desk, which may run."""
    with line.changed() as work:
        return sealed_in(line, work, audit)


def sealed_in(line: LineFolder, work: Path, audit: Audit) -> Sealed:
    """The same within a change of the line."""
    copy = work / "desk"
    try:
        plant.want_room(work, bytes_of(line.desk), f"a copy of {line.desk}")
        copied(line.desk, copy, audit)
    except NOT_NOW as fault:
        raise NotSealed(f"{line.desk} was not sealed: {fault}") from fault
    made = put(line, copy)
    drop_found(line, made)
    return made


def bytes_of(desk: Path) -> int:
    """How long a desk is, with its log."""
    return sum(path.stat().st_size for path in (desk, *copies.logs_of(desk)))


def copied(desk: Path, to: Path, audit: Audit) -> None:
    """Copies a desk with its log, gently if it runs, and has the copy audited."""
    copies.copy(desk, to, is_gentle=plant.is_open(desk))
    want_lawful(to, audit)


def want_lawful(copy: Path, audit: Audit) -> None:
    """Has a copy audited, with all that its log has."""
    copies.fold(copy)
    lawful = audit(copy)
    plant.without_log(copy)
    with sealed.opened(copy) as database:
        found = plant.Lawful(*(sealed.size(database, its) for its in sealed.LISTS))
    if not found.commands:
        raise NotSealed("it has accepted nothing, so there is nothing to seal")
    if found != lawful:
        raise NotSealed(
            f"the copy has {found.commands} commands and {found.entries} entries of its book, and"
            f" its audit says {lawful.commands} and {lawful.entries}"
        )


def put(line: LineFolder, made: Path) -> Sealed:
    """Gives a finished file its name in sealed/, where all of it is on disk before. A file that is
    there has the same content, or was changed: then this mends it.
    """
    made.chmod(0o400)
    files.keep(made)
    path = line.sealed / sealed.name_of(sealed.digits_of(made))
    os.replace(made, path)
    files.keep(line.sealed)
    return sealed.read(path)


def drop_found(line: LineFolder, newest: Sealed) -> None:
    """Takes out of lost/ what this file has all of: it isn't lost. A restore that was cut off has
    left it.
    """
    for file in lineage.read_all(line.lost, []):
        if lineage.is_held(file, newest):
            file.path.unlink()


def faults_since(made: Sealed, found: Lineage) -> list[str]:
    """What is wrong with the line's files once this one was sealed."""
    faults = list(found.faults)
    if found.chain and not sealed.continues(made, found.chain[-1]):
        faults.append(
            f"the desk was set back: {found.chain[-1].path} has commands that it lacks. Restore"
            " that file, or ask the senders to send again"
        )
    return faults
