"""The changes of a line's desk: each is prepared apart, and one rename makes it.

A restore puts a sealed file in the desk's place. The desk that is there is copied to lost/ first,
whole: what it has and the restored history has not is lacking until its senders have sent it again.

    its = change.plan(line, file)     # what a restore will do
    change.restore(line, its, program.audit)
"""
from __future__ import annotations

import contextlib
import dataclasses
import os
import pathlib
import shutil
import sqlite3
from collections.abc import Iterator

from tracedesk_ops import catalogue, copies, files, lineage, plant, sealed, sealing
from tracedesk_ops.line import LineFolder
from tracedesk_ops.lineage import Lacked
from tracedesk_ops.sealed import FilesFault, Sealed

Path = pathlib.Path


ASIDE = "aside"  # the folder of an archive of 1.0.0 for what restores had put aside


class NotChanged(FilesFault):
    """Why a line's desk stays as it was."""


@dataclasses.dataclass(frozen=True)
class RestorePlan:
    """What a restore will do."""

    file: Sealed
    taken_off: str  # the name that the desk gets in lost/; empty if there is none
    commands: int | None  # of that desk; none if it can't be read
    lacked: list[Lacked]  # of that desk, and of all other files of the line
    faults: list[str]  # why some of these can't be asked
    is_kept: bool = True  # in lost/: a desk is not, if the file has all of it

    def text(self) -> str:
        """The same, for who decides about it."""
        lines = [f"{self.file.path} becomes the desk: {self.file.commands} commands"]
        if self.taken_off and self.is_kept:
            known = "it can't be read" if self.commands is None else f"{self.commands} commands"
            lines.append(f"the desk goes to lost/{self.taken_off}: {known}")
        elif self.taken_off:
            lines.append(f"lost/ keeps no desk: the file has all of its {self.commands} commands")
        lines += [
            f"{its.entries} entries of the book of {its.file.name} are missing: hold and decide"
            " again what still counts"
            if its.entries
            else f"{its.commands} commands of {its.source} have to be sent again, the first of"
            f" {catalogue.spelled(its.since)}"
            for its in self.lacked
        ]
        lines += [f"what has to be sent again isn't known: {fault}" for fault in self.faults]
        return "".join(f"{line}\n" for line in lines)


def chosen(line: LineFolder, name: str) -> Sealed:
    """The file of this name, or of these first digits; the newest one if there is no name."""
    if not name:
        found = lineage.of(line)
        for fault in found.faults:
            raise NotChanged(f"{fault}. Or name the file that is to be restored")
        return found.chain[-1]
    paths = [*sealed.paths_in(line.sealed), *sealed.paths_in(line.lost)]
    those = [path for path in paths if path.name.startswith(Path(name).name)]
    if len(those) != 1:
        raise NotChanged(f"{len(those)} files of {line.path} begin with {name}: name one of them")
    return sealed.read(those[0])


def plan(line: LineFolder, file: Sealed) -> RestorePlan:
    """What a restore of this file will do, while no run has the desk open."""
    if plant.is_open(line.desk):
        raise NotChanged(f"a run has {line.desk} open: stop the line's service, and ask again")
    faults: list[str] = []
    there, lost = (
        lineage.read_all(folder, faults) if folder.is_dir() else []
        for folder in (line.sealed, line.lost)
    )
    behind = lineage.behind(file, {its.digits: its for its in there})
    name, desk = "", None
    with files.Room() as room:
        if line.desk.exists():
            copy = whole_copy(line.desk, Path(room))
            name = copy.name
            with contextlib.suppress(sealed.Damaged):
                desk = sealed.read(copy)
        lacked = lineage.lacking(behind, [*([desk] if desk else []), *there, *lost])
        is_kept = not (desk and lineage.is_held(desk, file))
        return RestorePlan(file, name, desk.commands if desk else None, lacked, faults, is_kept)


def whole_copy(desk: Path, room: Path) -> Path:
    """A copy by the name of its content, with its log folded into it if it is a desk then. Else
    both are as they were: SQLite may empty the log of a file that it can't read.
    """
    copy = room / "copy"
    copies.copy(desk, copy)
    if not is_folded(copy):
        for path in (copy, *copies.logs_of(copy)):
            path.unlink()
        copies.copy(desk, copy)
    named = room / sealed.name_of(sealed.digits_of(copy))
    for log in copies.logs_of(copy):
        log.rename(f"{named}{log.name.removeprefix(copy.name)}")
    return copy.rename(named)


def is_folded(copy: Path) -> bool:
    """Puts a log into its file; whether that has a desk's history then."""
    try:
        copies.fold(copy)
        plant.without_log(copy)
        with sealed.opened(copy) as database:
            return sealed.size(database, sealed.HISTORY) >= 0
    except (sqlite3.Error, copies.InUse, plant.Fault):
        return False


def restore(line: LineFolder, its: RestorePlan, audit: sealing.Audit) -> None:
    """Does what was planned; a NotChanged if the desk is another one by then."""
    with line.changed() as work:
        new = work / "desk"
        desk = sealing.bytes_of(line.desk) if its.taken_off else 0
        size = its.file.path.stat().st_size + desk
        plant.want_room(work, size, f"{its.file.path} and a copy of the desk")
        shutil.copyfile(its.file.path, new)
        new.chmod(0o600)
        if (lawful := audit(new)) != (its.file.commands, its.file.entries):
            said = f"{lawful.commands} commands and {lawful.entries} entries"
            raise NotChanged(f"the audit of {its.file.path} says {said}: take another file")
        plant.without_log(new)
        files.keep(new)
        file = no_more_lost(line, its.file)
        with kept_in_lost(line, its.taken_off, work) if its.taken_off else no_desk(line):
            os.replace(new, line.desk)
            files.keep(line.path)
        sealing.drop_found(line, file)


def no_more_lost(line: LineFolder, file: Sealed) -> Sealed:
    """Gives a file of lost/ its place in sealed/ back."""
    path = line.sealed / file.path.name
    if file.path.parent == line.lost:
        file.path.chmod(0o400)
        os.replace(file.path, path)
        files.keep(line.sealed)
    return dataclasses.replace(file, path=path)


@contextlib.contextmanager
def kept_in_lost(line: LineFolder, name: str, work: Path) -> Iterator[None]:
    """Keeps the desk in lost/ by this name. No run can open it meanwhile, and none afterwards."""
    room = work / "lost"
    room.mkdir()
    copy = whole_copy(line.desk, room)
    if copies.logs_of(line.desk) and not copies.logs_of(copy):
        copies.fold(line.desk)  # as the copy was; a damaged desk without a log is none for SQLite
    hold = plant.Held(line.desk)
    try:
        if copy.name != name or not hold.sha256().startswith(copy.stem):
            raise NotChanged(f"{line.desk} isn't the desk that was planned for: ask again")
        keep_in_lost(line, copy)
        for log in copies.logs_of(line.desk):
            log.unlink()  # it would be taken for the new desk's
        yield
        hold.spoil()
    finally:
        hold.let_go()


@contextlib.contextmanager
def no_desk(line: LineFolder) -> Iterator[None]:
    """Looks whether a line has no desk yet: a service that runs makes one where there is none."""
    if line.desk.exists():
        raise NotChanged(f"{line.desk} is there by now: stop the line's service, and ask again")
    yield


def make(line: LineFolder, program: plant.Program) -> None:
    """Makes the first desk of a line: an empty one."""
    with line.changed(is_new=True) as work:
        if line.desk.exists() or sealed.paths_in(line.sealed):
            raise NotChanged(f"{line.path} has a desk or sealed files: restore one of these")
        new = work / "desk"
        done = program.run("feed", "--db", new, input="", capture_output=True, **plant.TEXT)
        if done.returncode:
            raise NotChanged(f"a desk can't be made in {line.path}: {done.stderr.strip()}")
        plant.without_log(new)
        files.keep(new)
        with no_desk(line):
            os.replace(new, line.desk)
            files.keep(line.path)


def take_over(line: LineFolder, folder: Path, audit: sealing.Audit) -> Sealed:
    """Makes the first desk of a line from a folder of 1.0.0, which stays as it is: `desk`, and in
    `archive` the desks that were archived, and below `aside` those that restores had put aside.
    Returns the sealed file of the desk.
    """
    archive = folder / "archive"
    aside = files_aside(archive / ASIDE)
    with line.changed(is_new=True) as work:
        if line.desk.exists():
            raise NotChanged(f"{line.path} has a desk: restore one of its sealed files")
        there = [path for path in files_below(archive) if copies.is_database(path)]
        size = sum(map(sealing.bytes_of, (*there, *aside, folder / "desk")))
        plant.want_room(work, size, f"copies of the files of {folder}")
        for path in there:
            sealing.put(line, shutil.copyfile(path, work / "archive"))
        for path in aside:
            keep_in_lost(line, whole_copy(path, work))
        if plant.is_open(folder / "desk"):
            raise NotChanged(f"a run has {folder}/desk open: stop it, and ask again")
        sealing.copied(folder / "desk", work / "desk", audit)
        made = sealing.put(line, work / "desk")
        for fault in sealing.faults_since(made, lineage.of(line)):
            raise NotChanged(f"{folder} is not taken over: {fault}")
        new = shutil.copyfile(made.path, work / "new")
        new.chmod(0o600)
        files.keep(new)
        with no_desk(line):
            os.replace(new, line.desk)
            files.keep(line.path)
        return made


def files_below(archive: Path) -> list[Path]:
    """The files below an archive, but what is aside."""
    found = archive.rglob("*") if archive.is_dir() else ()
    return sorted(path for path in found if path.is_file() and archive / ASIDE not in path.parents)


def files_aside(aside: Path) -> list[Path]:
    """The desks that restores had put aside, without their logs: each in a folder of its own."""
    paths = aside.rglob("*") if aside.is_dir() else ()
    logs = (*copies.LOGS, "-shm")
    return sorted(path for path in paths if path.is_file() and not path.name.endswith(logs))


def keep_in_lost(line: LineFolder, copy: Path) -> None:
    """Gives a copy its place in lost/, the log before what it belongs to."""
    for path in (*copies.logs_of(copy), copy):
        files.keep(path)
        os.replace(path, line.lost / path.name)
    files.keep(line.lost)
