"""Keeps the files of a line, which is a folder: its desk, sealed/ and lost/.

usage: tracedesk-ops make LINE [--from FOLDER]
       tracedesk-ops seal LINE
       tracedesk-ops check LINE
       tracedesk-ops restore LINE [FILE] [--dry-run]
       tracedesk-ops rollover LINE [--due | --if-due] [--pieces N] [--with-board-in-work]
                                   [--at TIME]
       tracedesk-ops import | label | events | move ..    each has a --help of its own

  make      makes the first desk of a line, an empty one; or takes a folder of 1.0.0 over: its desk
            with its archives, and what restores had put aside
  seal      copies the desk, which may run, has the copy audited, and keeps it in sealed/
  check     says what keeps the desk from running, and has all files of the line compared
  restore   puts a sealed file in the place of the desk, which goes to lost/: the newest one, or the
            one that is named, by some of its digits too
  rollover  seals the desk, and puts a new one in its place that goes on from the sealed file, so
            that starts stay quick
  import    sends a desk the parts, alternates, reels or placements of a table
  label     prints labels of reels, for a label printer
  events    publishes over MQTT what changes at a line
  move      moves a reel from one running desk to another

LINE is its folder, its name in /etc/tracedesk/LINE.conf, or a folder in /var/lib/tracedesk.

examples:
  tracedesk-ops make L1 --from /var/backups/tracedesk/2026-11-25T061203Z
  tracedesk-ops seal L1
  tracedesk-ops check L1
  tracedesk-ops restore L1 --dry-run
  tracedesk-ops restore L1 3f1c9a
  tracedesk-ops rollover L1 --due            is it time?
  tracedesk-ops rollover L1 --if-due

A seal stops nothing: a running desk goes on. It then removes each sealed file that a newer one
continues, but keeps the newest three. A check repairs nothing: stop the service of the
line and restore its newest sealed file. --dry-run prints the steps of a restore and the commands
that the senders must send again.

A roll-over begins the new desk while the old one runs, at a moment that has no board in work.
tracedesk-chain compares both: it is proved that the new desk then answers as the old one would
have. Then the service is stopped for some seconds, and the new desk gets what the old one has taken
since. Until it has the old one's name a fault or a kill changes nothing; call it again then. With
--at or --with-board-in-work all of it is done while the service is stopped.

Exit status: 0 done, and all of it; 1 the answer is no: the desk can't run, or no roll-over is due;
2 bad command line, or there is no program; 3 not now, or not complete: a line says what to do;
4 done, and the line's files need a person, or its senders have to send again; 9 an unexpected
failure.
"""
from __future__ import annotations

import argparse
import importlib
import os
import pathlib
import sys
from collections.abc import Callable, Sequence

from tracedesk_ops import change, check, desk_tables, lineage, options, places
from tracedesk_ops import plant, reader_of, rollover, sealing, successor
from tracedesk_ops.line import Busy, LineFolder, NotALine
from tracedesk_ops.sealed import Sealed
from tracedesk_ops.service import Service

Path = pathlib.Path

DONE, NO, NOT_NOW, SEE_TO_IT = 0, 1, 3, 4
FAULTS = (*plant.FAULTS, KeyboardInterrupt, Busy, NotALine, desk_tables.NotCarried)


def audit_of(asked: argparse.Namespace) -> sealing.Audit:
    return plant.Program(asked.auditor, asked.line.desk, is_low=True).audit


def seal(asked: argparse.Namespace) -> int:
    """Seals the desk, and takes away what is superfluous then."""
    line: LineFolder = asked.line
    made = sealing.seal(line, audit_of(asked))
    faults = swept(line, made)
    plant.write_out(f"{made.path}: lawful {made.commands}\n")
    return told(faults, SEE_TO_IT)


def swept(line: LineFolder, made: Sealed) -> list[str]:
    """Takes away what is superfluous once a file was sealed, or says why nothing is."""
    with line.held():
        found = lineage.of(line)
        faults = [*sealing.faults_since(made, found), *(its.text() for its in found.lacked)]
        for file in [] if faults else lineage.superfluous(found.files, found.lost):
            file.path.unlink()
    return faults


def look(asked: argparse.Namespace) -> int:
    """What keeps the desk from running, and whether the line's files are whole."""
    line: LineFolder = asked.line
    with line.held():
        found = lineage.of(line)
        hindrances = check.hindrances(line.desk, audit_of(asked))
        faults = [*found.faults, *(its.text() for its in found.lacked)]
        faults += check.chain_faults(asked.program, found)
    if not told([*hindrances, *faults], NO):
        commands = sum(file.commands for file in found.chain)
        plant.write_out(f"{line.path}: sound, {len(found.chain)} files, {commands} commands\n")
    return NO if hindrances else NOT_NOW if faults else DONE


def restore(asked: argparse.Namespace) -> int:
    """Restores a file, or only says what that does."""
    line: LineFolder = asked.line
    its = change.plan(line, change.chosen(line, asked.file))
    if not asked.dry_run:
        change.restore(line, its, audit_of(asked))
    plant.write_out(its.text())
    is_known = not its.faults and not (its.taken_off and its.commands is None)
    return DONE if is_known and not its.lacked else SEE_TO_IT


def roll_over(asked: argparse.Namespace) -> int:
    """Rolls the desk over, or says whether it is time."""
    line: LineFolder = asked.line
    asked.db = line.desk
    is_cut_off = (line.work / rollover.STOPPED).exists()
    if asked.due or asked.if_due:
        its = rollover.due(line.desk, asked.pieces)
        plant.write_out(f"{its.words}\n")
        if asked.due:
            return DONE if its.is_due else NO
        if not its.is_due and not is_cut_off:
            return DONE
    before = line.desk.stat().st_ino
    try:
        made = rolled_over(line, asked, Service(asked, not asked.if_due, is_cut_off))
    except FAULTS as fault:
        if line.desk.stat().st_ino == before:
            plant.tell("the old desk is as it was")
            raise
        return told([str(fault) or "it was interrupted", "the new desk is in place"], SEE_TO_IT)
    return told(swept(line, made), SEE_TO_IT) if made else DONE


def rolled_over(line: LineFolder, asked: argparse.Namespace, service: Service) -> Sealed | None:
    wanted = successor.Wanted(asked.at, asked.with_board_in_work)
    audit = audit_of(asked)

    def audited(file: Path) -> plant.Lawful:
        rollover.can_be_left(file, wanted.is_in_work)
        return audit(file)

    def made(work: Path) -> Sealed:
        return sealing.sealed_in(line, work, audited)

    def new(work: Path, is_low: bool) -> rollover.NewDesk:
        names = asked.program, asked.chain, asked.auditor
        return successor.Successor(work, wanted, names, is_low)

    check.want_one_name(line.desk)
    return rollover.roll_over(line, service, made, new, wanted.has_options())


def make(asked: argparse.Namespace) -> int:
    """Makes a line's first desk, or takes that of an older folder over."""
    if not asked.old:
        change.make(asked.line, plant.Program(asked.program, asked.line.desk))
        return DONE
    made = change.take_over(asked.line, asked.old, audit_of(asked))
    found = lineage.of(asked.line)
    plant.write_out(f"{made.path}: lawful {made.commands}, with {len(found.chain) - 1} archives\n")
    faults = [*(its.text() for its in found.lacked), *check.chain_faults(asked.program, found)]
    return told(faults, SEE_TO_IT)


def told(faults: Sequence[str], status: int) -> int:
    for fault in faults:
        plant.tell(fault)
    return status if faults else DONE


SUBCOMMANDS: dict[str, Callable[[argparse.Namespace], int]] = {
    "make": make,
    "seal": seal,
    "check": look,
    "restore": restore,
    "rollover": roll_over,
}


# Subcommands without a line's folder: each is a module of cmd, with words of its own.
APART = {"import": "importing", "label": "labels", "events": "events", "move": "move"}


def line_named(name: str) -> LineFolder:
    """The folder of a line: that of its set-up file, or one of its name."""
    path = Path(name) if "/" in name else places.HOME / options.line_name(name)
    try:
        for its in places.lines():
            if its.line == name:
                path = its.db.parent
    except places.NotSetUp as fault:
        raise argparse.ArgumentTypeError(str(fault)) from fault
    return LineFolder(path.resolve())


def set_up_of(line: LineFolder) -> dict[str, str | int]:
    """What the line's set-up file says of its service, which is the unit tracedesk@LINE else; of
    the package's own desk it is tracedesk.
    """
    is_own = line.path == places.HOME.resolve()
    unit = "tracedesk" if is_own else f"tracedesk@{line.name}"
    words: dict[str, str | int] = {
        "stop": f"systemctl stop {unit}",
        "port": places.PORT if is_own else 0,
    }
    # it may have failed too often, on a desk that was not to be had
    words["start"] = f"systemctl reset-failed {unit}; systemctl start {unit}"
    for its in places.files():
        if places.of_words(its).db.parent.resolve() == line.path:
            words |= {word: its[word] for word in ("port", "stop", "start") if word in its}
    return words


def reader_in(
    of_name: argparse._SubParsersAction[argparse.ArgumentParser], name: str
) -> argparse.ArgumentParser:
    return of_name.add_parser(
        name,
        prog=f"{plant.NAME} {name}",
        usage=argparse.SUPPRESS,
        description=__doc__,
        formatter_class=argparse.RawDescriptionHelpFormatter,
    )


def words() -> argparse.Namespace:
    reader = reader_of(__doc__)
    of_name = reader.add_subparsers(
        dest="subcommand", metavar="SUBCOMMAND", required=True, help=", ".join(SUBCOMMANDS)
    )
    readers = {name: reader_in(of_name, name) for name in SUBCOMMANDS}
    for its in readers.values():
        its.add_argument("line", type=line_named, metavar="LINE", help="its folder, or its name")
        options.offer_program(its)
    readers["make"].add_argument(
        "--from", type=Path, dest="old", metavar="FOLDER", help="of 1.0.0, or a copy of such a line"
    )
    readers["restore"].add_argument("file", nargs="?", default="", metavar="FILE")
    readers["restore"].add_argument("--dry-run", action="store_true", help="print what it will do")
    offer_rollover(readers["rollover"])
    asked = parsed(reader)
    if not asked.line.path.is_dir():
        reader.error(f"there is no folder {asked.line.path}")
    try:
        readers[asked.subcommand].set_defaults(**set_up_of(asked.line))
    except places.NotSetUp as fault:
        reader.error(str(fault))
    asked = options.find_program(reader, parsed(reader))
    asked.chain, asked.auditor = plant.chain_of(asked.program), plant.line_of(asked.program)
    if asked.subcommand == "rollover" and not (asked.chain or asked.due):
        reader.error(f"there is no tracedesk-chain next to {asked.program}: CHAIN names it")
    if not (asked.auditor or getattr(asked, "due", False)):
        reader.error(f"there is no tracedesk-line next to {asked.program}: LINE names it")
    return asked


def parsed(reader: argparse.ArgumentParser) -> argparse.Namespace:
    """The words; a FILE may be behind an option, which argparse doesn't take."""
    asked, more = reader.parse_known_args()
    if len(more) == 1 and getattr(asked, "file", None) == "" and not more[0].startswith("-"):
        asked.file = more[0]
        return asked
    return reader.parse_args()


def offer_rollover(reader: argparse.ArgumentParser) -> None:
    reader.add_argument("--port", type=int, default=0, metavar="N", help="where the desk answers")
    reader.add_argument("--due", action="store_true", help="say whether it is time, and do nothing")
    reader.add_argument(
        "--if-due",
        action="store_true",
        help="do nothing if it is not time, and leave a service stopped that somebody had stopped",
    )
    reader.add_argument(
        "--pieces",
        type=int,
        default=rollover.DUE_PIECES,
        metavar="N",
        help=f"so many placed pieces are enough ({rollover.DUE_PIECES:,})",
    )
    reader.add_argument(
        "--with-board-in-work", action="store_true", help="go on though a board is in work"
    )
    reader.add_argument(
        "--at",
        type=options.minute_of,
        metavar="TIME",
        help="the new desk's minute, if the old one's clock was wrong, as 2026-03-02T06:00:00Z",
    )
    options.offer_service(reader)


def main() -> int:
    if apart := APART.get("".join(sys.argv[1:2])):
        return int(importlib.import_module(f"tracedesk_ops.cmd.{apart}").main(sys.argv[2:]))
    asked = words()
    plant.ends_by_exception()
    os.umask(0o077)
    try:
        with plant.as_owner(asked.line.desk):
            asked.line.want(is_new=asked.subcommand == "make")
            return SUBCOMMANDS[asked.subcommand](asked)
    except FAULTS as fault:
        plant.tell(str(fault) or "it was interrupted")
        return NOT_NOW
