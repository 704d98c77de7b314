"""The desk that goes on where a sealed file ends: carry.py says its messages, tracedesk-chain
compares it with that file, entries.py carries on the book, which tracedesk-line compares, and at
last it gets what the old desk has taken since.

    new = Successor(work, wanted, (program, chain, line), is_low=True)
    new.begin(file)          # a plant.Fault if both don't answer alike
    new.take(file, end)      # a plant.Fault if it doesn't take that as the old desk did
"""
from __future__ import annotations

import dataclasses
import itertools
import json
import pathlib
import re
import shutil
import subprocess
from collections.abc import Iterable, Iterator, Sequence
from typing import Any, NamedTuple

from tracedesk_ops import carry, copies, desk_tables, entries, model, plant, private, sealed
from tracedesk_ops import stored
from tracedesk_ops.sealed import Sealed

Path = pathlib.Path

TAIL = """SELECT uid, source, own, effective, command, detail FROM accepted
    WHERE number > ? ORDER BY number"""


@dataclasses.dataclass(frozen=True)
class Wanted:
    """What the new desk is to have otherwise than the old one."""

    at: int | None = None  # its minute, if the old one's clock was wrong
    is_in_work: bool = False  # whether a board may be, of which it then knows nothing

    def has_options(self) -> bool:
        return self != Wanted()


class StoredRow(NamedTuple):
    """A command as a desk stores it, with its answer, but for its number."""

    uid: str
    source: str
    own: int
    effective: int
    command: str
    answer: dict[str, Any]


def rows_after(file: Path, number: int) -> list[StoredRow]:
    """What a file has behind a command."""
    with sealed.opened(file) as database:
        found = copies.rows(database, TAIL, number)
    rows = [StoredRow._make((*row[:5], json.loads(row[5]))) for row in found]
    for row in rows:
        row.answer.pop("Number", None)
    return rows


def message(row: StoredRow) -> str:
    try:
        return stored.message(row.uid, row.source, row.own, row.command)
    except stored.NotACommand as why:
        raise plant.Fault(f"the command {row.uid} can't be said again: {why}") from why


class Successor:
    """The new desk, in a folder of unfinished work."""

    def __init__(
        self, work: Path, wanted: Wanted, names: Sequence[str], is_low: bool = False
    ) -> None:
        self.work, self.wanted = work, wanted
        self.program, self.chain, self.line = (plant.Program(it, work, is_low) for it in names)
        self.path, self.old = work / "new", work / "old"  # the second is a copy, to be asked
        self.book: entries.Carrying | None = None

    def begin(self, file: Sealed) -> None:
        """Makes the new desk, and says what it doesn't know and that both are alike."""
        carried = desk_tables.DeskTables(file.path, sealed.opened)
        at = self.wanted.at
        is_earlier = at is not None and at < carried.minute
        carrier = self.made(carried, file, None if is_earlier else at)
        shutil.copyfile(file.path, self.old)
        lists = private.lists_of(self.line, self.old) if file.entries else private.EMPTY
        alike = self.compared(carried, file)
        if is_earlier:  # no desk goes back in time: the same messages, each so many minutes earlier
            carrier = self.made(carried, file, at)
        notes = carrier.notes(), [f"tracedesk-chain says of both desks: {alike}"]
        for note in (*itertools.chain(*notes), self.carried_on(file, lists)):
            plant.tell(note)

    def made(self, carried: desk_tables.DeskTables, file: Sealed, at: int | None) -> carry.Carrier:
        """Makes the new desk, each of whose commands was Accepted; who says what it doesn't
        know.
        """
        self.path.unlink(missing_ok=True)
        lines, carrier = carry.begun(carried, file.digits, at)
        answered = 0
        for is_setup, group in itertools.groupby(lines, lambda it: isinstance(it, carry.Setup)):
            those = list(group)
            for line, answer in zip(those, self.answers(those, is_setup, carried.greatest)):
                if json.loads(answer)["Answer"] != "Accepted":
                    raise plant.Fault(f"the new desk answers {answer} to {str(line)[:300]}")
                answered += 1
        if answered != len(lines):
            raise plant.Fault(
                f"the new desk answered {answered} of {len(lines)} messages: is the disk full?"
            )
        plant.without_log(self.path)
        return carrier

    def answers(
        self, lines: Sequence[str | carry.Setup], is_setup: bool, greatest: int
    ) -> Iterable[str]:
        """The new desk's answers to messages, or to sheets that are too long for one."""
        if is_setup:
            return self.imported([line for line in lines if isinstance(line, carry.Setup)])
        return self.fed(self.path, lines, "--greatest", greatest)

    def fed(self, file: Path, lines: Iterable[object], *words: object) -> list[str]:
        """A desk's answers to some messages."""
        given, answers = self.work / "messages", self.work / "answers"
        given.write_text("".join(f"{line}\n" for line in lines), encoding="ascii")
        with open(given, "rb") as messages, open(answers, "wb") as out:
            self.program.run("feed", "--db", file, *words, stdin=messages, stdout=out)
        return answers.read_text(encoding="ascii").splitlines()

    def imported(self, setups: Iterable[carry.Setup]) -> Iterator[str]:
        given = self.work / "setup"
        how: dict[str, Any] = {"stdin": subprocess.DEVNULL, "stdout": subprocess.PIPE, **plant.TEXT}
        for setup in setups:
            given.write_text(setup.text, encoding="ascii")
            words: list[object] = ["--id", setup.uid, "--source", setup.source]
            words += ["--time", setup.stamp, "--product", setup.product]
            words += ["--machine", setup.machine, "--file", given]
            yield self.program.run("import-setup", "--db", self.path, *words, **how).stdout or "{}"

    def compared(self, carried: desk_tables.DeskTables, file: Sealed) -> str:
        """What tracedesk-chain says of both desks, which has to be that they are alike. It opens
        what it compares for writing, so it gets a copy of the sealed file; and that has taken the
        commands for which the options stand.
        """
        if asked := self.said_of_options(carried, file.digits):
            self.fed(self.old, asked)
        how = {"stdin": subprocess.DEVNULL, "capture_output": True, **plant.TEXT}
        done = self.chain.run("alike", self.old, self.path, **how)
        if done.returncode or not re.fullmatch(r"alike \d+ \d+\n", done.stdout):
            said = " ".join((done.stdout + done.stderr).split())
            raise plant.Fault(
                f"the new desk is not taken: tracedesk-chain ended with status {done.returncode}: "
                f"{said}; operations-faults.html, 'If the desks are not alike'"
            )
        plant.without_log(self.path)
        return done.stdout.strip()

    def said_of_options(self, carried: desk_tables.DeskTables, digits: str) -> list[object]:
        messages = carry.Messages(f"asked-{digits}", "asked")
        for machine, board in carried.in_work:
            messages.say(carried.minute, "WorkCompleted", Machine=machine, Board=board)
        if (self.wanted.at or 0) > carried.minute:
            messages.say(self.wanted.at or 0, "ClockSet")
        return [*messages.lines]

    # --- The book

    def carried_on(self, file: Sealed, old: private.Lists) -> str:
        """Gives the new desk its book, in which the same entries stand as in that of the file, and
        stop the same machines; in words.
        """
        name = {"File": file.path.name, "Sha256": file.sha256}
        commands = len(rows_after(self.path, 0))
        self.book = entries.Carrying(entries.of(file.path), old.standing, name, commands)
        book = self.book.with_since([], {})
        self.keep(book)
        said = f"{len(book) - 1} of {file.entries} entries of the book are carried over"
        if not file.entries:
            return said
        for path in (self.old, *copies.logs_of(self.old)):
            path.unlink()
        shutil.copyfile(self.path, self.old)
        numbers = {its.of: its.n for its in book[1:]}
        # what closed an undecided entry is not in the new history, so it stops its machine again
        again = {its.n for its in book if its.kind in entries.REOPENED}
        again -= {numbers.get(n, 0) for n, state in old.standing.items() if state == entries.OPEN}
        new = private.lists_of(self.line, self.old)
        if new.reopened(again) != old.renumbered(numbers).reopened(again):
            raise plant.Fault(
                "the new desk is not taken: by tracedesk-line other entries are open or undecided"
                " there, stop other machines, or hold other reels and lots"
            )
        return said

    def keep(self, book: Sequence[entries.BookEntry]) -> None:
        """Writes the book, and has both lists audited."""
        entries.write(self.path, book)
        wanted = plant.Lawful(len(rows_after(self.path, 0)), len(book))
        if (lawful := self.line.audit(self.path)) != wanted:
            raise plant.Fault(f"the new desk has {wanted}, and its audit says {lawful}")
        plant.without_log(self.path)

    # --- What came meanwhile

    def take(self, file: Sealed, end: Path) -> None:
        """Gives the new desk what the old one has behind the sealed file at its end. Nothing
        runs by now, so this is in a hurry.
        """
        for program in (self.program, self.line):
            program.before = ()
        own = rows_after(self.path, 0)
        known = {row.uid for row in own if row.source == model.SOURCE}
        rows = rows_after(end, file.commands)
        tail = [row for row in rows if row.uid not in known]
        if tail:
            self.take_commands(tail, len(own))
        since = entries.of(end, file.entries)
        if since and self.book:
            is_new = (row.uid not in known for row in rows)
            places = enumerate(itertools.accumulate(is_new, initial=len(own)), file.commands)
            self.keep(self.book.with_since(since, dict(places)))
        if tail or since:
            plant.tell(
                f"{len(tail):,} commands and {len(since):,} entries of the book came meanwhile: the"
                " new desk has them"
            )

    def take_commands(self, tail: Sequence[StoredRow], begun: int) -> None:
        self.fed(self.path, [message(row) for row in tail])
        plant.without_log(self.path)
        given = rows_after(self.path, begun)
        if given != tail:
            odd = next((pair for pair in zip(tail, given) if pair[0] != pair[1]), len(given))
            raise plant.Fault(
                f"the new desk doesn't take the last {len(tail):,} commands as the old one did:"
                f" {odd!r:.500}"
            )
