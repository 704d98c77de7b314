"""What one desk's file says, told as messages to the desk that goes on from it: successor.py.

An exposure counts the minutes in which a reel was open. So a reel that lay open for e minutes in
all is told as one that was opened e minutes before the end, and is sealed at the end if it was
sealed. A reel at level 6 that was baked is baked before that. An exposure above the floor life is
told as the floor life: the reel is expired by either.
"""
from __future__ import annotations

import datetime
from collections.abc import Callable, Iterable, Iterator
from typing import Any, NamedTuple

from tracedesk.limits import FURTHEST_AHEAD, GREATEST_LABEL, LONGEST_INPUT

from tracedesk_ops import catalogue, model, stored
from tracedesk_ops.desk_tables import KNOWN, DeskTables, Known, NotCarried
from tracedesk_ops.desk_tables import ReelRow, SheetRow

KNOWN_IN_ALL = 20_000  # of all sources, the newest ones


class Setup(NamedTuple):
    """A sheet that is too long for a message: a setup file, and what its import is told."""

    uid: str
    source: str
    stamp: str
    product: str
    machine: str
    text: str


# minutes before the end, machine, slot, reel, is it a splice
Mount = tuple[int, str, str, ReelRow, bool]


class Messages:
    """The messages of a new desk, in the order in which they are sent, and the minute that they
    have led it to.
    """

    def __init__(self, prefix: str, source: str) -> None:
        self.prefix, self.source = prefix, source
        self.lines: list[str | Setup] = []
        self.minute: int | None = None

    def say(self, minute: int, word: str, **body: Any) -> None:
        if self.minute is not None and minute > self.minute + FURTHEST_AHEAD and word != "ClockSet":
            self.say(minute, "ClockSet")
        self.add(f"{self.prefix}-{len(self.lines) + 1}", self.source, minute, word, body)
        self.minute = minute

    def add(self, uid: str, source: str, minute: int, word: str, body: dict[str, Any]) -> None:
        line = stored.line(uid, source, minute, word, body)
        self.lines.append(
            line
            if len(line) <= LONGEST_INPUT
            else setup(uid, source, catalogue.spelled(minute), body)
        )

    def say_known(self, known: list[Known]) -> None:
        """Says the UniqueIDs of an archive, each as a ClockSet of its own minute, which changes
        nothing: so a message that is sent again is refused as IdReused. None has the number that it
        has in the archive: by a command of that number a file is known again.
        """
        if not known or self.minute is None:
            return
        while any(number == len(self.lines) + place for place, (number, *_) in enumerate(known, 1)):
            self.say(self.minute, "ClockSet")
        for _, uid, source, own in known:
            self.add(uid, source, min(own, self.minute), "ClockSet", {})
        self.say(self.minute, "ClockSet")  # the last command is the new desk's own

    def say_sheet(self, minute: int, product: str, machine: str, rows: Iterable[SheetRow]) -> None:
        self.say(
            minute,
            "SheetDefined",
            Product=product,
            Machine=machine,
            Rows=[
                {"Slot": slot, "PartNumber": part, "Designators": list(them)}
                for slot, part, them in rows
            ],
        )


class Carrier:
    """Tells an archived desk to a new one whose last minute is `end`."""

    def __init__(self, archive: DeskTables, messages: Messages, end: int) -> None:
        self.archive, self.messages, self.end = archive, messages, end
        self.exposure = {
            name: reel.exposure(archive.minute) for name, reel in archive.reels.items()
        }
        self.mounts = self.mounts_in_turn()
        self.mounted = {reel.reel: before for before, _, _, reel, _ in self.mounts}

    def mounts_in_turn(self) -> list[Mount]:
        """Each load and splice: how many minutes before the end, machine, slot, reel, and whether
        it is a splice. It is at the latest opening of the reels up to it on the tape: the reel
        before it is on the tape by then, and it had not expired, since it was put there in truth.
        """
        mounts = []
        for (machine, slot), tape in self.archive.tapes.items():
            before = GREATEST_LABEL
            for place, reel in enumerate(tape):
                before = min(before, self.exposure[reel.reel])
                mounts.append((before, machine, slot, reel, place > 0))
        return mounts

    def all(self) -> None:
        """Says everything, from the longest exposure on."""
        longest = max(self.exposure.values(), default=0)
        if longest > self.end:
            raise NotCarried("the time of --at is earlier than a reel was opened")
        self.set_up(self.end - longest)
        for before, say in self.moves():
            say(self.end - before)
        if self.messages.minute != self.end:
            self.messages.say(self.end, "ClockSet")

    def set_up(self, minute: int) -> None:
        """What has no time of its own; receipts, and bakes of reels that may be opened only after
        one.
        """
        say, archive = self.messages.say, self.archive
        for part in archive.parts:
            say(minute, "PartDefined", PartNumber=part)
        for part, alternate in archive.alternates:
            say(minute, "AlternateAllowed", PartNumber=part, Alternate=alternate)
        for (product, machine), rows in archive.sheets.items():
            self.messages.say_sheet(minute, product, machine, rows)
        for machine, product in archive.selected.items():
            say(minute, "ProductSelected", Machine=machine, Product=product)
        for reel in archive.reels.values():
            label = {"LabelMinutes": reel.label} if reel.level == "6" else {}
            say(
                minute,
                "ReelReceived",
                Reel=reel.reel,
                PartNumber=reel.part,
                Lot=reel.lot,
                Level=reel.level,
                Quantity=reel.remaining,
                **label,
            )
            if reel.level == "6" and reel.baked:
                say(minute, "ReelBaked", Reel=reel.reel)

    def moves(self) -> list[tuple[int, Callable[[int], None]]]:
        """Openings, mounts and seals in their order, each with how many minutes before the end it
        is.
        """
        told = []
        for name, reel in self.archive.reels.items():
            # of a reel with no floor life that runs it is told only whether it is open
            before = self.exposure[name] if reel.runs() else self.mounted.get(name, 0)
            if (reel.is_open() or before) and before != self.mounted.get(name):
                told.append(
                    (
                        before,
                        0,
                        lambda at, name=name: self.messages.say(at, "ReelOpened", Reel=name),
                    )
                )
            if before and not reel.is_open():
                told.append(
                    (0, 2, lambda at, name=name: self.messages.say(at, "ReelSealed", Reel=name))
                )
        told += [
            (mount[0], 1, lambda at, mount=mount: self.mount(at, *mount[1:]))
            for mount in self.mounts
        ]
        # of one minute: openings before mounts, and seals last; a tape's mounts stay in their order
        told.sort(key=lambda move: (-move[0], move[1]))
        return [(before, say) for before, _, say in told]

    def mount(self, minute: int, machine: str, slot: str, reel: ReelRow, is_splice: bool) -> None:
        """Puts a reel where it is, though the sheet may have changed since it was put there."""
        archive, product = self.archive, self.archive.selected[machine]
        sheet = archive.sheets[product, machine]
        fits = any(
            slot == row[0] and (reel.part == row[1] or (row[1], reel.part) in archive.alternates)
            for row in sheet
        )
        if not fits:
            self.messages.say_sheet(minute, product, machine, [(slot, reel.part, ["X1"])])
        word = "MaterialsSpliced" if is_splice else "MaterialsLoaded"
        self.messages.say(minute, word, Machine=machine, Slot=slot, Reel=reel.reel)
        if not fits:
            self.messages.say_sheet(minute, product, machine, sheet)

    def notes(self) -> Iterator[str]:
        """What the new desk knows and what it doesn't, and where a reel has less than it had."""
        archive = self.archive
        begins = spelled(self.messages.minute or self.end)
        yield (
            f"{archive.commands} commands, until {spelled(archive.minute)}; the new desk begins at"
            f" {begins}"
        )
        carried = f"{len(archive.reels)} reels are carried over"
        yield (
            f"{carried}, {len(archive.spent)} spent ones are not: the new desk takes a new reel of"
            " their names"
        )
        yield (
            f"{len(archive.known)} UniqueIDs are known to the new desk, the last {KNOWN:,} of each"
            " source: a message that the archive has is refused as IdReused"
        )
        if archive.unknown:
            yield (
                f"{archive.unknown:,} older UniqueIDs are not: {KNOWN_IN_ALL:,} are known at most,"
                " and these messages would act again. Let each sender keep one Source"
            )
        if archive.of_others:
            yield (
                f"the tables {', '.join(archive.of_others)} are not the desk's: they stay in the"
                " archive, and the new desk is without them"
            )
        for machine, board in archive.in_work:
            yield (
                f"board {board} is in work on {machine}: the new desk doesn't know what is placed"
                " on it"
            )


def begun(
    archive: DeskTables, checksum: str, at: int | None = None
) -> tuple[list[str | Setup], Carrier]:
    """The messages of a new desk that begins where an archived one with this checksum ended, and
    who tells what is not in them."""
    if archive.minute is None:
        raise NotCarried("it has accepted no command, so there is nothing to carry over")
    end = archive.minute if at is None else min(at, archive.minute)
    messages = Messages(f"begin-{checksum[:model.DIGITS]}", "begin")
    carrier = Carrier(archive, messages, end)
    carrier.all()
    if at is not None and at > end:
        messages.say(at, "ClockSet")
    room = (
        max(0, archive.greatest - len(messages.lines)) // 2
    )  # a desk of few commands has room for its own
    archive.unknown = len(archive.known) - min(room, KNOWN_IN_ALL, len(archive.known))
    archive.known = archive.known[: len(archive.known) - archive.unknown]
    messages.say_known(archive.known)
    return messages.lines, carrier


def setup(uid: str, source: str, stamp: str, body: dict[str, Any]) -> Setup:
    """A sheet as a setup file."""
    rows = [[row["Slot"], row["PartNumber"], " ".join(row["Designators"])] for row in body["Rows"]]
    text = catalogue.csv_text([["slot", "part", "designators"], *rows])
    return Setup(uid, source, stamp, body["Product"], body["Machine"], text.removesuffix("\n"))


def spelled(minute: int) -> str:
    return f"{catalogue.EPOCH + datetime.timedelta(minutes=minute):%Y-%m-%d %H:%M UTC}"
