"""What is around a line's traces: untraced work, and pieces that may be of another reel than the
desk has it (tapes.py). For ops/tracedesk-recall and ops/tracedesk-plant-load.

A board whose report the line's server refused, or of which a machine names another reel, stays in
doubt whatever somebody decides about it, unless it was scrapped.
"""
from __future__ import annotations

import contextlib
import functools
import json
import pathlib
import sqlite3
import time
from collections.abc import Callable, Iterable, Iterator
from typing import NamedTuple

from tracedesk import records
from tracedesk_ops import catalogue, files, model, splices, untraced
from tracedesk_ops.catalogue import minute_of
from tracedesk_ops.firstlook import Question
from tracedesk_ops.sealed import FilesFault
from tracedesk_ops.tapes import LOADED, DoubtfulPiece, Refusal, Tapes, Work
from tracedesk_ops.untraced import Decision, Noted

Opener = Callable[[], contextlib.AbstractContextManager[sqlite3.Connection]]
Decisions = dict[str, Decision]  # the newest one about each entry, by its id
DIFFERS = "the machine names another reel"
UNKNOWN = f"{DIFFERS}, which the desk doesn't know"
UNCOMPARED = "the machine's reels can't be compared with the desk's"
KEPT = "worked though the desk refused it, and not scrapped"
TAKEN_OFF = "taken off"  # what became of a refused reel from which nothing was placed
# why a load is refused whose slot is empty
OF_AN_EMPTY_SLOT = "UnknownReel ReelMounted ReelEmpty WrongPart NotBaked Expired".split()
NO_PIECES = ("MaterialsScrapped", "WorkCompleted")  # reports that place none on a board
LONGEST = 1 << 20  # bytes of a sender's status
OLDER = ("sealed/untraced.csv", "untraced/*.json")  # in the folder of a line of 1.0.0


class Doubts(NamedTuple):
    """What is known of a line besides its traces: untraced work, each with its decision or none and
    the reels that were on its machine; pieces in doubt; and what could not be looked at."""

    works: list[tuple[Noted, Decision | None, str]]
    pieces: list[DoubtfulPiece]
    faults: list[str]
    tapes: Tapes


def look(
    folder: pathlib.Path, paths: Iterable[pathlib.Path], question: Question | None = None
) -> Doubts:
    """Looks at what is around a line's files, which are in the order of their chain, and what their
    books say; at splices if a question has a tolerance.
    """
    tapes, books = Tapes(), untraced.Books()
    pieces: list[DoubtfulPiece] = []
    faults = [*older(folder), *waiting(folder / model.STATUS)]
    try:
        files: dict[str, Opener] = {
            it.name: functools.partial(catalogue.unchanged, it) for it in paths
        }
        read(files, tapes, books)
        works = map(work_of, filter(untraced.is_work, books.entries))
        tapes.judge(refusals_of(books.entries, books.decisions), works)
        pieces = [*placed(tapes, files), *told(tapes, books.entries, books.decisions)]
        if question and question.within:
            pieces += splices.near(tapes, files, tapes.asked(question), question.within)
    except (catalogue.CatalogueError, FilesFault, OSError, sqlite3.Error) as fault:
        faults.append(f"{folder}: whether pieces may be of other reels isn't known: {fault}")
    pieces.sort(key=lambda it: (it.minute, it.board, it.designator))
    return Doubts([*worked(tapes, books)], pieces, faults, tapes)


def worked(tapes: Tapes, books: untraced.Books) -> Iterator[tuple[Noted, Decision | None, str]]:
    """Untraced work, and what was decided about boards of which a machine names other reels."""
    decided = books.decisions
    for it in books.entries:
        if untraced.is_work(it):
            yield it, decided.get(it.id), tapes.reels_on(work_of(it))
        elif untraced.is_contradiction(it) and it.id in decided:
            yield it, decided[it.id], it.reel


def older(folder: pathlib.Path) -> Iterator[str]:
    """Untraced work that a line of 1.0.0 had: no book has it, and no recall reads it any more."""
    for path in (path for name in OLDER for path in sorted(folder.glob(name))[:1]):
        yield (
            f"{path}: it has untraced work of 1.0.0, which recalls don't read any more: look what"
            " became of its boards, then move it away"
        )


def read(files: dict[str, Opener], tapes: Tapes, books: untraced.Books) -> None:
    """Reads a line's files, of which one is open at a time: there may be many."""
    for name, opened in files.items():
        with opened() as database:
            tapes.read(name, database)
            books.read(name, database)


def placed(tapes: Tapes, files: dict[str, Opener]) -> Iterator[DoubtfulPiece]:
    """The pieces of tapes in doubt."""
    for place, opened in enumerate(files.values()):
        with opened() as database:
            yield from tapes.pieces(place, database)


def told(tapes: Tapes, those: Iterable[Noted], decided: Decisions) -> Iterator[DoubtfulPiece]:
    """Those in doubt by what machines name, and by what was decided."""
    for it in those:
        by = decided.get(it.id)
        if untraced.is_contradiction(it) and (by is None or untraced.is_shipped(by)):
            yield from contradicted(tapes, it)
        elif untraced.is_work(it) and untraced.is_shipped(by):
            yield from kept(tapes, it)


def contradicted(tapes: Tapes, it: Noted) -> Iterator[DoubtfulPiece]:
    """The pieces of which a machine names another reel than the desk, or none that can be compared.
    They are of one of the two, if the desk knows both.
    """
    its = it.entry
    is_known = its.reel in tapes.cards
    why = f"{DIFFERS if is_known else UNKNOWN if its.reel else UNCOMPARED} ({it.id})"
    for name in it.designators:
        where = its.board, name, its.machine, "", it.done or 0
        piece = tapes.piece(where, it.reel, [its.reel], why)
        yield piece._replace(parts=frozenset()) if is_known else piece


def kept(tapes: Tapes, it: Noted) -> Iterator[DoubtfulPiece]:
    """A board that was worked though the desk refused the report, and is no scrap: it may have each
    reel that was on the machine, or refused on its tape.
    """
    if it.word not in NO_PIECES:
        work = work_of(it)
        reels = [reel for tape in tapes.during(work) for reel in tape.reels]
        where = untraced.said(it)[4], "", work.machine, work.slot, work.first
        yield tapes.piece(where, "", reels, f"{KEPT} ({it.id})")


# --- What was refused


def refusals_of(those: Iterable[Noted], decided: Decisions) -> Iterator[Refusal]:
    """The loads, splices and unloads that were refused, but those of which somebody decided that
    the reel was taken off.
    """
    for it in filter(untraced.is_handling, those):
        by, why = decided.get(it.id), it.entry.word
        if not (by and by.became == TAKEN_OFF):
            work = work_of(it)
            was_empty = why in OF_AN_EMPTY_SLOT if it.word == LOADED else why == "SlotEmpty"
            at = work.last if it.done is None else it.done
            yield Refusal((work.machine, work.slot), at, it.text("Reel"), it.id, was_empty)


def work_of(it: Noted) -> Work:
    designators, quantity = it.body.get("Designators"), it.body.get("Quantity")
    count = quantity if isinstance(quantity, int) and not isinstance(quantity, bool) else 0
    if isinstance(designators, list):
        count = len(designators)
    minutes = it.minutes() or [0, 1 << 40]
    machine = it.entry.machine or it.text("Machine")
    return Work(machine, it.text("Slot"), count, minutes[0], minutes[-1])


# --- Senders


def waiting(folder: pathlib.Path) -> Iterator[str]:
    """Senders that hold messages for more than a minute, by what they say of themselves. One that
    said so last and died holds them still.
    """
    for file in sorted(folder.glob("[!.]*.json")) if folder.is_dir() else ():
        try:
            told = json.loads(records.shallow(files.read_plain(file, LONGEST)))
            oldest = told.get("OldestWaiting")
            now = time.time() // 60  # or later, if this machine's clock was set back
            if oldest and max(now, minute_of(told["At"])) - minute_of(oldest) > 1:
                yield (
                    f"{file}: {told['Waiting']} messages wait at {told['Sender']} since {oldest},"
                    " and the desk doesn't have them: ask again once they are sent"
                )
        except FileNotFoundError:
            continue
        except (OSError, ValueError, TypeError, AttributeError, LookupError) as fault:
            yield (
                f"{file}: whether its sender holds messages can't be read: {fault!r}. Start that"
                " sender, or take the file away if there is none"
            )
