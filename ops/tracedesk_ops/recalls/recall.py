"""A recall: a lot, reel or board is asked of all files of lines, and of no running desk."""
from __future__ import annotations

import collections
import concurrent.futures
import os
import sqlite3
from collections.abc import Iterable, Iterator, Sequence
from typing import Any, NamedTuple

from tracedesk_ops import catalogue, chains, doubts, firstlook, model, plant, sealed, untraced
from tracedesk_ops.firstlook import Line, Piece, Question, ReelLeft
from tracedesk_ops.recalls.surveyed import Surveyed

RUNNING = catalogue.RUNNING
NO_ANSWER = (chains.NoAnswer, plant.Fault, OSError)


class Asked(NamedTuple):
    """A file of a line with its pieces as tracedesk-chain names them, or why there is no answer."""

    line: str
    file: catalogue.Archive
    pieces: list[dict[str, Any]]
    why: str = ""


class Answered(NamedTuple):
    """The files of a line, why they are no chain, and links known by their checksums alone."""

    files: list[Asked]
    fault: Exception | None = None
    options: Sequence[str] = ()


class Recall:
    """A question with what came of it: `faults` are why the answer isn't complete, each with what
    to do, and `notes` what a reader has to know besides.
    """

    def __init__(self, question: Question, those: Surveyed, chain: chains.Asker) -> None:
        self.question, self.those, self.chain = question, those, chain
        self.lines, self.files = those.lines, those.files
        self.minute = those.minute
        self.known = False
        self.pieces: list[Piece] = []
        self.reels: list[ReelLeft] = []
        self.asked: list[Asked] = []
        self.faults = [*those.faults]
        self.notes = [*those.notes]
        self.chains: set[str] = set()  # lines whose files are one
        self.untraced: list[list[str]] = []
        self.doubtful: list[list[str]] = []

    def ask(self) -> None:
        with concurrent.futures.ThreadPoolExecutor(os.cpu_count()) as threads:
            answers = list(threads.map(self.answered, self.lines))
        for line, answer in zip(self.lines, answers):
            self.take(line, answer)
            if not self.those.is_as_before(line):
                self.faults.append(
                    f"{line.folder}: its files were changed meanwhile, as by a roll-over or a"
                    " restore: ask again"
                )
            self.look_for_untraced(line)
        self.pieces.sort(key=lambda it: (it.board, it.line, it.designator))
        self.reels.sort(key=lambda it: (it[:-1], -1 if it.minute is None else it.minute))
        self.faults += twice(self.pieces)

    def answered(self, line: Line) -> Answered:
        """What tracedesk-chain answers about the files of a line, from the oldest on. If they are
        no chain, it is asked about each by itself.
        """
        its = [Asked(line.name, file, []) for file in self.files[line.name]]
        try:
            answer = self.said_of(its) if its else chains.NOTHING
            return Answered(its, options=answer.options)
        except NO_ANSWER as fault:
            return Answered([*map(self.alone, its)], fault)

    def said_of(self, those: list[Asked], is_middle: bool = False) -> chains.Answer:
        """What tracedesk-chain answers about files, each of which gets its pieces."""
        paths = [it.file.path for it in those]
        digits = [it.file.sha256[: model.DIGITS] for it in those]
        answer = self.chain.ask(paths, digits, is_middle)
        for row in answer.rows:
            those[row.pop("file")].pieces.append(row)
        return answer

    def alone(self, its: Asked) -> Asked:
        """A file that is asked by itself."""
        try:
            self.said_of([its], is_middle=True)
        except NO_ANSWER as fault:
            return its._replace(why=str(fault))
        return its

    def take(self, line: Line, answer: Answered) -> None:
        """Takes what was answered about a line's files."""
        if answer.fault:
            self.refused(line, answer.fault)
        else:
            self.chains.add(line.name)
        self.notes += [
            f"{line.name}: {it}: as by a roll-over with an option. Its checksum alone shows that it"
            " went on from the one before it"
            for it in answer.options
        ]
        self.asked += answer.files
        for its in answer.files:
            for row in its.pieces:
                row |= {"minute": int(row["minute"]), "line": line.name, "file": its.file.file}
                self.pieces.append(Piece(**row))
            try:
                with sealed.opened(its.file.path) as database:
                    self.look_into(database, line, its.file, its is answer.files[-1])
            except sqlite3.Error as fault:
                self.faults.append(f"{line.name}: {its.file.file}: {fault}")

    def look_into(
        self, database: sqlite3.Connection, line: Line, file: catalogue.Archive, is_newest: bool
    ) -> None:
        """Takes whether a file knows the name, and what is left of it by the newest one."""
        self.known |= firstlook.is_known(database, self.question)
        if is_newest:
            minute = None if file.file == RUNNING else file.last_minute
            self.reels += firstlook.left_in(database, line, self.question, minute)

    def refused(self, line: Line, fault: Exception) -> None:
        """Takes why there is no answer about a line's chain."""
        text = f"{line.name}: tracedesk-chain gives no answer: {fault}"
        if getattr(fault, "status", None) in (chains.NO_CHAIN, chains.BEGUN):
            text = (
                f"{line.name}: its files are no chain: {fault}. {line.folder} lacks a file, or has"
                " another one in its place: take it from a mirror"
            )
        self.faults.append(text)

    def look_for_untraced(self, line: Line) -> None:
        """What is around a line's files: work that a desk refused, what was decided about it, and
        the pieces of the question that may be of another reel.
        """
        name = line.name
        paths = [it.path for it in self.files[name]]
        its = doubts.look(line.folder, paths, self.question)
        self.faults += its.faults
        for it, by, reels in its.works:
            said = untraced.said(it)[2:9]
            self.untraced.append([name, *said, it.id, reels, *untraced.outcome(by)])
        pieces = its.tapes.concerning(self.question, its.pieces)
        self.doubtful += [[name, *it.row()] for it in pieces]

    def undecided(self) -> list[list[str]]:
        return [row for row in self.untraced if not row[-2]]

    def reasons(self) -> list[str]:
        """Why the answer isn't complete, and what to do."""
        undecided = collections.Counter(row[0] for row in self.undecided())
        return self.faults + [
            f"{line}: nobody decided about {number} reports of work that its desk refused: decide"
            " about each in the table untraced"
            for line, number in undecided.items()
        ]

    def status(self) -> int:
        if self.reasons():
            return 3
        return 5 if self.doubtful else 0 if self.known else 1


def twice(pieces: Iterable[Piece]) -> Iterator[str]:
    """What is wrong if a place of a board is there twice on a line, or off one reel on any: no desk
    places it again.
    """
    first: dict[tuple[str, ...], Piece] = {}
    for it in pieces:
        for of in (("line", it.line), ("reel", it.reel)):
            other = first.setdefault((it.board, it.designator, *of), it)
            if other is not it:
                yield (
                    f"{it.designator} of board {it.board} is placed twice, by {other.file} of"
                    f" {other.line} and by {it.file} of {it.line}: they are copies, or a board's"
                    " name came again. Have them looked at"
                )
                return
