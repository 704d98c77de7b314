"""Recalls lots, a board or reels over the desks of lines and all sealed files behind them.

usage: tracedesk-recall lot NAME.. [--part PART] [OPTION]..
       tracedesk-recall board NAME [OPTION]..
       tracedesk-recall reel NAME.. [OPTION]..
       tracedesk-recall where ATTRIBUTE=VALUE.. [--part PART] [OPTION]..
options:                [--line LINE FOLDER]..
                        [--as-of TIME] [--within PIECES] [--show TABLE]
                        [--shipped FILE] [--customer NAME] [--evidence FOLDER [--key FILE]]

examples:
  tracedesk-recall lot L-77            of the lines that are set up on this machine, by
                                       /etc/tracedesk/LINE.conf
  tracedesk-recall lot L-77 L-78 --part CAP-100N
  tracedesk-recall where date_code=2614 --part CAP-100N
  tracedesk-recall lot L-77 --line L1 /var/lib/tracedesk/L1
  tracedesk-recall lot L-77 --shipped shipped.csv --evidence L-77 > boards.csv
  tracedesk-recall lot L-77 --line L1 /mirror/L1 --as-of 2026-03-02T06:00:00Z       a mirror
  tracedesk-recall reel K-01 --show reels

tracedesk-chain reads the sealed files of a line, and a copy of its desk as it is now; copies of all
of them lie in TMPDIR meanwhile. If they are no chain, as when a file is missing, it reads each by
itself. Standard error says what could not be asked, and why: then the answer may lack boards.
tracedesk-chain is the one next to the program, or that of CHAIN in the environment.

A lot is only its name: --part PART leaves out other parts that came in a lot of that name. A reel
that changed lines is followed under its other names. ATTRIBUTE is reel, part, lot, date_code,
supplier, maker_part or order, as the reel's receipt says it. If it is named twice, a reel has one
of the values. A reel whose receipt doesn't say it may be one of them: then the status is 3.

--line          a line's name, and its folder, or a mirror of it: there the newest sealed file
                stands for the desk
--as-of TIME    the answer is complete for what was reported before, if each mirror goes on to it;
                without this option none over a mirror is complete. `mirrors` is the end of the
                oldest mirror, of those of the last two days
--within PIECES  a label may be wrong by so many pieces: those so near a splice that they may be of
                the neighbour are doubtful, from the second splice of a tape on the more
--show TABLE    the table to print as CSV; without it pieces of a board, and boards of a lot or reel
  boards        of each board its pieces, the first and last minute, the lines, overdue, the files
  pieces        each piece: where it is, its reel, machine and slot, and when it was placed
  reels         of the lot or reel the pieces left, in stock or mounted
  untraced      work that the desks refused, on any reel, with the decisions about it
  doubtful      pieces of the lot, reel or board that may be of another reel, and why
--shipped FILE  a CSV file with the columns board,customer,date, which the boards have then
--customer NAME  with --shipped and --evidence: the evidence has the serials of this customer alone,
                also those that hold no piece; one that no line knows makes it incomplete
--evidence FOLDER  a new folder with all of it as CSV, a certificate, checksums and a signature:
                tracedesk-verify verifies it. It gets its name once it is whole
--key FILE      the private key that signs the evidence, as ssh-keygen makes it, or the socket of
                tracedesk-recall-sign; without it the `key` of the line's set-up file, if it has one

Exit status: 0 complete; 1 complete, and nobody knows the name; 2 bad command line, or a list that
can't be read; 3 not complete, for the reasons on standard error; 4 the answer can't be written;
5 complete, and pieces are doubtful; 9 an unexpected failure.
"""
from __future__ import annotations

import argparse
import os
import pathlib

from tracedesk_ops import catalogue, chains, files, places, plant
from tracedesk_ops.firstlook import Line, Question
from tracedesk_ops.recalls import customers, sets, signing, wording, words
from tracedesk_ops.recalls.certificate import certificate
from tracedesk_ops.recalls.evidence import LISTED, contents, listing, read_once, write_evidence
from tracedesk_ops.recalls.recall import Recall
from tracedesk_ops.recalls.surveyed import Surveyed
from tracedesk_ops.recalls.tables import Shipped, Table, tables_of

NICE = 5  # the line beside it goes first
FORMULAS = ("=", "+", "-", "@")  # how a cell begins that a spreadsheet takes for one


def main() -> int:
    asks = words.parse(__doc__)
    with files.Room() as room:
        return answer(asks, pathlib.Path(room))


def listed_in(room: pathlib.Path, question: Question) -> pathlib.Path:
    """A file with the reels of a question, which the desk's owner can read."""
    room.chmod(0o755)
    path = room / LISTED
    path.write_bytes(listing(question))
    path.chmod(0o644)
    return path


def asked(asks: argparse.Namespace, lines: list[Line], room: pathlib.Path) -> Recall:
    """The recall of all lines."""
    those = Surveyed(lines, room, asks.as_of)
    question, faults, notes = sets.question_of(asks.kind, asks.names, asks.part or "", those)
    those.faults += faults
    those.notes += notes
    if not question.names():
        tell(those.faults, those.notes)
        begin = "NOT COMPLETE" if those.faults else "NOT FOUND"
        words.stop(f"{begin}: no reel is one of {question.name}", 3 if those.faults else 1)
    question = question._replace(within=asks.within, as_of=those.as_of)
    chain = chains.Asker(asks.program, question.words(listed_in(room, question)))
    recall = Recall(question, those, chain)
    recall.ask()
    return recall


def answer(asks: argparse.Namespace, room: pathlib.Path) -> int:
    try:
        lines, key = words.lines_of(asks), words.key_of(asks)
    except (plant.Fault, OSError, RuntimeError, ValueError) as fault:
        # of a path: links in a circle, a character that none has
        words.stop(f"the lines can't be read: {fault}")
    shipped = words.shipped_of(asks.shipped) if asks.shipped else None
    os.nice(NICE)
    recall = asked(asks, lines, room)
    if not asks.line:
        recall.notes.append(
            f"by the files of {places.FOLDER} the lines are {', '.join(it.name for it in lines)}:"
            " one without a file there was not asked"
        )
    own = narrowed(recall, asks, shipped) if asks.customer else None
    sentence = customers.sentence(recall, own["serials"]) if own else wording.sentence(recall)
    tables = tables_of(recall, shipped)
    if any(str(it)[:1] in FORMULAS for table in tables.values() for row in table for it in row):
        recall.notes.append(
            "some names begin with =, +, - or @: a spreadsheet takes them for formulas unless you"
            " open the CSV files as text"
        )
    tell(recall.reasons(), recall.notes)
    try:
        write(asks, recall, own or tables, key, sentence)
        shown = asks.show or ("pieces" if asks.kind == "board" else "boards")
        plant.write_out(catalogue.csv_text(tables[shown]))
    except (plant.Fault, signing.NoSignature, OSError) as fault:
        words.stop(f"the answer can't be written: {fault}", 4)
    plant.tell(sentence)
    return recall.status()


def narrowed(recall: Recall, asks: argparse.Namespace, shipped: Shipped | None) -> dict[str, Table]:
    """Narrows a recall to what a customer may see."""
    own = customers.narrow(recall, shipped or {}, asks.customer)
    if len(own["serials"]) == 1:
        words.stop(f"{asks.shipped}: it has no board of the customer {asks.customer}")
    return own


def tell(reasons: list[str], notes: list[str]) -> None:
    """Says why the answer isn't complete, and what a reader has to know."""
    for text in (*(f"NOT COMPLETE: {it}" for it in reasons), *notes):
        plant.tell(text)


def write(
    asks: argparse.Namespace,
    recall: Recall,
    tables: dict[str, Table],
    key: pathlib.Path | None,
    sentence: str,
) -> None:
    """Writes the evidence, if it is asked for."""
    if not asks.evidence:
        return
    told = certificate(recall, tables, sentence)
    if asks.customer:
        customers.hide(told, asks.customer)
    its = contents(told, tables, recall.question)
    if asks.shipped and not asks.customer:
        its["shipped.csv"] = read_once(asks.shipped)
    write_evidence(asks.evidence, its, key)
    if not key:
        plant.tell("the evidence is not signed: a reader can't know who made it (--key)")
