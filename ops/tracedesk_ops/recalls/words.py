"""The words of tracedesk-recall, and the files that they name."""
from __future__ import annotations

import argparse
import csv
import os
import pathlib
import sys
from typing import NoReturn

from tracedesk_ops import catalogue, options, places, plant, reader_of
from tracedesk_ops.firstlook import Line
from tracedesk_ops.recalls import sets
from tracedesk_ops.recalls.evidence import read_once
from tracedesk_ops.recalls.surveyed import BY_MIRRORS
from tracedesk_ops.recalls.tables import Shipped

SHIPPED = ("board", "customer", "date")  # the columns of a list of shipped boards


def stop(text: str, status: int = 2) -> NoReturn:
    plant.tell(text)
    sys.exit(status)


def parse(text: str | None) -> argparse.Namespace:
    """The words of the command line; `text` is the tool's help."""
    parser = reader_of(text)
    kinds = ("lot", "reel", "board", "where")
    parser.add_argument("kind", choices=kinds, metavar="KIND", help="how the names are meant")
    parser.add_argument(
        "names", nargs="+", type=options.identifier, help="its names, or attributes"
    )
    parser.add_argument(
        "--part", type=options.identifier, help="of lots or attributes, this part alone"
    )
    parser.add_argument("--within", type=pieces, default=0, metavar="PIECES")
    parser.add_argument("--as-of", type=end_of_mirrors, metavar="TIME")
    parser.add_argument("--line", nargs=2, action="append", default=[], metavar=("LINE", "FOLDER"))
    parser.add_argument("--show", choices=("boards", "pieces", "reels", "untraced", "doubtful"))
    for option, metavar in (
        ("shipped", "FILE"),
        ("evidence", "FOLDER"),
        ("key", "FILE"),
    ):
        parser.add_argument(f"--{option}", type=pathlib.Path, metavar=metavar)
    parser.add_argument("--customer", metavar="NAME")
    options.offer_program(parser)
    words = parser.parse_args()
    want_sense(words)
    return words


def pieces(text: str) -> int:
    """A number of pieces."""
    if not text.isascii() or not text.isdecimal() or not 1 <= int(text[:9]) <= 1_000_000:
        raise argparse.ArgumentTypeError(f"{text} is no number from 1 to 1,000,000")
    return int(text)


def end_of_mirrors(text: str) -> int | str:
    """A minute, or that in which the mirrors end."""
    return text if text == BY_MIRRORS else options.minute_of(text)


def want_sense(words: argparse.Namespace) -> None:
    """Stops where some words don't go together."""
    if words.kind == "board" and len(words.names) > 1:
        stop("a recall is of one board: ask for each by itself")
    if words.part and words.kind not in ("lot", "where"):
        stop("--part is of lots and attributes")
    if words.kind == "where":
        try:
            sets.terms_of(words.names)
        except ValueError as fault:
            stop(str(fault))
    if words.customer and not (words.shipped and words.evidence):
        stop("--customer wants --shipped and --evidence")
    if words.evidence and os.path.lexists(words.evidence):
        stop(f"{words.evidence}: it is there already, and nothing is overwritten", 4)
    if words.evidence and not os.path.isdir(words.evidence.absolute().parent):
        stop(f"{words.evidence}: there is no folder for it", 4)


def lines_of(words: argparse.Namespace) -> list[Line]:
    """The lines that are asked: those of the command line, else those of the set-up files."""
    try:
        those = words.line or places.folders()
    except places.NotSetUp as fault:
        stop(str(fault))
    lines = [line_of(name, str(folder)) for name, folder in those]
    for named in ([it.name for it in lines], [str(it.folder) for it in lines]):
        for it in named:
            if named.count(it) > 1:
                stop(f"two lines have the same name or folder, {it}: each is asked once")
    return lines or stop(
        f"no line is named, and none is set up in {places.FOLDER}: --line NAME FOLDER"
    )


def line_of(name: str, path: str) -> Line:
    """A line by its words."""
    if not name or not path:
        stop(f"the line {name} has no name, or no folder: name that of its desk")
    at = pathlib.Path(os.path.abspath(path))  # a link stays one, as in each tool
    if at.exists() and not at.is_dir():
        stop(f"{at} is a file: name the folder of the line {name}")
    return Line(name, at)


def shipped_of(path: pathlib.Path) -> Shipped:
    """The customers and dates of boards in a CSV file; the tool stops if it can't be read."""
    shipped: Shipped = {}
    try:
        text = read_once(path).decode("utf-8-sig")
        header, *rows = [row for row in catalogue.csv_rows(text) if row] or [[]]
    except (OSError, UnicodeDecodeError, csv.Error) as fault:
        stop(f"{path}: it can't be read: {fault}")
    if lacking := [name for name in SHIPPED if name not in header]:
        stop(
            f"{path}: it has no column {', '.join(lacking)}: its first line is {','.join(SHIPPED)}"
        )
    for row in rows:
        if len(row) != len(header):
            stop(f"{path}: {','.join(row)} has more or fewer fields than the first line")
        board, *its = (row[header.index(name)].strip() for name in SHIPPED)
        if not its[0]:
            stop(f"{path}: board {board} has no customer: leave out what was not shipped")
        if its not in shipped.setdefault(board, []):
            shipped[board].append(its)
    return shipped


def key_of(words: argparse.Namespace) -> pathlib.Path | None:
    """The key that signs the evidence; none if no set-up file names one."""
    if not words.evidence:
        return None
    if words.key:
        return pathlib.Path(words.key)
    keys = sorted({its["key"] for its in options.set_ups() if "key" in its})
    if len(keys) > 1:
        stop(
            f"the set-up files in {places.FOLDER} name the keys {', '.join(keys)}: say one by --key"
        )
    return pathlib.Path(keys[0]) if keys else None
