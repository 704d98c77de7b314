"""The words by which the tools of a line are called, and what a line's set-up file says of them."""
from __future__ import annotations

import argparse
import os
import pathlib
import re
import shutil

from tracedesk_ops import catalogue, model, places
from tracedesk_ops.plant import Fault

SET_UP = places.FOLDER


def offer_program(reader: argparse.ArgumentParser) -> None:
    reader.add_argument(
        "--program",
        default=os.environ.get("PROGRAM", "tracedesk"),
        metavar="FILE",
        help="the program (PROGRAM in the environment, else tracedesk)",
    )


def find_program(reader: argparse.ArgumentParser, asked: argparse.Namespace) -> argparse.Namespace:
    """Makes the program's name a path, in the words that it returns; the tool ends where there is
    none.
    """
    asked.program = shutil.which(asked.program)
    if asked.program is None:
        reader.error("there is no program: name it by --program, or PROGRAM in the environment")
    return asked


def set_ups() -> list[dict[str, str]]:
    """The lines that are set up on this machine: of each the words of its file LINE.conf, and what
    it doesn't name.
    """
    try:
        return [its.words() for its in places.lines()]
    except places.NotSetUp as fault:
        raise Fault(str(fault)) from fault


def set_up(reader: argparse.ArgumentParser) -> None:
    """Takes the words of a tool from the line that --line says, by its name or its folder, else
    from the one that is set up on this machine; what the command line says itself counts. Also
    without a set-up file there is `db`, the desk.
    """
    reader.add_argument(
        "--line", metavar="LINE", help="the line's name or folder, where several are set up"
    )
    given = argparse.ArgumentParser(add_help=False, allow_abbrev=False)
    given.add_argument("--line")
    name = given.parse_known_args()[0].line
    try:
        those = set_ups()
    except Fault as fault:
        reader.error(str(fault))
    own = [its for its in those if name in (None, its["line"])]
    if name and "/" in name:
        folder = pathlib.Path(name).absolute()
        own = [its for its in those if its["db"] == str(folder / places.DESK.name)]
        own = own or [{"line": folder.name, "db": str(folder / places.DESK.name)}]
    if len(own) > 1:
        reader.error(
            f"the lines {', '.join(its['line'] for its in own)} are set up in {SET_UP}: say by"
            " --line which it is"
        )
    if name and not own:
        reader.error(f"there is no {SET_UP}/{name}.conf: write it, or say --line FOLDER")
    words: dict[str, object] = dict(own[0]) if own else {}
    db = pathlib.Path(str(words.get("db", places.DESK)))
    words["db"] = db
    reader.set_defaults(**words)


def offer_service(reader: argparse.ArgumentParser) -> None:
    """Adds the words by which a tool stops and starts the desk's service."""
    for word in ("stop", "start"):
        about = f"{word}s the service (by systemctl, the unit of the line)"
        reader.add_argument(f"--{word}", metavar="COMMAND", help=about)


def line_name(text: str) -> str:
    if not re.fullmatch(r"[A-Za-z0-9][A-Za-z0-9._-]*", text) or len(text) > model.LONGEST_NAME:
        raise argparse.ArgumentTypeError("a line's name has letters, digits, '.', '_' and '-'")
    return text


def minute_of(text: str) -> int:
    """The minute of a time of day in UTC; an offset is taken off."""
    try:
        minute = catalogue.minute_of(
            text if re.match(r"\d{4}-\d\d-\d\d[T ]\d\d:\d\d", text) else ""
        )
    except ValueError:
        raise argparse.ArgumentTypeError("a time is written as 2026-03-02T06:00:00Z") from None
    if minute < 0:
        raise argparse.ArgumentTypeError("a time is from 1970 on")
    return minute


def identifier(text: str) -> str:
    """A name of the desk's."""
    if not re.fullmatch(r"[!-~]([ -~]{0,62}[!-~])?", text):
        raise argparse.ArgumentTypeError(
            "a name is 1 to 64 printable ASCII letters, without a space at its ends"
        )
    return text
