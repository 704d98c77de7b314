"""What a person does with a spool: puts messages in, looks at them, and has them sent again."""
from __future__ import annotations

import argparse
import json
import sys
from typing import Any, Dict, List

from . import answers, disk, forms, spool
from .console import say, tell

STATES = ("waiting", "sent", "aside", "dropped")  # of messages


def put(into: spool.Spool, file: str) -> int:
    with open(sys.stdin.fileno() if file == "-" else file, "rb", closefd=file != "-") as stream:
        count = sum(bool(into.put(it)) for it in disk.lines_of(stream))
    say(f"{count} put into {into.path}, {len(into.names())} wait")
    return 0


def listed(into: spool.Spool, state: str) -> int:
    """Prints the messages of a state, each as a line of JSON with its answer."""
    which = "" if state == "all" else "WHERE state = ?"
    for it in into.all(which, *([state] if which else [])):
        told: Dict[str, Any] = {}
        if it.answer:
            told["Answer"] = answers.read_object(it.answer.text)
            told.update({"Archived": True} if answers.is_archived(it.answer) else {})
        told["Message"] = it.name
        told.update({"Why": it.why} if it.why else {})
        say(json.dumps(told, separators=(",", ":")))
    return 0


def show(into: spool.Spool, names: List[str]) -> int:
    """Prints messages as they are: by their names, or those of a state."""
    for name in into.names(names[0]) if names[0] in STATES else names:
        sys.stdout.buffer.write(into.text(name) + b"\n")
    sys.stdout.flush()
    return 0


def give_up(into: spool.Spool, names: List[str], feeders: List[str]) -> int:
    """Is done with messages that were set aside, and with who feeds the spool no more."""
    into.drop(names)
    for it in feeders:
        into.release(it)
    return 0


def again(asked: argparse.Namespace, into: spool.Spool) -> int:
    """Has requests sent again, or all that was accepted since a time. No report of work that was
    refused is."""
    names: List[str] = asked.again
    if len(names) == 1 and forms.TIME.fullmatch(names[0]):
        found = into.again_since(forms.moment(names[0], member="--again").timestamp())
        say(
            f"{len(found)} wait again, before those that wait"
            + (
                f": {found[0]} to {found[-1]}"
                if found
                else f": {into.path} has none that was sent since then"
            )
        )
        return 0
    names = into.names("aside") if names == ["all"] else names
    reports = [it for it in names if into.is_report(it)]
    found = into.again(it for it in names if it not in reports)
    say(f"{len(found)} wait again{', as ' + ' '.join(found) if found else ''}")
    for it in reports:
        answer, word = into.kept(it).answer, answers.word_of(into.message(it))
        why = answers.short(answer) if answer else "too long"
        tell(f"message {it} is a report of work, and is not sent again: {word} was {why}")
    if reports:
        tell(
            f"{len(reports)} reports of work stay in {into.path}: the boards are untraced work."
            " Decide about their entries in the line's book (docs/line.md)"
        )
    return 6 if reports else 0
