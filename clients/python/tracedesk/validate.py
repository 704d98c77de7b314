"""Looks at messages before they are sent. A desk may refuse more: what breaks a rule of the
line.
"""
from __future__ import annotations

import json
import sys
from typing import Any, Callable, Dict, List

from . import forms, words

ENVELOPE = ("MessageName", "UniqueID", "Source", "TimeStamp", "MessageBody")
KINDS = {words.PREFIX + it.WORD: it for it in words.MESSAGES}


def looked_at(line: bytes) -> List[forms.OutOfRange]:
    """The members of a message that nobody reads; OutOfRange, or another ValueError, says what is
    wrong with it first.
    """
    if len(line) > forms.LONGEST_MESSAGE:
        raise ValueError(words.FAULTS["LineTooLong"])
    told = json.loads(line.decode("utf-8"))
    if not isinstance(told, dict):
        raise ValueError("it is no JSON object: a message is one, on a line of its own")
    for it in ENVELOPE:
        if it not in told:
            raise forms.OutOfRange(it, f"it is not there{forms.near(it, told)}")
    name = told["MessageName"]
    if name not in KINDS:
        raise forms.OutOfRange(
            "MessageName", f"there is no message {name!r:.100}{forms.near(str(name), KINDS)}"
        )
    for it in ("UniqueID", "Source"):
        words.NAME.checked(it, told[it])
    forms.stamp(forms.moment(told["TimeStamp"]))
    unread = unread_of(told)
    KINDS[name].of_body(told["MessageBody"], unread)
    return unread


def unread_of(told: Dict[str, Any]) -> List[forms.OutOfRange]:
    return [
        forms.OutOfRange(it[:100], f"a message has no such member{forms.near(it, ENVELOPE)}")
        for it in told
        if it not in ENVELOPE
    ]


def run(file: str, say: Callable[[str], None]) -> int:
    """Says of each line of a file what is wrong with it first, or which members nobody reads."""
    with open(sys.stdin.fileno() if file == "-" else file, "rb", closefd=file != "-") as stream:
        lines = [(number, it.rstrip(b"\r\n")) for number, it in enumerate(stream, 1) if it.strip()]
    wrong = 0
    for number, line in lines:
        try:
            for unread in looked_at(line):
                say(f"line {number}: warning: {unread}")
        except (ValueError, RecursionError) as fault:
            wrong += 1
            say(f"line {number}: {fault}")
    say(f"{len(lines)} messages, {wrong} of them wrong")
    return 1 if wrong else 0
