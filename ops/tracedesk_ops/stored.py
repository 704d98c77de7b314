"""Messages to a desk, and the accepted commands of one as messages again.

The table `accepted` keeps each command as one text: its word and its members, with a tab between
each two (crates/desk_types/specs/StoredText.antt). A list is its length and then its elements.
Which members a message has, and in which order, the message classes of the package tracedesk say.

    stored.message("u1", "S", 0, "PartDefined\\tP")
    '{"MessageName":"TraceDesk.PartDefined",..,"MessageBody":{"PartNumber":"P"}}'
"""
from __future__ import annotations

import json
import re
import secrets
from typing import Any

from tracedesk import forms, words

from tracedesk_ops import catalogue, model

Body = dict[str, Any]  # of a message
NUMBER = re.compile(r"0|[1-9][0-9]{0,17}")
BODIES = {kind.WORD: kind for kind in words.MESSAGES}


class NotACommand(Exception):
    """Why a text is no command; the text says so in words."""


class Fields:
    """The fields of a stored text behind its word, taken one by one."""

    def __init__(self, fields: list[str]) -> None:
        self.fields = iter(fields)

    def text(self) -> str:
        try:
            return next(self.fields)
        except StopIteration:
            raise NotACommand("it ends too early") from None

    def number(self) -> int:
        field = self.text()
        if not NUMBER.fullmatch(field):
            raise NotACommand(f"{field!r} stands where a number has to")
        return int(field)

    def value(self, form: forms.Form) -> Any:
        """A member of this form."""
        if isinstance(form, forms.ListOf):
            return [self.value(form.form) for _ in range(self.number())]
        if isinstance(form, forms.Row):
            return self.members(form.kind)
        if isinstance(form, forms.Where):
            return self.value(form.form)
        return self.number() if isinstance(form, forms.Whole) else self.text()

    def members(self, kind: type[forms.Part]) -> Body:
        """The members of a body or of a row in it."""
        said, by_attribute = {}, {}
        for name, attribute, form in kind.MEMBERS:
            by_attribute[attribute] = value = self.value(form)
            if not isinstance(form, forms.Where) or by_attribute[form.other] == form.value:
                said[name] = value
        return said

    def end(self) -> None:
        for field in self.fields:
            raise NotACommand(f"{field!r} stands behind its end")


def body(text: str) -> tuple[str, Body]:
    """The word of a stored text and the body of its message."""
    word, *fields = text.split("\t")
    if word not in BODIES:
        raise NotACommand(f"{word!r} is none of the {len(BODIES)} words")
    rest = Fields(fields)
    said = rest.members(BODIES[word])
    rest.end()
    return word, said


def message(uid: Any, source: Any, own: Any, text: Any) -> str:
    """The line that says a command again, under its UniqueID, its source and its own minute."""
    texts = isinstance(uid, str) and isinstance(source, str) and isinstance(text, str)
    if not texts or not isinstance(own, int):
        raise NotACommand("it has a value that is no text or no number")
    word, said = body(text)
    try:
        return line(uid, source, own, word, said)
    except OverflowError:
        raise NotACommand(f"its minute {own} is in no year to 9999") from None


def line(uid: str, source: str, minute: int, word: str, said: Body) -> str:
    """A message as a line. Its time has no offset, which is UTC to a desk: so the last day of the
    year 9999 is read too.
    """
    envelope = {
        "MessageName": "TraceDesk." + word,
        "UniqueID": uid,
        "Source": source,
        "TimeStamp": catalogue.spelled(minute)[:-1],
        "MessageBody": said,
    }
    return json.dumps(envelope, separators=(",", ":"))


def question(uid: str, minute: int = 0) -> str:
    """A message that every desk refuses, and which tells whether it has accepted the UniqueID, or
    whether the minute is too far ahead of it: it seals a reel that nobody has. Such a refusal is no
    entry of the line's book.
    """
    body = {"Reel": f"none-{secrets.token_hex(16)}"}
    return line(uid, model.SOURCE, minute, "ReelSealed", body)
