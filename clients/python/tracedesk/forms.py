"""What a member may be, and what messages are made of. Each range is looked at when a message is
made, before it is sent.
"""
from __future__ import annotations

import dataclasses
import datetime
import difflib
import json
import re
import sys
import uuid
from typing import Any, ClassVar, Dict, Iterable, List, Optional, Protocol, Sequence
from typing import Tuple, Type, TypeVar

from . import limits

EARLIEST = datetime.datetime(1970, 1, 1, tzinfo=datetime.timezone.utc)
LATEST = datetime.datetime(9999, 12, 30, 22, tzinfo=datetime.timezone.utc)
LONGEST_MESSAGE = limits.LONGEST_INPUT
TIME = re.compile(r"(\d{4}-\d\d-\d\d)[Tt ](\d\d:\d\d)(?::(\d\d)(?:[.,]\d+)?)?([Zz]|[+-]\d\d:\d\d)?")
WRITTEN = "write it as 2026-03-02T06:00:00Z, or with an offset, as 2026-03-02T07:00:00+01:00"


class OutOfRange(ValueError):
    """A member that a desk would not take; `member` is its name in the message."""

    def __init__(self, member: str, why: str) -> None:
        super().__init__(f"{member}: {why}")
        self.member = member


class Form(Protocol):
    """What a member may be."""

    def checked(self, member: str, value: Any) -> Any:
        """The value, or OutOfRange."""


@dataclasses.dataclass(frozen=True)
class Text:
    """A text of at most so many characters, of this pattern."""

    longest: int
    pattern: str
    said: str

    def checked(self, member: str, value: Any) -> Any:
        if (
            not isinstance(value, str)
            or len(value) > self.longest
            or not re.fullmatch(self.pattern.strip("^$"), value)
        ):
            raise OutOfRange(member, f"{value!r:.100} is not {self.said}")
        return value


@dataclasses.dataclass(frozen=True)
class Whole:
    """A whole number."""

    least: int
    greatest: int

    def checked(self, member: str, value: Any) -> Any:
        if (
            not isinstance(value, int)
            or isinstance(value, bool)
            or not self.least <= value <= self.greatest
        ):
            raise OutOfRange(
                member,
                f"{value!r:.100} is not a whole number from {self.least:,} to {self.greatest:,}",
            )
        return int(value)


@dataclasses.dataclass(frozen=True)
class OneOf:
    """One of a few texts."""

    texts: Tuple[str, ...]

    def checked(self, member: str, value: Any) -> Any:
        if not isinstance(value, str) or value not in self.texts:
            raise OutOfRange(member, f"{value!r:.100} is none of the texts {', '.join(self.texts)}")
        return value


@dataclasses.dataclass(frozen=True)
class ListOf:
    """A list of one to so many."""

    form: Form
    most: int

    def checked(self, member: str, value: Any) -> Any:
        if (
            isinstance(value, (str, bytes, dict))
            or not isinstance(value, Sequence)
            or not 1 <= len(value) <= self.most
        ):
            raise OutOfRange(
                member, f"it is not a list of 1 to {self.most:,}: tell of more in several messages"
            )
        return tuple(self.form.checked(member, it) for it in value)


@dataclasses.dataclass(frozen=True)
class Row:
    """A row of a list, which was looked at when it was made."""

    kind: Type["Part"]

    def checked(self, member: str, value: Any) -> Any:
        if not isinstance(value, self.kind):
            raise OutOfRange(member, f"{value!r:.100} is no {self.kind.__name__}")
        return value


@dataclasses.dataclass(frozen=True)
class Where:
    """A member that is read where another one is this, and left out of the message elsewhere."""

    other: str
    value: str
    form: Form

    def checked(self, member: str, value: Any) -> Any:
        return self.form.checked(member, value)


@dataclasses.dataclass(frozen=True)
class ForEach:
    """A list with a value, or None, for each element of another list."""

    other: str
    form: Form

    def checked(self, member: str, value: Any) -> Any:
        if isinstance(value, (str, bytes, dict)) or not isinstance(value, Sequence):
            raise OutOfRange(member, f"{value!r:.100} is no list")
        return tuple(None if it is None else self.form.checked(member, it) for it in value)


Members = Tuple[Tuple[str, str, Form], ...]
Its = TypeVar("Its", bound="Part")


def form_of(kind: str, names: Dict[str, Any], of: Tuple[str, ...]) -> Form:
    """The form of a member whose type is written so. Quantity is of the form QUANTITY, and a row's
    type is its class; `of` is what another member has to be, or of which it has a value for each.
    """
    inner = re.fullmatch(r"(Optional|Sequence)\[(.*)\]", kind)
    if not inner:
        form: Form = names[kind.upper()] if kind.upper() in names else Row(names[kind])
        return form
    if inner[1] == "Sequence":
        return ListOf(form_of(inner[2], names, ()), names["LONGEST_LIST"])
    if len(of) == 1:
        return ForEach(of[0], form_of(re.sub(r"Sequence|Optional|[][]", "", kind), names, ()))
    form = form_of(inner[2], names, ())
    return Where(of[0], of[1], form) if of else form


class Part:
    """A body, or a row of one: its members by name, by attribute, and their forms; and those beside
    them, which the desk skips and others read. All follow from the types of its attributes.
    """

    MEMBERS: ClassVar[Members] = ()
    BESIDE: ClassVar[Members] = ()
    OF: ClassVar[Dict[str, Tuple[str, ...]]] = {}  # members that are read by another one

    def __init_subclass__(cls) -> None:
        names, found = vars(sys.modules[cls.__module__]), []
        for attribute, kind in cls.__dict__.get("__annotations__", {}).items():
            if not kind.startswith("ClassVar"):
                form = form_of(kind, names, cls.OF.get(attribute, ()))
                found.append((attribute.title().replace("_", ""), attribute, form))
        is_beside = [hasattr(cls, it) and not isinstance(form, Where) for _, it, form in found]
        cls.MEMBERS = tuple(it for it, beside in zip(found, is_beside) if not beside)
        cls.BESIDE = tuple(it for it, beside in zip(found, is_beside) if beside)

    def __post_init__(self) -> None:
        for name, attribute, form in self.MEMBERS:
            given = getattr(self, attribute)
            if isinstance(form, Where) and getattr(self, form.other) != form.value:
                given = None
            else:
                given = form.checked(name, given)
            object.__setattr__(self, attribute, given)
        for name, attribute, form in self.BESIDE:
            given = getattr(self, attribute)
            if given is not None:
                object.__setattr__(self, attribute, form.checked(name, given))
                count = len(getattr(self, form.other)) if isinstance(form, ForEach) else 0
                if isinstance(form, ForEach) and len(given) != count:
                    raise OutOfRange(name, f"it has {len(given)} elements for {count} pieces")

    @classmethod
    def of_body(cls: Type[Its], body: Any, unread: Optional[List[OutOfRange]] = None) -> Its:
        """What a body says; OutOfRange where it lacks a member. One that nobody reads is added to
        `unread`, or is OutOfRange too.
        """
        if not isinstance(body, dict):
            raise OutOfRange("MessageBody", f"{body!r:.100} is no object")
        its = {name: (attribute, form) for name, attribute, form in (*cls.MEMBERS, *cls.BESIDE)}
        for name in (it for it in body if it not in its):
            fault = OutOfRange(
                str(name)[:100], f"{cls.__name__} has no such member{near(name, its)}"
            )
            if unread is None:
                raise fault
            unread.append(fault)
        for name, attribute, form in cls.MEMBERS:
            if name not in body and not isinstance(form, Where):
                raise OutOfRange(name, f"it is not there{near(name, body)}")
        given = {
            name: of_json(its[name][1], it, unread) for name, it in body.items() if name in its
        }
        return cls(**{its[name][0]: it for name, it in given.items()})

    def body(self) -> Dict[str, Any]:
        """The members as they stand in a message."""
        its = (*self.MEMBERS, *self.BESIDE)
        found = {name: getattr(self, attribute) for name, attribute, _ in its}
        return {name: shown(it) for name, it in found.items() if it is not None}


def of_json(form: Form, value: Any, unread: Optional[List[OutOfRange]]) -> Any:
    """A member as its constructor takes it: rows are objects."""
    if isinstance(form, ListOf) and isinstance(form.form, Row) and isinstance(value, list):
        return [form.form.kind.of_body(it, unread) for it in value]
    return value


def near(name: str, names: Iterable[str]) -> str:
    """Asks whether another name is meant, if one is much like it."""
    found = difflib.get_close_matches(name, list(names), 1, 0.6)
    return f"; is {found[0]} meant?" if found else ""


def shown(value: Any) -> Any:
    if isinstance(value, tuple):
        return [it.body() if isinstance(it, Part) else it for it in value]
    return value


def moment(
    text: Any, zone: Optional[datetime.tzinfo] = None, member: str = "TimeStamp"
) -> datetime.datetime:
    """The moment of a time of RFC 3339, or of one without an offset in this zone."""
    told = TIME.fullmatch(text) if isinstance(text, str) else None
    if not told or not (told[4] or zone):
        raise OutOfRange(member, f"{text!r:.100} is no time with its offset: {WRITTEN}")
    offset = (told[4] or "").upper().replace("Z", "+00:00")
    try:
        at = datetime.datetime.fromisoformat(f"{told[1]}T{told[2]}:{told[3] or '00'}{offset}")
    except ValueError as fault:
        raise OutOfRange(member, f"{text} is in no calendar ({fault}): {WRITTEN}") from None
    return at if offset else at.replace(tzinfo=zone)


def stamp(at: Optional[datetime.datetime]) -> str:
    """A time as a message has it: now, or a moment that knows its offset."""
    moment = at or datetime.datetime.now(datetime.timezone.utc)
    if moment.tzinfo is None:
        raise OutOfRange(
            "TimeStamp", "a time without an offset is another minute elsewhere: give it tzinfo"
        )
    if not EARLIEST <= moment <= LATEST:
        raise OutOfRange(
            "TimeStamp", f"{moment} is not from {EARLIEST:%Y-%m-%d} to {LATEST:%Y-%m-%d %H:%M}"
        )
    return moment.astimezone(datetime.timezone.utc).strftime("%Y-%m-%dT%H:%M:%SZ")


@dataclasses.dataclass(frozen=True)
class Message:
    """A message that is made: what names it, and its bytes, which stay the same when it is sent
    again.
    """

    word: str
    unique_id: str
    text: bytes


class Command(Part):
    """One of the seventeen messages."""

    WORD: ClassVar[str] = ""

    def __init_subclass__(cls) -> None:
        super().__init_subclass__()
        cls.WORD = cls.__name__

    def message(
        self,
        source: str,
        *,
        unique_id: Optional[str] = None,
        at: Optional[datetime.datetime] = None,
    ) -> Message:
        """The message of this sender, of now and with a UniqueID of its own where none are
        given.
        """
        from . import words

        uid = words.NAME.checked("UniqueID", str(uuid.uuid4()) if unique_id is None else unique_id)
        envelope = {
            "MessageName": words.PREFIX + self.WORD,
            "UniqueID": uid,
            "Source": words.NAME.checked("Source", source),
            "TimeStamp": stamp(at),
            "MessageBody": self.body(),
        }
        text = json.dumps(envelope, separators=(",", ":")).encode()
        if len(text) > LONGEST_MESSAGE:
            raise OutOfRange(
                self.MEMBERS[-1][0],
                (
                    f"the message has {len(text):,} bytes, and a desk takes {LONGEST_MESSAGE:,}:"
                    " tell it in several"
                ),
            )
        return Message(self.WORD, uid, text)
