"""What a desk answers, as data; and what each status asks of a sender: it is an answer, or again,
or stop and tell a person.
"""
from __future__ import annotations

import dataclasses
import difflib
import enum
import json
from typing import Any, Dict, Optional, Tuple, Union

from . import words


@dataclasses.dataclass(frozen=True)
class Accepted:
    """The command is kept, as the one of this number. At level 1 `minutes_left` is none too."""

    number: int
    unique_id: str
    minutes_left: Optional[int] = None
    reels: Tuple[str, ...] = ()
    taken: Optional[int] = None
    text: bytes = dataclasses.field(default=b"", compare=False, repr=False)


@dataclasses.dataclass(frozen=True)
class Refused:
    """The command breaks a rule, `at` what is at fault; nothing was kept. `number` is that of a
    UniqueID that was used.

    `archived` is set by Desk.send: the message itself was accepted before the desk was begun anew.
    """

    refusal: str
    unique_id: str
    at: Optional[str] = None
    number: Optional[int] = None
    archived: bool = False
    text: bytes = dataclasses.field(default=b"", compare=False, repr=False)


@dataclasses.dataclass(frozen=True)
class Ignored:
    """The message is none of the desk's; nothing was done."""

    message_name: str
    text: bytes = dataclasses.field(default=b"", compare=False, repr=False)

    @property
    def is_mistyped(self) -> bool:
        """Whether it was meant for the desk: its name begins as the desk's do."""
        return self.message_name.startswith(words.PREFIX)


@dataclasses.dataclass(frozen=True)
class Faulty:
    """The message, file or request is none; nothing was done."""

    fault: str
    member: Optional[str] = None
    line: Optional[int] = None
    column: Optional[int] = None
    text: bytes = dataclasses.field(default=b"", compare=False, repr=False)


@dataclasses.dataclass(frozen=True)
class NotFound:
    """There is no such board, lot, reel, machine or sheet."""

    kind: str
    text: bytes = dataclasses.field(default=b"", compare=False, repr=False)


@dataclasses.dataclass(frozen=True)
class Unavailable:
    """Memory or the database was refused; nothing was changed."""

    text: bytes = dataclasses.field(default=b"", compare=False, repr=False)


Answer = Union[Accepted, Refused, Ignored, Faulty, NotFound, Unavailable]
KINDS: Dict[str, Any] = {
    it.__name__: it for it in (Accepted, Refused, Ignored, Faulty, NotFound, Unavailable)
}
MEMBERS = {
    "Number": "number",
    "UniqueID": "unique_id",
    "MinutesLeft": "minutes_left",
    "Reels": "reels",
    "Taken": "taken",
    "Refusal": "refusal",
    "At": "at",
    "MessageName": "message_name",
    "Fault": "fault",
    "Member": "member",
    "Line": "line",
    "Column": "column",
    "Kind": "kind",
}


def no_number(text: str) -> None:
    raise ValueError(f"{text} is no number of JSON")


def read_object(text: bytes) -> Dict[str, Any]:
    """A JSON object; empty where the text is none. NaN and Infinity are no JSON."""
    try:
        told = json.loads(text, parse_constant=no_number)
    except (ValueError, RecursionError):
        return {}
    return told if isinstance(told, dict) else {}


def read(text: bytes, archived: bool = False) -> Optional[Answer]:
    """The answer that a text is, or none: an answer is one line."""
    told = read_object(text)
    kind = KINDS.get(told.get("Answer", "")) if isinstance(told.get("Answer", ""), str) else None
    if kind is None or b"\n" in text:
        return None
    found = {
        MEMBERS[name]: tuple(it) if isinstance(it, list) else it
        for name, it in told.items()
        if name in MEMBERS
    }
    if archived:
        found["archived"] = True
    try:
        return kind(**found, text=text)  # type: ignore[no-any-return]  # its kind
    except TypeError:
        return None


def word_of(told: Dict[str, Any]) -> str:
    """The message kind of a message; empty if it is none of the desk's."""
    return str(told.get("MessageName", "")).partition(words.PREFIX)[2]


def body_of(told: Dict[str, Any]) -> Dict[str, Any]:
    body = told.get("MessageBody")
    return body if isinstance(body, dict) else {}


def is_archived(answer: Answer) -> bool:
    """Whether the message was accepted before the desk was begun anew."""
    return isinstance(answer, Refused) and answer.archived


def is_taken(answer: Answer) -> bool:
    """Whether nothing is left to do: it is accepted, now or before a roll-over, or of a vocabulary
    that is not the desk's.
    """
    return (
        isinstance(answer, Accepted)
        or is_archived(answer)
        or isinstance(answer, Ignored)
        and not answer.is_mistyped
    )


def is_of(answer: Answer, message: bytes) -> bool:
    """Whether the answer names this message. A proxy may give away the answer to another one."""
    told = read_object(message)
    if isinstance(answer, (Accepted, Refused)):
        return bool(answer.unique_id == told.get("UniqueID"))
    return not isinstance(answer, Ignored) or bool(answer.message_name == told.get("MessageName"))


def question(message: bytes) -> bytes:
    """A message that a desk accepts if it has accepted this one, or the one of its archive with the
    same UniqueID: after IdReused alone.
    """
    told = read_object(message)
    return json.dumps(
        {
            "MessageName": words.PREFIX + words.ClockSet.WORD,
            **{name: told.get(name) for name in ("UniqueID", "Source", "TimeStamp")},
            "MessageBody": {},
        }
    ).encode()


LINE_TOO_LONG = Faulty("LineTooLong", text=b'{"Answer":"Faulty","Fault":"LineTooLong"}')


def short(answer: Answer) -> str:
    """What is wrong with a message that was not taken."""
    if isinstance(answer, Refused):
        return f"refused: {answer.refusal}{f' at {answer.at}' if answer.at else ''}"
    if isinstance(answer, Faulty):
        return f"faulty: {answer.fault}{f' at {answer.member}' if answer.member else ''}"
    return type(answer).__name__.lower()


def why(answer: Answer) -> str:
    """What is wrong with a message that was not taken, and what to do."""
    if isinstance(answer, Refused):
        return (
            f"{short(answer)}. To do: {words.REFUSALS.get(answer.refusal, 'see docs/messages.md')}"
        )
    if isinstance(answer, Faulty):
        return f"{short(answer)}. To do: {words.FAULTS.get(answer.fault, 'see docs/messages.md')}"
    if isinstance(answer, Ignored):
        names = [words.PREFIX + it.WORD for it in words.MESSAGES]
        near = difflib.get_close_matches(answer.message_name, names, 1, 0.0)[0]
        return (
            f"ignored: the desk has no message {answer.message_name:.100}, and did nothing. To do:"
            f" correct the name; the nearest is {near}"
        )
    return type(answer).__name__


# --- Statuses


class Meaning(enum.Enum):
    """What a status asks of a sender."""

    ANSWER = "the desk has said what it did"
    AGAIN = "no answer so far: send the same bytes again"
    STOP = "sending again changes nothing: tell a person"


@dataclasses.dataclass(frozen=True)
class Verdict:
    """What came of a try: the answer, or why there is none, and how many seconds to wait at
    least.
    """

    meaning: Meaning
    answer: Optional[Answer] = None
    why: str = ""
    wait: float = 0.0


LONGEST_WAIT = 600.0  # seconds, whatever a Retry-After asks for
BEGINNING = b'{"Answer":'


def seconds_of(retry_after: Optional[str]) -> float:
    """How long to wait for a Retry-After of so many seconds: ten minutes at most."""
    text = (retry_after or "").strip()
    return min(float(text), LONGEST_WAIT) if text.isdecimal() else 0.0


def is_cut(body: bytes) -> bool:
    """Whether it is the beginning of an answer: the rest was lost on its way."""
    return not read_object(body) and (body.startswith(BEGINNING) or BEGINNING.startswith(body))


def verdict(status: int, body: bytes, retry_after: Optional[str] = None) -> Verdict:
    """What a status and a body ask of the sender of a message."""
    answer = read(body)
    if (
        answer is not None
        and words.ANSWERS.get(status) == type(answer).__name__
        and not (isinstance(answer, Faulty) and answer.fault in words.FAULTS_OF_A_REQUEST)
    ):
        return Verdict(Meaning.ANSWER, answer)
    if status in words.AGAIN or status >= 500:
        wait = seconds_of(retry_after)
        return Verdict(
            Meaning.AGAIN,
            None,
            f"status {status}" + (f", to be asked again in {wait:.0f} seconds" if wait else ""),
            wait,
        )
    if status in words.ANSWERS and is_cut(body):
        return Verdict(Meaning.AGAIN, None, f"status {status}, and the answer was cut")
    told = words.STOPS.get(
        status, "that is no answer of a desk to a message; look at --url, and at --cert"
    )
    return Verdict(
        Meaning.STOP, None, f"status {status}: {told}: {body[:200].decode(errors='replace')}"
    )
