"""How messages and answers are spelled, for the scripts of the cases.

Each answer is still worked out by hand in the case that needs it: nothing here knows what a desk
does.
"""
import datetime
import json
import pathlib
from typing import Iterable


def text(value: object) -> str:
    """Compact JSON with the members as they come."""
    return json.dumps(value, separators=(",", ":"))


def stamp(minute: int) -> str:
    """A minute since 1970-01-01T00:00Z as a time stamp."""
    moment = datetime.datetime(1970, 1, 1) + datetime.timedelta(minutes=minute)
    return moment.strftime("%Y-%m-%dT%H:%M:%SZ")


def message(uid: str, word: str, minute: int = 0, **body: object) -> str:
    envelope = {"MessageName": "TraceDesk." + word, "UniqueID": uid, "Source": "S"}
    return text({**envelope, "TimeStamp": stamp(minute), "MessageBody": body})


def answer(**members: object) -> str:
    """Compact JSON with the members in byte order of their names."""
    return text(dict(sorted(members.items())))


def accepted(number: int, uid: str, **detail: object) -> str:
    return answer(Answer="Accepted", Number=number, UniqueID=uid, **detail)


def refused(uid: str, refusal: str, at: str) -> str:
    return answer(Answer="Refused", Refusal=refusal, At=at, UniqueID=uid)


def faulty(fault: str, **member: object) -> str:
    return answer(Answer="Faulty", Fault=fault, **member)


def write(pairs: Iterable[tuple[str, str]]) -> None:
    """Writes messages.jsonl and answers.jsonl from pairs of a message and its answer."""
    pathlib.Path("messages.jsonl").write_text("".join(asked + "\n" for asked, _ in pairs))
    pathlib.Path("answers.jsonl").write_text("".join(told + "\n" for _, told in pairs))
