"""Messages in their order, each with the answer that it has to get, byte for byte."""
import datetime
import json
import random
import uuid
from typing import Any, Mapping, NamedTuple

Body = Mapping[str, object]
Refusal = tuple[str, str]  # its word, and the name at which it is


class Said(NamedTuple):
    """A line without its end; whether it is Accepted, Refused, Ignored or a Repeat of an accepted
    one; its answer's bytes.
    """

    text: bytes
    wanted: str
    answer: bytes


def compact(answer: Mapping[str, object]) -> bytes:
    return json.dumps(answer, separators=(",", ":"), sort_keys=True).encode()


class Messages:
    """What is said from a time on; the same seed gives the same UniqueIDs."""

    def __init__(self, seed: str, day: datetime.datetime, now: datetime.datetime) -> None:
        self.random = random.Random(seed)
        self.day, self.now = day, now
        self.lines: list[Said] = []
        self.accepted = self.minute = 0

    def at(self, clock: str) -> None:
        """Goes on to a time of this day, where it is not past."""
        hours, minutes, *seconds = map(int, clock.split(":"))
        since = datetime.timedelta(hours=hours, minutes=minutes, seconds=sum(seconds))
        self.now = max(self.now, self.day + since)

    def later(self, seconds: float) -> None:
        self.now += datetime.timedelta(seconds=seconds)

    def say(
        self,
        word: str,
        body: Body,
        source: str,
        when: datetime.datetime | None = None,
        refusal: Refusal | None = None,
        **more: object,
    ) -> int:
        """Says a message, which is accepted, or refused at a name; `more` is what an accepted one's
        answer tells besides.
        """
        unique = str(uuid.UUID(int=self.random.getrandbits(128), version=4))
        when = (when or self.now).replace(microsecond=0)
        message: dict[str, object] = {"MessageName": "TraceDesk." + word, "UniqueID": unique}
        stamp = when.isoformat() + "Z"
        message |= {"Source": source, "TimeStamp": stamp, "MessageBody": body}
        self.add(json.dumps(message, separators=(",", ":")).encode(), unique, when, refusal, more)
        return len(self.lines) - 1

    def add(
        self,
        text: bytes,
        unique: str,
        when: datetime.datetime | None,
        refusal: Refusal | None,
        more: dict[str, object],
    ) -> None:
        answer: dict[str, object]
        if refusal:
            answer = {"Answer": "Refused", "At": refusal[1], "Refusal": refusal[0]}
        else:
            self.accepted += 1
            self.minute = self.effective(when)
            answer = {"Answer": "Accepted", "Number": self.accepted, **more}
        wanted = str(answer["Answer"])
        self.lines.append(Said(text, wanted, compact({**answer, "UniqueID": unique})))

    def ignored(self, word: str, body: Body, source: str) -> None:
        """Says a message that is none of the desk's."""
        text = {
            "MessageName": word,
            "UniqueID": f"{source}-{len(self.lines)}",
            "Source": source,
            "TimeStamp": self.now.replace(microsecond=0).isoformat() + "Z",
            "MessageBody": body,
        }
        answer = compact({"Answer": "Ignored", "MessageName": word})
        self.lines.append(Said(json.dumps(text, separators=(",", ":")).encode(), "Ignored", answer))

    def effective(self, when: datetime.datetime | None = None) -> int:
        """The minute at which an accepted command takes effect."""
        at = (when or self.now).replace(tzinfo=datetime.timezone.utc)
        return max(self.minute, int(at.timestamp()) // 60)

    def repeat(self, number: int) -> None:
        """Says an accepted line again, byte for byte."""
        self.lines.append(self.lines[number]._replace(wanted="Repeat"))

    def say_again(self, number: int) -> None:
        """Says a refused line again, byte for byte, which is accepted now."""
        text = self.lines[number].text
        message: dict[str, Any] = json.loads(text)
        at = datetime.datetime.fromisoformat(message["TimeStamp"][:-1])
        self.add(text, message["UniqueID"], at, None, {})
