"""The plant's table: a filter of jq, which runs as a coprocess over one record after the other, and
what it gives: messages of a desk, or why there are none.
"""
from __future__ import annotations

import decimal
import hashlib
import json
import pathlib
import re
import select
import shutil
import subprocess
import tempfile
import zoneinfo
from typing import IO, Any, Iterator, NamedTuple, Optional

from tracedesk import MESSAGES, OutOfRange, forms, words

WORDS = {words.PREFIX + it.WORD: it for it in MESSAGES}
ENVELOPE = ("MessageName", "UniqueID", "Source", "TimeStamp", "MessageBody")
# The filter stands in these, so that a record gives all of its messages, on one line, or a fault.
HEAD = ". as {id: $id, from: $from, record: $record} | $record | try [("
TAIL = '\n)] catch {"fault": .}'
ANSWER = 30.0  # seconds for a record; then jq's input ends, and after as many more jq is killed
# From this number on programs that calculate in doubles round, so that two names become one.
ROUNDED = 2**53
HALVES = re.compile("[\ud800-\udfff]")
# What jq makes of a member that isn't there, as a part of a text.
NULL = re.compile(r"(?:^|[-_/.: ])null(?:$|[-_/.: ])")


class BadFilter(Exception):
    """Why jq can't run a filter."""


class NotMapped(Exception):
    """Why a record gives none of the desk's messages; `guess` is what it may have been: a message
    as far as it is known, or {} where nobody knows.
    """

    def __init__(self, why: str, guess: Optional[dict[str, Any]] = None) -> None:
        super().__init__(why)
        self.guess = guess or {}


class Record(NamedTuple):
    """A JSON object of what a machine wrote: its bytes, its value, and why it has none."""

    text: bytes
    value: Any
    fault: Optional[str] = None


def for_jq(value: Any) -> Any:
    """A value as jq gets it: a number that it would round is the text of its digits, and half of a
    letter is none.
    """
    if isinstance(value, dict):
        return {for_jq(name): for_jq(it) for name, it in value.items()}
    if isinstance(value, str):
        return HALVES.sub("\ufffd", value)
    if isinstance(value, list):
        return [for_jq(it) for it in value]
    if isinstance(value, bool) or not isinstance(value, (int, decimal.Decimal)):
        return value
    if not -ROUNDED < value < ROUNDED:
        return str(value)
    if value == int(value):
        return int(value)
    near = float(value)
    return near if decimal.Decimal(repr(near)) == value else str(value)


class Filter:
    """A filter that jq has read. `zone` is where the clock of times without an offset stands."""

    def __init__(self, path: pathlib.Path, zone: Optional[str] = None) -> None:
        if not shutil.which("jq"):
            raise BadFilter("there is no jq: apt-get install jq")
        try:
            self.zone = zoneinfo.ZoneInfo(zone) if zone else None
        except (zoneinfo.ZoneInfoNotFoundError, ValueError) as fault:
            raise BadFilter(f"--zone {zone}: {fault}") from None
        self.source: IO[bytes] = tempfile.TemporaryFile()
        self.source.write(HEAD.encode() + path.read_bytes() + TAIL.encode())
        self.source.flush()
        self.jq: Optional[subprocess.Popen[bytes]] = None
        looked = subprocess.run(stdin=subprocess.DEVNULL, capture_output=True, **self.words())
        if looked.returncode:
            raise BadFilter(looked.stderr.decode(errors="replace").strip())

    def words(self) -> dict[str, Any]:
        handle = self.source.fileno()
        args = ["jq", "-c", "--unbuffered", "-f", f"/dev/fd/{handle}"]
        return {"args": args, "pass_fds": (handle,)}

    def end(self) -> None:
        if self.jq:
            self.jq.kill()
            self.jq.wait()
            self.jq = None

    def line_of(self, line: bytes) -> bytes:
        """What jq says to a line; empty where it ended, or had to be ended."""
        if self.jq is None:
            self.jq = subprocess.Popen(
                stdin=subprocess.PIPE, stdout=subprocess.PIPE, bufsize=-1, **self.words()
            )
        assert self.jq.stdin and self.jq.stdout
        try:
            self.jq.stdin.write(line)
            self.jq.stdin.flush()
            is_there = bool(select.select([self.jq.stdout], [], [], ANSWER)[0])
            if not is_there:
                self.jq.stdin.close()  # so that a filter that wants more input goes on
                is_there = bool(select.select([self.jq.stdout], [], [], ANSWER)[0])
            said = self.jq.stdout.readline() if is_there else b""
        except BrokenPipeError:
            said = b""
        if not said.endswith(b"\n") or self.jq.stdin.closed:
            self.end()
        return said if said.endswith(b"\n") else b""

    def given(self, record: Record, source: str) -> Any:
        """What the filter gives for a record: a list, or a fault. jq that ended is started once
        more, as somebody may have killed it.
        """
        told = {"id": id_of(record.text), "from": source, "record": for_jq(record.value)}
        line = json.dumps(told).encode() + b"\n"
        said = self.line_of(line) or self.line_of(line)
        if not said:
            raise NotMapped("jq gave no answer: the filter ends it, or runs without an end")
        return json.loads(said)

    def made(self, record: Record, source: str = "") -> list[forms.Message]:
        """The desk's messages that a record gives, all or none; none where it is passed over."""
        given = self.given(record, source)
        if not isinstance(given, list):
            raise fault_of(given["fault"])
        found = [self.message(it) for it in given]
        if len({it.unique_id for it in found}) < len(found):
            raise NotMapped("two of its messages have one UniqueID: look at the filter")
        return found

    def message(self, told: Any) -> forms.Message:
        """A message of what a filter gave."""
        if not isinstance(told, dict) or sorted(told) != sorted(ENVELOPE):
            raise NotMapped(f"the filter gave {json.dumps(told):.100}, which is no message")
        name, uid, source, stamp, body = (told[it] for it in ENVELOPE)
        if name not in WORDS:
            raise NotMapped(f"the filter gave a message {name!r:.100}, which a desk doesn't have")
        guess = {"MessageName": name, "MessageBody": body}
        try:
            for text in texts_of([uid, source, body]):
                if NULL.search(text):
                    raise NotMapped(f"{text!r:.100}: what isn't there became the text null", guess)
            made = WORDS[name].of_body(body)
            return made.message(source, unique_id=uid, at=forms.moment(stamp, self.zone))
        except OutOfRange as fault:
            raise NotMapped(f"{WORDS[name].WORD}: {fault}", guess) from None


def id_of(text: bytes) -> str:
    """A name for a record that has none of its own: the same bytes have the same one."""
    return hashlib.sha256(text).hexdigest()[:32]


def fault_of(said: Any) -> NotMapped:
    """The fault that a filter told: a text, or an object with `why` and the message it may be."""
    if isinstance(said, dict) and isinstance(said.get("why"), str):
        guess = said.get("message")
        return NotMapped(said["why"], guess if isinstance(guess, dict) else None)
    return NotMapped(said if isinstance(said, str) else json.dumps(said))


def texts_of(value: Any) -> Iterator[str]:
    if isinstance(value, str):
        yield value
    elif isinstance(value, (dict, list)):
        for it in value.values() if isinstance(value, dict) else value:
            yield from texts_of(it)
