"""Messages for desks: single ones, those of a shift, and parts of a shift."""
import json
from typing import Any, Callable, Iterable

from lab import ROOT
from tracedesk_dev import shift

EPOCH = "1970-01-01T00:00:00Z"  # the time of FIRST_LINE
MORNING = "2026-03-02T06:00:00Z"  # before a shift
# Of a line whose reel K1, of part P and lot L1, is on slot 1 of machine M.
FIRST_LINE = (ROOT / "examples/first-line.jsonl").read_bytes().splitlines()

Message = dict[str, Any]


def message(word: str, uid: str, time: str = EPOCH, source: str = "t", **body: Any) -> bytes:
    """A message as a line."""
    envelope = {
        "MessageName": f"TraceDesk.{word}",
        "UniqueID": uid,
        "Source": source,
        "TimeStamp": time,
        "MessageBody": body,
    }
    return json.dumps(envelope).encode()


def part(name: str, time: str = EPOCH) -> bytes:
    """A message that each desk accepts that hasn't got it yet, if it isn't ahead of the desk's
    minute by too much."""
    return message("PartDefined", f"x-{name}", time, PartNumber=name)


def first_line(line: str) -> list[bytes]:
    """The messages of FIRST_LINE with UniqueIDs of a line's own."""
    return [text.replace(b'"UniqueID":"', f'"UniqueID":"{line}-'.encode()) for text in FIRST_LINE]


def with_lots(told: Message) -> Message:
    """A message in which every other reel is of one lot of its part: such lots have several reels,
    and spaces in their names."""
    body = told["MessageBody"]
    if told["MessageName"] == "TraceDesk.ReelReceived" and int(body["Reel"][-1]) % 2:
        body["Lot"] = f"LOT {body['PartNumber']} & more"
    return told


class InWork:
    """The boards that are in work, by the messages that a desk accepted."""

    def __init__(self) -> None:
        self.boards: set[tuple[str, str]] = set()
        self.completed = 0

    def see(self, told: Message) -> None:
        word, body = told["MessageName"], told["MessageBody"]
        if word == "TraceDesk.WorkStarted":
            self.boards.add((body["Machine"], body["Board"]))
        if word == "TraceDesk.WorkCompleted":
            self.boards.discard((body["Machine"], body["Board"]))
            self.completed += 1


def parts_of(
    lines: Iterable[shift.Said], count: int, changed: Callable[[Message], Message] = with_lots
) -> list[bytes]:
    """The lines of a shift, each changed, in parts of as much work each; between two of them no
    board is in work."""
    said = [
        (line.wanted == "Accepted", changed(json.loads(line.text)))
        for line in lines
        if line.wanted in ("Accepted", "Refused")
    ]
    completes = sum(
        accepted and told["MessageName"] == "TraceDesk.WorkCompleted" for accepted, told in said
    )
    parts: list[list[bytes]] = [[]]
    work = InWork()
    for accepted, told in said:
        parts[-1].append(json.dumps(told).encode())
        before = work.completed
        if accepted:
            work.see(told)
        is_due = completes * len(parts) <= work.completed * count and len(parts) < count
        if work.completed > before and not work.boards and is_due:
            parts.append([])
    return [b"\n".join(part) + b"\n" for part in parts]
