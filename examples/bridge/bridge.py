"""Takes records as they come: each gives messages in the spool, is passed over, or is a dead
letter.
"""
from __future__ import annotations

import collections
import json
import time
import traceback
from typing import Any, NamedTuple, Optional

from filters import Filter, NotMapped, Record
from fronts import Front, json_records
from keeping import Dead, Kept
from tracedesk import records
from tracedesk.console import patiently, tell

NEWS = 60.0  # seconds between two lines on standard error
MOST_NAMES, LONGEST_NAME = 1000, 100  # of records that are passed over


class Came(NamedTuple):
    """What came of a record: lines, and the names in the spool."""

    told: list[str]
    names: list[str]


def shown(name: str) -> str:
    """A name as it is told: of odd ones, and of long ones, what JSON makes of their beginning."""
    return (
        name
        if name.isascii() and name.isprintable() and len(name) <= LONGEST_NAME
        else json.dumps(name[:LONGEST_NAME])
    )


def name_of(record: Any) -> str:
    """By what a record that is passed over is counted; empty where it has no MessageName."""
    name = record.get("MessageName") if isinstance(record, dict) else None
    return shown(name) if isinstance(name, str) else ""


class Bridge:
    """Takes records as they come. `kept` and `dead` are where they go; `front` makes records of
    what comes.
    """

    def __init__(
        self, table: Filter, kept: Kept, dead: Dead, front: Front = json_records, form: str = ""
    ) -> None:
        self.table, self.kept, self.dead, self.front, self.form = table, kept, dead, front, form
        self.counts: collections.Counter[str] = collections.Counter()
        self.passed: collections.Counter[str] = collections.Counter()
        self.news, self.told = time.monotonic() + NEWS, ""

    def take_one(self, record: Record, source: str) -> Came:
        try:
            if record.fault:
                raise NotMapped(record.fault)
            made = self.table.made(record, source)
        except Exception as why:  # an error of this program must not keep what comes behind
            guess = why.guess if isinstance(why, NotMapped) else {}
            reason = (
                str(why)
                if isinstance(why, NotMapped)
                else "".join(traceback.format_exception_only(type(why), why)).strip()
            )
            reason = f"{source}: {reason}" if source else reason
            self.tell_line(record.text, guess, reason)
            name = self.dead.put(record.text, reason)
            self.counts["dead"] += 1
            return Came([f"dead {name}"], [])
        if not made:
            name = name_of(record.value) or "a record without MessageName"
            has_place = name in self.passed or len(self.passed) < MOST_NAMES
            self.passed[name if has_place else "others"] += 1
            return Came([f"passed {name}"], [])
        with self.kept.spool.whole():
            put = [self.kept.put(it) for it in made]
        self.counts["put in"] += sum(is_new for _, is_new in put)
        self.counts["there already"] += sum(not is_new for _, is_new in put)
        return Came(["kept " + " ".join(name for name, _ in put)], [name for name, _ in put])

    def tell_line(self, text: bytes, guess: dict[str, Any], reason: str) -> None:
        """Has the line's book say of a dead letter that it may be work."""
        spool = self.kept.spool
        if records.may_be_kept(guess) and not spool.of_uid(records.unread_id(text)):
            spool.put(records.unread(text, {"Source": spool.name, **guess}, reason))

    def take(self, data: bytes, source: str = "", front: Optional[Front] = None) -> Came:
        """Takes a line, a file or a body of a source, and comes back once what it gives is on
        disk.
        """
        found, came = (front or self.front)(data), []
        for it in found:
            came.append(patiently(lambda: self.take_one(it, source)))
            self.kept.live()
        self.counts["read"] += len(came) or 1
        if not came:
            self.passed["[]"] += 1
            return Came(["passed []"], [])
        return Came(
            [line for it in came for line in it.told], [name for it in came for name in it.names]
        )

    def summary(self) -> str:
        said = [f"{self.counts[it]} {it}" for it in ("read", "put in", "there already", "dead")]
        names = ", ".join(f"{name} {count}" for name, count in sorted(self.passed.items()))
        said.append(f"{sum(self.passed.values())} passed over{': ' if names else ''}{names}")
        gaps = f"; {self.counts['gaps']} gaps" if self.counts["gaps"] else ""
        return ", ".join(said) + gaps

    def look(self) -> None:
        """Says that the machine is heard, and each minute how far it is, where that is news."""
        self.kept.live()
        if time.monotonic() >= self.news and self.summary() != self.told:
            self.told, self.news = self.summary(), time.monotonic() + NEWS
            tell(self.told)
