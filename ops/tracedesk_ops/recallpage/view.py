"""What a page says of a recall, by its evidence alone, in sentences."""
from __future__ import annotations

import dataclasses
import datetime
import json
import pathlib
import re

from tracedesk_ops import catalogue
from tracedesk_ops.recalls.certificate import FILE_NAME
from tracedesk_ops.recalls.signing import SIGNATURE
from tracedesk_ops.recalls.wording import count

LEFT_OUT = {"file", "id", "place", "source"}  # columns that the spreadsheet has, and no page
MINUTE = re.compile(r"\d{4}-\d\d-\d\dT\d\d:\d\d(:00)?Z")
MOST_ROWS = 500  # of a table
NOT_SHIPPED = "Not shipped, or not on the list"
TOOL = "tracedesk-recall: "  # begins each line that it says


@dataclasses.dataclass(frozen=True)
class Table:
    """A table of the evidence, as a page shows it. `more` rows are in the spreadsheet alone."""

    title: str
    header: list[str]
    rows: list[list[str]]
    more: int = 0


@dataclasses.dataclass(frozen=True)
class ShownAnswer:
    """An answer: whether it is complete in a sentence, why it isn't, and the tables."""

    title: str
    is_complete: bool
    headline: str
    reasons: list[str]
    notes: list[str] = dataclasses.field(default_factory=list)
    tables: list[Table] = dataclasses.field(default_factory=list)
    limits: list[str] = dataclasses.field(default_factory=list)


def spelled(value: str) -> str:
    """A value with its times as a clock of the plant shows them."""

    def local(found: re.Match[str]) -> str:
        at = datetime.datetime.fromisoformat(found[0])
        return f"{at.astimezone():%Y-%m-%d %H:%M %Z}"

    return MINUTE.sub(local, value)


def rows_in(evidence: pathlib.Path, name: str) -> list[dict[str, str]]:
    return catalogue.csv_table((evidence / f"{name}.csv").read_bytes().decode())


def table_of(rows: list[dict[str, str]], title: str) -> Table:
    columns = [its for its in (rows[0] if rows else ()) if its not in LEFT_OUT]
    found = [[spelled(row[its]) for its in columns] for row in rows[:MOST_ROWS]]
    return Table(title, [title_for(its) for its in columns], found, max(0, len(rows) - MOST_ROWS))


def title_for(column: str) -> str:
    return column.replace("_", " ").capitalize()


def boards_of(evidence: pathlib.Path) -> list[Table]:
    """The boards, a table for each customer; the rest comes first, since it may still be here."""
    rows = rows_in(evidence, "boards")
    if not rows or "customer" not in rows[0]:
        return [table_of(rows, f"Boards: {len(rows):,}")]
    groups: dict[str, list[dict[str, str]]] = {}
    for row in rows:
        groups.setdefault(row.pop("customer"), []).append(row)
    return [
        table_of(own, f"{customer or NOT_SHIPPED}: {count(len(own), 'board')}")
        for customer, own in sorted(groups.items())
    ]


def answer_of(evidence: pathlib.Path) -> ShownAnswer:
    """What a page says of a recall with this evidence."""
    told = json.loads((evidence / FILE_NAME).read_text(encoding="utf-8"))
    more = [("reels", "Reels in stock and on slots"), ("doubtful", "Doubtful pieces")]
    more += [("untraced", "Untraced work"), ("pieces", "Pieces")]
    its = ((text, rows_in(evidence, name)) for name, text in more)
    tables = [table_of(rows, f"{text}: {len(rows):,}") for text, rows in its if rows]
    facts = [
        f"Asked: {spelled(told['asked_at'])}",
        f"Lines: {', '.join(line['line'] for line in told['lines'])}",
        f"Programs: {', '.join(its['version'] for its in told['programs'].values())}",
        f"Signed: {'yes' if (evidence / SIGNATURE).exists() else 'no'}",
    ]
    return ShownAnswer(
        title=f"Recall of {told['title']}",
        is_complete=told["answer"]["is_complete"],
        headline=spelled(told["sentence"]),
        reasons=[*map(spelled, told["reasons"])],
        notes=[*map(spelled, told["notes"]), *facts],
        tables=[*boards_of(evidence), *tables],
        limits=told["cannot_know"],
    )


def failed(title: str, *said: str) -> ShownAnswer:
    """What a page says if there is no evidence, of what was said last."""
    *reasons, headline = (line.removeprefix(TOOL) for line in said[-12:])
    return ShownAnswer(title, False, headline, reasons)
