"""The tables of docs/messages.md as made from the table docs/api/messages.json, and what pages and
the table say apart.
"""
import json
import re
from typing import Any, Iterable, Iterator, TypeVar

from tracedesk_dev import ROOT
from tracedesk_dev.api_schemas import Member, Table, Wrong

PAGE, HTTP = ROOT / "docs/messages.md", ROOT / "docs/http.md"
Cell = TypeVar("Cell")
ENDS = re.compile(r"(?<!\\)\|")


def member_cell(members: list[Member]) -> str:
    told = []
    for it in members:
        cell = f"`{it['name']}`"
        if "row" in it:
            cell += f": 1 to {it['most']:,} objects with {member_cell(it['members'])}"
        elif "most" in it:
            cell += f": 1 to {it['most']:,} {it['value']}s"
        told.append(("and at level 6 " if "where" in it else "") + cell)
    return ", ".join(told) or "none"


def body_cell(message: Member) -> str:
    """The members of a message, and those beside them."""
    beside = [
        f"`{it['name']}`"
        + (
            f": a {it['value']} or `null` for each of `{it['for_each']}`"
            if "for_each" in it
            else ""
        )
        for it in message.get("beside", ())
    ]
    more = f"; if known {', '.join(beside)}" if beside else ""
    return member_cell(message["members"]) + more


def grouped(rows: Iterable[tuple[str, Cell]]) -> list[tuple[str, Cell]]:
    """Neighbours with the same cell share a row."""
    found: list[tuple[list[str], Cell]] = []
    for name, cell in rows:
        if found and found[-1][1] == cell and cell != "none":
            found[-1][0].append(f"`{name}`")
        else:
            found.append(([f"`{name}`"], cell))
    return [(", ".join(names), cell) for names, cell in found]


def grouped_by_reason(table: Table) -> list[tuple[str, ...]]:
    """The kinds of which somebody has to know more before one is sent again."""
    rows = grouped(
        (it["word"], ("report of work" if it["report"] else "request", it["reason"]))
        for it in table["messages"]
        if "reason" in it
    )
    return [(names, *cells) for names, cells in rows]


def refused_cell(message: Member) -> str:
    return (
        message.get("refused_for")
        or ", ".join(f"`{it}`" for it in message["refusals"])
        or "nothing"
    )


def tables(table: Table) -> Iterator[tuple[list[str], list[Any]]]:
    """Each table of the page: its header and its rows."""
    yield ["Member", "Meaning"], [(f"`{it['name']}`", it["says"]) for it in table["envelope"]]
    yield ["Value", "Form"], [
        (it["says"], it["form"]) for it in table["values"].values() if "says" in it
    ]
    yield ["Message kind", "Members of the body"], grouped(
        (it["word"], body_cell(it)) for it in table["messages"]
    )
    yield ["Message kind", "Is a", "Because"], grouped_by_reason(table)
    yield ["Answer", "Other members", "Meaning", "The sender"], [
        (f"`{it['answer']}`", it["beside"], it["says"], it["sender"]) for it in table["answers"]
    ]
    yield ["Message kind", "Refused for"], in_page_order(
        grouped((it["word"], refused_cell(it)) for it in table["messages"])
    )
    yield ["Refusal", "`At`", "Why", "What to do"], [
        (f"`{it['refusal']}`", it["at"], it["why"], it["do"]) for it in table["refusals"]
    ]
    yield ["Fault", "`Member`", "Why", "What to do"], [
        (f"`{it['fault']}`", it["member"], it["why"], it["do"]) for it in table["faults"]
    ]


def in_page_order(rows: list[Any]) -> list[Any]:
    """A completed board stands with the clock, behind the counts."""
    late = [it for it in rows if it[0] == "`WorkCompleted`"]
    rows = [it for it in rows if it not in late]
    return rows[:-1] + late + rows[-1:]


def line_of(cells: Iterable[str]) -> str:
    return "| " + " | ".join(cells) + " |"


def with_tables(text: str, made: Iterable[Any]) -> str:
    """A page with these tables in the places of those that have their headers."""
    lines = text.split("\n")
    for header, rows in made:
        places = [number for number, line in enumerate(lines) if line == line_of(header)]
        if len(places) != 1:
            raise Wrong(
                f"it has {len(places)} tables with the header {line_of(header)}, and one is wanted"
            )
        end = places[0] + 2
        while lines[end].startswith("|"):
            end += 1
        lines[places[0] + 2 : end] = [line_of(row).replace("|  |", "| |") for row in rows]
    return "\n".join(lines)


def examples_of(table: Table, text: str) -> dict[str, list[Any]]:
    """Of each message the first example of the page that a desk accepts."""
    found: dict[str, Any] = {}
    for block in re.findall(r"^```json\n(\{.*?)^```$", text, re.M | re.S):
        asked, _, told = block.partition("\n")
        name = json.loads(asked).get("MessageName", "").removeprefix(table["prefix"])
        if json.loads(told).get("Answer") == "Accepted":
            found.setdefault(name, json.loads(asked))
    if missing := [it["word"] for it in table["messages"] if it["word"] not in found]:
        raise Wrong(f"{PAGE.name} has no example of {', '.join(missing)} that is accepted")
    return found


def rows_under(text: str, header: str) -> list[list[str]]:
    """The cells of the table whose header begins so."""
    lines = text.split("\n")
    at = next((number for number, line in enumerate(lines) if line.startswith(header)), None)
    if at is None:
        raise Wrong(f"it has no table {header}")
    found = []
    for line in lines[at + 2 :]:
        if not line.startswith("|"):
            break
        found.append([it.strip() for it in ENDS.split(line)[1:-1]])
    return found


# --- What is compared, and not made


def differences_in_messages(table: Table, text: str) -> Iterator[str]:
    for it in table["messages"]:
        if f"\n`{it['word']}` {it['means']}" not in text:
            yield f"docs/messages.md doesn't say `{it['word']}` {it['means']}"
        named, known = set(re.findall(r"`(\w+)`", it.get("refused_for", ""))), set(it["refusals"])
        if "the same with" not in it.get("refused_for", "the same with") and named != known:
            yield f"of {it['word']} refused_for names {sorted(named)}, and refusals {sorted(known)}"
        if unknown := known - {one["refusal"] for one in table["refusals"]}:
            yield f"{it['word']} is refused for {sorted(unknown)}, which refusals doesn't have"


def differences_in_http(table: Table, text: str) -> Iterator[str]:
    wanted = [
        [
            f"`{it['method']} {it['path']}`",
            ", ".join(f"`{name}`" for name in it["parameters"]) or "none",
            it["body"],
            it["says"],
        ]
        for it in table["routes"]
    ]
    if wanted != rows_under(text, "| Route | Parameters"):
        yield "docs/http.md has other routes than the table, or says otherwise of them"
    if [
        [
            it["parameter"].join("``") if it["parameter"] != "all others" else "all others",
            it["says"],
        ]
        for it in table["parameters"]
    ] != rows_under(text, "| Parameter | Meaning"):
        yield "docs/http.md says otherwise of its parameters than the table"
    rows = [
        *rows_under(text, "| What was asked | Status"),
        *rows_under(text, "| What came | Status"),
    ]
    for it in [*table["faults"], *table["file_faults"], *table["request_faults"]]:
        if "status" in it and not any(
            str(it["status"]) in row[1] and it["fault"] in row[2] for row in rows
        ):
            yield f"docs/http.md has no row of {it['fault']} with status {it['status']}"
