"""The words.py of the package for senders, as made from the table docs/api/messages.json."""
import operator
import re
import subprocess
from typing import Iterable, Iterator

from tracedesk_dev import packages
from tracedesk_dev.api_schemas import Member, Table, Wrong, plain

WIDTH = 100


def snake(name: str) -> str:
    return re.sub(r"(?<=[a-z])(?=[A-Z])", "_", name).lower()


def python_type(member: Member) -> str:
    if "row" in member:
        return f"Sequence[{member['row']}]"
    kind: str = member["value"].title()
    if "for_each" in member:
        return f"Optional[Sequence[Optional[{kind}]]] = None"
    if "most" in member:
        return f"Sequence[{kind}]"
    is_optional = "where" in member or member["value"] == "attribute"
    return f"Optional[{kind}] = None" if is_optional else kind


def python_of(members: Iterable[Member]) -> dict[str, tuple[str, ...]]:
    """The members that are read by another one: what that has to be, or of which list."""
    found: dict[str, tuple[str, ...]] = {}
    for it in members:
        for other, value in it.get("where", {}).items():
            found[snake(it["name"])] = snake(other), value
        if "for_each" in it:
            found[snake(it["name"])] = (snake(it["for_each"]),)
    return found


def wrapped(text: str, indent: str, first: str = "") -> str:
    lines, line = [], first
    for word in text.split():
        if len(indent + line) + len(word) + 1 > WIDTH:
            lines.append(indent + line)
            line = word
        else:
            line = f"{line} {word}".strip() if line != first else line + word
    return "\n".join([*lines, indent + line])


def python_class(name: str, base: str, doc: str, members: list[Member]) -> list[str]:
    lines = ["", "", "@dataclasses.dataclass(frozen=True)", f"class {name}({base}):"]
    lines += [wrapped(doc + '"""', "    ", '"""')]
    lines += [f"    {snake(it['name'])}: {python_type(it)}" for it in members]
    if of := python_of(members):
        lines.append(f"    OF: ClassVar[Dict[str, Tuple[str, ...]]] = {of!r}")
    return lines


def python_forms(table: Table) -> Iterator[str]:
    for name, value in table["values"].items():
        schema = value["schema"]
        kind = "int" if schema.get("type") == "integer" else "str"
        told = plain(value.get("form", "")).partition(". Names")[0].rstrip(".")
        if "enum" in schema:
            yield f"{name.upper()} = forms.OneOf({tuple(schema['enum'])!r})"
        elif schema["type"] == "integer":
            yield f"{name.upper()} = forms.Whole({schema['minimum']}, {schema['maximum']})"
        elif name != "time":
            form = f"{schema['maxLength']}, {schema['pattern']!r}, {told!r}"
            yield f"{name.upper()} = forms.Text({form})"
        if name != "time":
            yield f"{name.title()} = {kind}"


def python_document(message: Member) -> str:
    said_of = f"{message['word']} {plain(message['means'])}"
    if "accepted" in message:
        said_of += f" Accepted tells {message['accepted']}."
    refusals = ", ".join(message["refusals"])
    return said_of + (f" Refused for {refusals}." if refusals else "")


def reports_of_work(table: Table) -> list[str]:
    return [table["prefix"] + it["word"] for it in table["messages"] if it["report"]]


def recorded(table: Table) -> list[str]:
    its = (it for it in table["messages"] if it["report"] or it.get("recorded"))
    return [table["prefix"] + it["word"] for it in its]


FAULT = operator.itemgetter("fault")


def python_table(name: str, kind: str, pairs: Iterable[tuple[object, object]]) -> list[str]:
    return [f"{name}: {kind} = {{", *(f"    {key!r}: {value!r}," for key, value in pairs), "}"]


def words(table: Table) -> str:
    lines = [
        (
            '"""The words of a desk, with their ranges. Made by dev/api from'
            ' docs/api/messages.json: change that one, and run dev/api."""'
        ),
        "from __future__ import annotations",
        "",
        "import dataclasses",
        "from typing import ClassVar, Dict, Optional, Sequence, Tuple, Type",
        "",
        "from . import forms",
        "",
        f"PREFIX = {table['prefix']!r}",
        f"LONGEST_LIST = {table['limits']['LONGEST_LIST']}",
        *python_forms(table),
    ]
    for message in table["messages"]:
        for it in message["members"]:
            if "row" in it:
                told = f"A row of {message['word']}."
                lines += python_class(it["row"], "forms.Part", told, it["members"])
    for message in table["messages"]:
        members = [*message["members"], *message.get("beside", ())]
        lines += python_class(message["word"], "forms.Command", python_document(message), members)
    lines += [
        "",
        "",
        "MESSAGES: Tuple[Type[forms.Command], ...] = (",
        *(f"    {it['word']}," for it in table["messages"]),
        ")",
    ]
    lines += [
        "",
        "# Messages about what was done: after a refusal they are not sent again.",
        f"REPORTS_OF_WORK: Tuple[str, ...] = {tuple(reports_of_work(table))!r}",
        "# These, and messages that handle reels: the line's book has an entry of a refusal.",
        f"RECORDED: Tuple[str, ...] = {tuple(recorded(table))!r}",
    ]
    lines += ["", "# What to do about a refusal, and about a fault."]
    lines += python_table(
        "REFUSALS", "Dict[str, str]", [(it["refusal"], plain(it["do"])) for it in table["refusals"]]
    )
    lines += python_table(
        "FAULTS", "Dict[str, str]", [(it["fault"], plain(it["do"])) for it in table["faults"]]
    )
    told = "an answer of this kind, once more, or stop and tell a person why."
    lines += ["", f"# What a status says to a sender: {told}"]
    for name, means, of in (("ANSWERS", "answer", "answer"), ("STOPS", "stop", "why")):
        its = [(it["status"], it[of]) for it in table["statuses"] if it["means"] == means]
        lines += python_table(name, "Dict[int, str]", its)
    again = tuple(it["status"] for it in table["statuses"] if it["means"] == "again")
    columns = {name: kind for it in table["reports"] for name, kind in it["columns"].items()}
    lines += [
        f"AGAIN: Tuple[int, ...] = {again!r}",
        f"FAULTS_OF_A_REQUEST: Tuple[str, ...] = {tuple(map(FAULT, table['request_faults']))!r}",
        "",
        "# The columns of reports, and what they have.",
        f"COLUMNS: Dict[str, str] = {columns!r}",
    ]
    return formatted("\n".join(lines) + "\n")


def formatted(text: str) -> str:
    """Python as black writes it."""
    if why := packages.lacking("black"):
        raise Wrong(why)
    black = ["black", "--quiet", f"--line-length={WIDTH}", "-"]
    return subprocess.run(black, input=text, stdout=subprocess.PIPE, text=True, check=True).stdout
