"""Fronts: they make records, JSON objects, of what a machine wrote: JSON, CSV or XML; of a file or
a body as a whole, and of a line.
"""
from __future__ import annotations

import decimal
import json
import pathlib
import re
from typing import Any, Callable, Iterable
from xml.etree import ElementTree

from filters import Record
from tracedesk import tables

Front = Callable[[bytes], "list[Record]"]


def record_of(value: Any) -> Record:
    """A record that wasn't JSON."""
    return Record(json.dumps(value, ensure_ascii=False, sort_keys=True).encode(), value)


def none_of(data: bytes, why: object) -> list[Record]:
    """What is no record is a text, so that somebody can look at it."""
    return [Record(json.dumps({"Text": tables.decoded(data)}).encode(), None, str(why))]


# --- JSON: an object, or a list of them


def no_number(text: str) -> None:
    raise ValueError(f"{text} is no number of JSON")


def each_once(pairs: Iterable[tuple[str, Any]]) -> dict[str, Any]:
    """An object. One that has a member twice says two things, and nobody knows which."""
    found: dict[str, Any] = {}
    for name, value in pairs:
        if name in found:
            raise ValueError(f"{name!r:.100} is there twice")
        found[name] = value
    return found


JSON = json.JSONDecoder(
    parse_float=decimal.Decimal, parse_constant=no_number, object_pairs_hook=each_once
)
GAP = re.compile(r"[\s,]*")


def looked_at(text: bytes, value: Any) -> Record:
    is_object = isinstance(value, dict)
    return Record(text.replace(b"\n", b" "), value, None if is_object else "it is no JSON object")


def json_records(data: bytes) -> list[Record]:
    """The records of a line or of a body, each with its bytes."""
    try:
        text = data.decode(json.detect_encoding(data), "surrogatepass").strip()
        told = JSON.decode(text)
        if not isinstance(told, list):
            return [looked_at(data, told)]
        found: list[Record] = []
        at = text.index("[") + 1
        for value in told:
            gap = GAP.match(text, at)
            begun = gap.end() if gap else at
            _, at = JSON.raw_decode(text, begun)
            found.append(looked_at(text[begun:at].encode(errors="surrogatepass"), value))
        return found
    except (ValueError, RecursionError, ArithmeticError) as fault:
        return [Record(data, None, f"it is no JSON: {fault}")]


# --- CSV: a row by the names of the heading


def csv_record(data: bytes) -> list[Record]:
    """The record of a whole table: {"Rows": [..]}."""
    try:
        rows = list(tables.rows_of(tables.decoded(data)))
    except tables.NoTable as fault:
        return none_of(data, fault)
    for line, row, why in rows:
        if row is None:
            return none_of(data, f"line {line}: {why}")
    return [record_of({"Rows": [row for _, row, _ in rows]})]


def csv_line(data: bytes, heading: bytes, number: int = 0) -> list[Record]:
    """The record of a row, below this heading; its line's number is for whoever mends it."""
    try:
        first = tables.decoded(heading).rstrip("\r\n")
        delimiter = tables.delimiter_of(first)
        names = tables.names_of(tables.fields_of(first, delimiter))
        fields = tables.fields_of(tables.decoded(data).rstrip("\r\n"), delimiter)
        return [record_of(tables.row_of(names, fields))]
    except tables.NoTable as fault:
        return none_of(data, f"line {number}: {fault}" if number else fault)


# --- XML: an element is an object with its attributes, its text, and of each tag a list


def object_of(element: ElementTree.Element) -> dict[str, Any]:
    found: dict[str, Any] = {name.rpartition("}")[2]: it for name, it in element.attrib.items()}
    inner: dict[str, list[Any]] = {}
    for it in element:
        inner.setdefault(str(it.tag).rpartition("}")[2], []).append(object_of(it))
    text = (element.text or "").strip()
    more: dict[str, Any] = {**inner, **({"Text": text} if text else {})}
    if both := sorted(set(found) & set(more)):
        raise ValueError(f"{both[0]} is an attribute and an element of {element.tag}")
    return {**found, **more}


def xml_record(data: bytes) -> list[Record]:
    """The record of a document: {"TAG": {..}}."""
    try:
        root = ElementTree.fromstring(data)
        return [record_of({str(root.tag).rpartition("}")[2]: object_of(root)})]
    except (ElementTree.ParseError, ValueError, RecursionError, LookupError) as fault:
        return none_of(data, f"it is no XML: {fault}")


def json_lines(data: bytes) -> list[Record]:
    """The records of the lines of a file."""
    return [it for line in data.split(b"\n") if line.strip() for it in json_records(line.strip())]


# Of each form, what makes records of a whole body.
FORMS: dict[str, Front] = {"json": json_records, "csv": csv_record, "xml": xml_record}
ENDINGS: dict[str, Front] = {f".{name}": it for name, it in FORMS.items()}
ENDINGS |= {".jsonl": json_lines, ".ndjson": json_lines}


def of_file(path: pathlib.Path, form: "str | None") -> "Front | None":
    """The front of a file of a folder, by its ending; None for a file that is left alone."""
    front = ENDINGS.get(path.suffix.lower())
    return FORMS[form] if form and front else front
