"""Tables as people and programs write them: CSV whose encoding, delimiter and heading are found."""
from __future__ import annotations

import csv
import io
from typing import Dict, Iterator, List, Optional, Tuple

DELIMITERS = ";\t,|"
MARKS = ((b"\xef\xbb\xbf", "utf-8-sig"), (b"\xff\xfe", "utf-16"), (b"\xfe\xff", "utf-16"))
Row = Dict[str, str]


class NoTable(ValueError):
    """Why a text is no table."""


def decoded(data: bytes) -> str:
    """The text of a file: by its mark, else UTF-8, else what Windows writes in the West."""
    try:
        for mark, name in MARKS:
            if data.startswith(mark):
                return data.decode(name)
        return data.decode()
    except UnicodeDecodeError:
        return data.decode("cp1252", "replace") if not data.startswith(MARKS[1][0]) else ""


def delimiter_of(heading: str) -> str:
    """What stands between the names of a heading, outside of quotes: what is there most often."""
    outside = "".join(heading.split('"')[::2])
    return max(DELIMITERS, key=lambda it: (outside.count(it), -DELIMITERS.index(it)))


def fields_of(line: str, delimiter: str) -> List[str]:
    """The fields of a line that is a row."""
    try:
        return next(csv.reader([line], delimiter=delimiter, strict=True), [])
    except csv.Error as fault:
        raise NoTable(f"it is no row: {fault}") from None


def names_of(fields: List[str]) -> List[str]:
    """The names of a heading; empty ones at its end have no column."""
    names = [it.strip() for it in fields]
    while names and not names[-1]:
        names.pop()
    twice = [it for at, it in enumerate(names) if it in names[:at]]
    if not names or twice or not all(names):
        why = f"has {twice[0]!r:.100} twice" if twice else "lacks the name of a column"
        raise NoTable(f"the heading {why}")
    return names


def row_of(names: List[str], fields: List[str]) -> Row:
    """The fields by their names, without the blanks around them."""
    more = len(fields) - len(names)
    if more < 0 or any(it.strip() for it in fields[len(names) :]):
        raise NoTable(f"it has {len(fields)} fields, and the heading has {len(names)}")
    return {name: it.strip() for name, it in zip(names, fields)}


def begun(text: str) -> Tuple[List[str], int, str]:
    """The lines of a table, in which its heading is, and its delimiter."""
    lines = text.splitlines(keepends=True)
    before = 0
    while before < len(lines) and not lines[before].strip(f" {DELIMITERS}\r\n"):
        before += 1
    named = lines[before][4:5] if before < len(lines) and lines[before][:4] == "sep=" else ""
    before += bool(named)
    if before == len(lines):
        raise NoTable("it has no heading")
    return lines, before, named or delimiter_of(lines[before])


def heading_of(text: str) -> List[str]:
    """The names of the columns."""
    lines, before, delimiter = begun(text)
    return names_of(fields_of(lines[before].rstrip("\r\n"), delimiter))


def rows_of(text: str) -> Iterator[Tuple[int, Optional[Row], str]]:
    """The rows below the heading, each with the number of its line, or why it is none. Empty ones
    are left out. NoTable where there is no heading.
    """
    lines, before, delimiter = begun(text)
    rows = csv.reader(io.StringIO("".join(lines[before:])), delimiter=delimiter, strict=True)
    names: List[str] = []
    while True:
        line = before + rows.line_num + 1
        try:
            fields = next(rows)
            if not names:
                names = names_of(fields)
            elif any(it.strip() for it in fields):
                yield line, row_of(names, fields), ""
        except StopIteration:
            return
        except csv.Error as fault:
            raise NoTable(f"line {line}: it is no row: {fault}") from None
        except NoTable as fault:
            if not names:
                raise NoTable(f"line {line}: {fault}") from None
            yield line, None, str(fault)
