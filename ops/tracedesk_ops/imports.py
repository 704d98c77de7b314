"""Messages of tables as people have them: parts, alternates, reels and placements, in CSV as a
spreadsheet, an ERP or a placement program writes it.
"""
from __future__ import annotations

import datetime
import hashlib
import re
from collections.abc import Iterator, Mapping, Sequence
from typing import Any, NamedTuple

from tracedesk import forms, tables, words

PART = (
    *("part number", "part", "material", "material number"),
    *("teilenummer", "materialnummer", "artikel", "bauteil"),
)
# Of each kind its members: the columns that are known as it, and whether it has to be there. A
# column is one member: a batch is the reel, unless there is a reel; then it is the lot.
COLUMNS: dict[str, dict[str, tuple[tuple[str, ...], bool]]] = {
    "parts": {"PartNumber": (PART, True)},
    "alternates": {
        "PartNumber": (PART, True),
        "Alternate": (("substitute", "alternate part", "alternative", "ersatz"), True),
    },
    "reels": {
        "Reel": (("reel id", "rolle", "rollennummer", "batch", "charge"), True),
        "PartNumber": (PART, True),
        "Lot": (
            (
                "lot number",
                "lot code",
                "vendor batch",
                "lieferantencharge",
                "los",
                "batch",
                "charge",
            ),
            True,
        ),
        "Level": (("msl", "moisture level"), True),
        "Quantity": (("qty", "menge", "stock", "bestand", "anzahl"), True),
        "LabelMinutes": (("label minutes",), False),
        "DateCode": (("date code", "d/c"), False),
        "Supplier": (("vendor", "lieferant"), False),
        "MakerPart": (("maker part", "mpn", "manufacturer part"), False),
        "Order": (("purchase order", "bestellung"), False),
    },
    "placements": {
        "Designator": (("designators", "ref", "refdes", "ref des", "reference"), True),
        "PartNumber": ((*PART, "comp", "component"), True),
        "Slot": (("feeder", "feeder slot", "track", "spur"), True),
        "Product": (("program", "job"), False),
        "Machine": (("module",), False),
    },
}
OPTIONAL = ("LabelMinutes", "DateCode", "Supplier", "MakerPart", "Order")
NUMBERS = ("Quantity", "LabelMinutes")
WHICH = "it may be {} or {}: say --decimal comma or point"


class BadTable(ValueError):
    """Why nothing of a file can be read, or of its mapping."""


class Made(NamedTuple):
    """A message, what a person calls it, and the lines that it is of."""

    lines: list[int]
    name: str
    message: forms.Message


class Wrong(NamedTuple):
    """A row that gives no message, and why."""

    line: int
    why: str


class Given(NamedTuple):
    """What is said besides the file. `anew` makes UniqueIDs of their own."""

    source: str
    at: datetime.datetime
    decimal: str | None = None
    anew: str = ""


class Names(NamedTuple):
    """The names of the columns, or the text of all rows, by their members."""

    columns: dict[str, str]
    texts: dict[str, str]

    def row(self, row: tables.Row) -> dict[str, str]:
        return {**{name: row[it] for name, it in self.columns.items()}, **self.texts}


def mapping_of(text: str) -> dict[str, str]:
    """A mapping file: lines `Member = column`, or `Member = "text"` for all rows."""
    found: dict[str, str] = {}
    for number, line in enumerate(text.splitlines(), 1):
        name, equals, column = (it.strip() for it in line.partition("="))
        if not name or name.startswith("#"):
            continue
        if not equals or not column:
            raise BadTable(f'line {number}: it is no `Member = column`, or `Member = "text"`')
        if name in found:
            raise BadTable(f"line {number}: {name} is there twice")
        found[name] = column
    return found


def names_of(kind: str, heading: Sequence[str], mapping: Mapping[str, str]) -> Names:
    """Of each member its column: as the mapping says, else by its usual names."""
    known, found = COLUMNS[kind], Names({}, {})
    said = f"the heading has {', '.join(heading)}"
    if unknown := sorted(set(mapping) - set(known)):
        raise BadTable(f"{unknown[0]} is no member of {kind}: these are {', '.join(known)}")
    left = (it for it in heading if it not in mapping.values())
    usual = {re.sub(r"[ _.-]", "", it.lower()): it for it in left}
    for member, (others, is_wanted) in known.items():
        column = mapping.get(member, "")
        if re.fullmatch('".*"', column):
            found.texts[member] = column[1:-1]
        elif column and column not in heading:
            raise BadTable(f"{member} = {column}: {said}")
        else:
            tried = (re.sub(r"[ _.-]", "", it) for it in (member.lower(), *others))
            column = column or next((usual.pop(it) for it in tried if it in usual), "")
            if column:
                found.columns[member] = column
            elif is_wanted:
                raise BadTable(f"no column is {member}: {said}. A mapping names it")
    return found


def whole(text: str, decimal: str | None) -> Any:
    """A number of pieces: 4000, 4.000, 4,000, 4.000,000 or 4000,00; ValueError where it may be two
    numbers. What is no whole number stays a text, which is refused.
    """
    bare = re.sub(r"[ '\u00a0]", "", text)
    if alike := re.fullmatch(r"(\d{1,3})[.,]000", bare):
        if decimal is None:
            raise ValueError(f"{text!r} " + WHICH.format(alike[1], f"{alike[1]}000"))
        return int(alike[1]) * (1 if bare[-4] == decimal else 1000)
    for point, comma in ((".", ","), (",", ".")):
        of_comma = rf"(\d{{1,3}}(?:\{comma}\d{{3}})+|\d+)(?:\{point}0{{1,4}})?"
        if (told := re.fullmatch(of_comma, bare)) and decimal in (None, point):
            return int(told[1].replace(comma, ""))
    return text


def uid_of(kind: str, body: Mapping[str, Any], given: Given) -> str:
    """A UniqueID that is made of the content: the same row acts once, whenever it comes."""
    text = repr((kind, sorted(body.items()), given.anew))
    return f"{kind}-{hashlib.sha256(text.encode()).hexdigest()[:32]}"


def made(
    kind: str, part: type[forms.Command], body: dict[str, Any], lines: list[int], given: Given
) -> Made:
    shown = [
        str(body[it])
        for it in ("Reel", "PartNumber", "Alternate", "Product", "Machine")
        if it in body
    ]
    name = " ".join(shown[:1] if kind == "reels" else shown)
    uid = uid_of(kind, body, given)
    message = part.of_body(body).message(given.source, unique_id=uid, at=given.at)
    return Made(lines, name, message)


def body_of(row: Mapping[str, str], decimal: str | None) -> dict[str, Any]:
    """A body of a row; what may be left out and is empty isn't there."""
    told = {name: it for name, it in row.items() if it or name not in OPTIONAL}
    if told.get("Level") not in (None, "6"):
        told.pop("LabelMinutes", None)
    for name, it in told.items():
        if not it:
            raise ValueError(f"{name} is empty")
    return {name: whole(it, decimal) if name in NUMBERS else it for name, it in told.items()}


SINGLE: dict[str, type[forms.Command]] = {
    "parts": words.PartDefined,
    "alternates": words.AlternateAllowed,
    "reels": words.ReelReceived,
}


def rows_in(text: str) -> tuple[list[str], list[tuple[int, tables.Row | None, str]]]:
    """The heading of a table, and its rows."""
    try:
        rows = list(tables.rows_of(text))
        return tables.heading_of(text), rows
    except tables.NoTable as fault:
        raise BadTable(str(fault)) from None


def messages_of(
    kind: str, text: str, mapping: Mapping[str, str], given: Given
) -> tuple[list[Made], list[Wrong]]:
    """The messages of a table, in order, and the rows that give none. A row that is there twice
    counts once.
    """
    heading, rows = rows_in(text)
    names = names_of(kind, heading, mapping)
    good: list[tuple[int, dict[str, Any]]] = []
    wrong: list[Wrong] = []
    for line, row, why in rows:
        try:
            if row is None:
                raise ValueError(why)
            good.append((line, body_of(names.row(row), given.decimal)))
        except ValueError as fault:
            wrong.append(Wrong(line, str(fault)))
    make = of_placements if kind == "placements" else of_rows
    found = list(make(kind, good, wrong, given))
    return found, sorted(wrong)


def of_rows(
    kind: str, rows: list[tuple[int, dict[str, Any]]], wrong: list[Wrong], given: Given
) -> Iterator[Made]:
    """A message for each row. Of two rows with one reel and other words, the second is wrong."""
    seen: dict[str, tuple[int, str]] = {}
    for line, body in rows:
        try:
            it = made(kind, SINGLE[kind], body, [line], given)
        except ValueError as fault:
            wrong.append(Wrong(line, str(fault)))
            continue
        before, uid = seen.setdefault(it.name, (line, it.message.unique_id))
        if uid != it.message.unique_id:
            wrong.append(Wrong(line, f"{it.name} is in line {before} too, with other words"))
        elif before == line:
            yield it


def of_placements(
    kind: str, rows: list[tuple[int, dict[str, Any]]], wrong: list[Wrong], given: Given
) -> Iterator[Made]:
    """A sheet for each product and machine, of its rows; a wrong row spoils its sheet."""
    sheets: dict[tuple[str, str], dict[str, tuple[int, str, list[str]]]] = {}
    lines: dict[tuple[str, str], list[int]] = {}
    at: dict[tuple[str, str, str], int] = {}
    spoiled: set[tuple[str, str]] = set()
    for line, body in rows:
        key = body.get("Product", ""), body.get("Machine", "")
        try:
            if not all(key):
                raise ValueError(
                    "the product and the machine are in no column: --product, --machine"
                )
            slot, part = body["Slot"], body["PartNumber"]
            first, known, names = sheets.setdefault(key, {}).setdefault(slot, (line, part, []))
            if known != part:
                raise ValueError(f"slot {slot} has {part}, and in line {first} {known}")
            for name in re.split(r"[,; ]+", body["Designator"]):
                before = at.setdefault((*key, name), line)
                if name in names or before != line:
                    raise ValueError(f"designator {name} is in line {before} too")
                names.append(name)
            lines.setdefault(key, []).append(line)
        except ValueError as fault:
            wrong.append(Wrong(line, str(fault)))
            spoiled.add(key)
    for key, slots in sheets.items():
        rows_ = [
            {"Slot": slot, "PartNumber": part, "Designators": names}
            for slot, (_, part, names) in slots.items()
        ]
        body = {"Product": key[0], "Machine": key[1], "Rows": rows_}
        if key not in spoiled:
            try:
                yield made(kind, words.SheetDefined, body, lines[key], given)
            except ValueError as fault:
                wrong.append(Wrong(lines[key][0], str(fault)))
