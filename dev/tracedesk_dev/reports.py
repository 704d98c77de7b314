"""The reports of a desk, by queries on its tables: for dev/ask, examples/day and ops/plant.

A target is that of the reports (`/slots?machine=M1`), and the text is the CSV of
docs/definitions.md, or one JSON object that says what was not found. Everything is read by Python's
sqlite3 off a copy of the file and its log (copies.py), so this is a second way to the same answers:
examples/day compares the two.
"""
import csv
import io
import json
import re
import sqlite3
import urllib.parse
from typing import Any, Callable, Iterable, Sequence

from tracedesk_dev.limits import limits

LIMITS = {"1": None, "2": 525_600, "2a": 40_320, "3": 10_080, "4": 4_320, "5": 2_880, "5a": 1_440}
PLACED = "SELECT {} FROM placement JOIN reel USING (reel) WHERE {}"
DETAILS = {  # columns of a trace by what is asked and the detail
    "board": ("part", "part,lot", "part,lot,reel", "designator,part,lot,reel,machine,slot,overdue"),
    "lot": (
        "board",
        "board,part",
        "board,part,reel",
        "board,designator,part,reel,machine,slot,overdue",
    ),
}


class NotFound(Exception):
    pass


def csv_text(header: str, rows: Iterable[Sequence[object]]) -> str:
    text = io.StringIO()
    csv.writer(text, lineterminator="\n").writerows([header.split(","), *rows])
    return text.getvalue()


def desk_minute(database: sqlite3.Connection) -> int:
    (minute,) = database.execute("SELECT coalesce(max(effective), 0) FROM accepted").fetchone()
    return int(minute)


def minutes_left(database: sqlite3.Connection, reel: str) -> str | int:
    """What is left of a reel's floor life at the desk minute: a number, or a word."""
    level, label, used, since, baked = database.execute(
        "SELECT level, label, used, open_since, baked FROM reel WHERE reel = ?", [reel]
    ).fetchone()
    if level == "6" and not baked:
        return "unbaked"
    limit: int | None = label if level == "6" else LIMITS[level]
    if limit is None:
        return "unlimited"
    out: int = used + (desk_minute(database) - since if since >= 0 else 0)
    return max(0, limit - out)


def exists(database: sqlite3.Connection, kind: str, table: str, **wanted: str) -> None:
    where = " AND ".join(f"{name} = ?" for name in wanted)
    if not database.execute(
        f"SELECT 1 FROM {table} WHERE {where} LIMIT 1", list(wanted.values())
    ).fetchone():
        raise NotFound(kind)


def trace(database: sqlite3.Connection, by: str, name: str, detail: str | None) -> str:
    exists(database, by.title(), "board" if by == "board" else "reel", **{by: name})
    if detail not in ("1", "2", "3", "4"):
        raise ValueError(detail)
    columns = DETAILS[by][int(detail) - 1]
    shown = columns.replace("overdue", "CASE overdue WHEN 1 THEN 'yes' ELSE 'no' END")
    return csv_text(
        columns, sorted(set(database.execute(PLACED.format(shown, f"{by} = ?"), [name])))
    )


def reel_card(database: sqlite3.Connection, reel: str) -> str:
    exists(database, "Reel", "reel", reel=reel)
    columns = "reel,part,lot,level,received,placed,scrapped,remaining"
    row = database.execute(f"SELECT {columns} FROM reel WHERE reel = ?", [reel]).fetchone()
    mounted = database.execute("SELECT 1 FROM mount WHERE reel = ?", [reel]).fetchone()
    out = database.execute("SELECT open_since >= 0 FROM reel WHERE reel = ?", [reel]).fetchone()[0]
    return csv_text(
        columns + ",minutes_left,state",
        [
            (
                *row,
                minutes_left(database, reel),
                "mounted" if mounted else "open" if out else "sealed",
            )
        ],
    )


def slot_list(database: sqlite3.Connection, machine: str) -> str:
    exists(database, "Machine", "sheet_row", machine=machine)
    query = (
        "SELECT slot, row_number() OVER (PARTITION BY slot ORDER BY since), reel, part, lot,"
        " remaining FROM mount JOIN reel USING (reel) WHERE machine = ? ORDER BY slot, since"
    )
    return csv_text(
        "slot,position,reel,part,lot,remaining,minutes_left",
        [(*row, minutes_left(database, row[2])) for row in database.execute(query, [machine])],
    )


def free_reels(database: sqlite3.Connection, part: str) -> list[tuple[Any, ...]]:
    """Reels that may stand where a sheet says this part, in the order in which a kit gives them:
    name, pieces, minutes left.
    """
    query = """SELECT reel, remaining FROM reel WHERE remaining > 0 AND reel NOT IN (SELECT reel FROM mount)
               AND (part = ?1 OR part IN (SELECT alternate FROM alternate WHERE part = ?1)) ORDER BY reel"""
    told = [
        (reel, pieces, minutes_left(database, reel))
        for reel, pieces in database.execute(query, [part]).fetchall()
    ]
    return sorted(
        (it for it in told if it[2] not in ("unbaked", 0)),
        key=lambda it: (it[2] == "unlimited", it[2] if it[2] != "unlimited" else 0),
    )


def kit_list(database: sqlite3.Connection, product: str, machine: str, boards: str) -> str:
    most = limits()["MOST_BOARDS"].number
    if not re.fullmatch("[0-9]{1,6}", boards) or not 1 <= int(boards) <= most:
        raise ValueError(boards)
    exists(database, "Sheet", "sheet_row", product=product, machine=machine)
    given, rows = set(), []
    query = (
        "SELECT slot, part, designators FROM sheet_row WHERE product = ? AND machine = ? ORDER BY"
        " place"
    )
    for slot, part, designators in database.execute(query, [product, machine]).fetchall():
        needed = missing = int(boards) * len(designators.split())
        for reel, pieces, left in free_reels(database, part):
            if missing > 0 and reel not in given:
                given.add(reel)
                rows.append((slot, part, needed, reel, pieces, left))
                missing -= pieces
        if missing > 0:
            rows.append((slot, part, needed, "", missing, "short"))
    return csv_text("slot,part,needed,reel,pieces,minutes_left", rows)


def overdue_list(database: sqlite3.Connection) -> str:
    query = (
        "SELECT board, designator, reel, effective FROM placement JOIN accepted USING (number)"
        " WHERE overdue ORDER BY number, place"
    )
    return csv_text("board,designator,reel,minute", database.execute(query))


REPORTS: dict[str, Callable[..., str]] = {
    "/trace/board": lambda base, board, detail: trace(base, "board", board, detail),
    "/trace/lot": lambda base, lot, detail: trace(base, "lot", lot, detail),
    "/reel": lambda base, reel: reel_card(base, reel),
    "/slots": lambda base, machine: slot_list(base, machine),
    "/kit": lambda base, product, machine, boards: kit_list(base, product, machine, boards),
    "/overdue": overdue_list,
}


def report(database: sqlite3.Connection, target: str) -> str:
    """The text of a report; a word that is missing or unknown is an error of the caller."""
    path, _, query = target.partition("?")
    words = dict(urllib.parse.parse_qsl(query, keep_blank_values=True))
    try:
        return REPORTS[path](database, **words)
    except NotFound as kind:
        return json.dumps({"Answer": "NotFound", "Kind": str(kind)}, separators=(",", ":")) + "\n"
