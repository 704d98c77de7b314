"""Sends a desk the parts, alternates, reels or placements of a table in CSV, as a spreadsheet, an
ERP or a placement program writes it.

usage: tracedesk-ops import KIND FILE [--columns FILE] [--product NAME] [--machine NAME]
       [--decimal comma | point] [--dry-run] [--again] [--source NAME] [--url URL] [--ca FILE]
       [--user NAME --password-file FILE]

examples:
  tracedesk-ops import parts parts.csv --dry-run
  tracedesk-ops import reels delivery.csv --columns delivery.columns
  tracedesk-ops import placements ctrl-a.csv --product CTRL-A --machine M1
  tracedesk-ops import alternates alternates.csv --url https://desk.plant --ca server.crt \\
      --user erp --password-file erp.password

KIND is parts, alternates, reels or placements. The delimiter (; , tab |), quotes and the encoding
(UTF-8, UTF-16, Windows' own) of FILE are found. Columns are known by usual names, in English and
German. A file of --columns names others, a line each: `Quantity = Menge`, or `Level = "1"` for all
rows. A row of placements is a designator, or several in one field; rows of a product and machine
become one setup sheet.

If one row is wrong, it is named with its line and why, and nothing is sent. UniqueIDs are made of
the content, so that a second call changes nothing: its rows are known. Within the same minute they
count as accepted, since the desk repeats its first answer. A sheet that was sent before is not sent
again, also where another one has replaced it since: --again does.

--columns   the names of the columns
--product, --machine   of placements, where no column has them
--decimal   what stands before the fraction of a number: else 4.000 may be 4 or 4000, and is wrong
--dry-run   prints the messages and sends none; of reels and sheets also whether the desk has them
--again     sends as if it were sent for the first time
--source    who sends (import)
--url       the desk, or the proxy in front of it (http://127.0.0.1:8080)
--ca        who signed the proxy's certificate
--user, --password-file   the log-in at the proxy

Exit status: 0 all was accepted, or known before; 1 rows are wrong or were refused; 2 bad command
line, or a file that can't be read; 3 no answer of a desk; 9 an unexpected failure.
"""
from __future__ import annotations

import argparse
import datetime
import pathlib
from collections import Counter

from tracedesk import Desk, GivenUp, NotTaken, NotThere, answers, tables
from tracedesk_ops import desks, imports, plant

DONE, WRONG, BAD, NO_ANSWER = 0, 1, 2, 3
DECIMALS = {"comma": ",", "point": "."}
WORKBOOKS = (b"PK\x03\x04", b"\xd0\xcf\x11\xe0")  # how .xlsx, .ods and .xls begin
# Seconds for an answer, and for a desk that is asked before anything is sent.
PATIENCE, QUICK = 60.0, 3.0


def reader() -> argparse.ArgumentParser:
    it = desks.reader_for("import", __doc__)
    it.add_argument("kind", choices=tuple(imports.COLUMNS), metavar="KIND")
    it.add_argument("file", type=pathlib.Path, metavar="FILE")
    it.add_argument("--columns", type=pathlib.Path, metavar="FILE")
    for name in ("product", "machine"):
        it.add_argument(f"--{name}", metavar="NAME")
    it.add_argument("--decimal", choices=tuple(DECIMALS))
    it.add_argument("--dry-run", action="store_true")
    it.add_argument("--again", action="store_true")
    it.add_argument("--source", metavar="NAME", default="import")
    return it


def mapping(asked: argparse.Namespace) -> dict[str, str]:
    """Which columns are which, and what all rows have."""
    text = asked.columns.read_text(encoding="utf-8-sig") if asked.columns else ""
    found = imports.mapping_of(text)
    for member, name in (("Product", asked.product), ("Machine", asked.machine)):
        if name:
            found[member] = f'"{name}"'
    return found


def now() -> datetime.datetime:
    return datetime.datetime.now(datetime.timezone.utc)


def made(asked: argparse.Namespace) -> tuple[list[imports.Made], list[imports.Wrong]]:
    """The messages of the file, and its rows that are wrong."""
    at = now()
    anew = f"{at:%Y-%m-%dT%H:%M:%S.%f}" if asked.again else ""
    given = imports.Given(asked.source, at, DECIMALS.get(asked.decimal or ""), anew)
    try:
        named = mapping(asked)
    except ValueError as fault:
        raise imports.BadTable(f"{asked.columns}: {fault}") from None
    try:
        data = asked.file.read_bytes()
        if data.startswith(WORKBOOKS):
            raise imports.BadTable("it is a workbook: save it as CSV")
        return imports.messages_of(asked.kind, tables.decoded(data), named, given)
    except imports.BadTable as fault:
        raise imports.BadTable(f"{asked.file}: {fault}") from None


def lines_of(it: imports.Made) -> str:
    several = f"lines {it.lines[0]} to {it.lines[-1]}"
    return several if len(it.lines) > 1 else f"line {it.lines[0]}"


def known(its: Desk, kind: str, it: imports.Made) -> str:
    """What the desk has under the name of a message."""
    try:
        if kind == "reels":
            card = its.reel(it.name)
            return f"the desk has it: part {card.part}, lot {card.lot}"
        body = answers.read_object(it.message.text)["MessageBody"]
        its.report("/kit", product=body["Product"], machine=body["Machine"], boards=1)
        return "it takes the place of the desk's sheet"
    except NotThere:
        return "it is new"


def shown(asked: argparse.Namespace, found: list[imports.Made]) -> int:
    """Prints the messages, and what the desk has of them as long as it answers."""
    with desks.client(asked, QUICK) as its:
        is_asked = asked.kind in ("reels", "placements")
        for it in found:
            more = ""
            try:
                more = f"  {known(its, asked.kind, it)}" if is_asked else ""
            except (GivenUp, NotTaken, OSError) as fault:
                is_asked = False
                plant.tell(f"the desk isn't asked: {fault}")
            print(f"{lines_of(it)}: {it.message.text.decode()}{more}")
    return DONE


def said(its: Desk, asked: argparse.Namespace, it: imports.Made) -> tuple[str, str]:
    """What became of a message: accepted, known or refused; and why."""
    answer = its.send(it.message)
    if isinstance(answer, answers.Accepted):
        return "accepted", ""
    if isinstance(answer, answers.Refused):
        if answer.refusal in ("IdReused", "PartExists"):
            return "known", ""
        if answer.refusal == "ReelExists":
            card, wanted = its.reel(it.name), answers.read_object(it.message.text)["MessageBody"]
            if (card.part, card.lot) == (wanted["PartNumber"], wanted["Lot"]):
                return "known", ""
            return "refused", f"ReelExists: the desk has it with part {card.part}, lot {card.lot}"
    return "refused", answers.why(answer)


def sent(asked: argparse.Namespace, found: list[imports.Made]) -> int:
    """Sends the messages, and reports at the end."""
    counts = Counter({"accepted": 0, "known": 0, "refused": 0})
    with desks.client(asked, PATIENCE) as its:
        for it in found:
            what, why = said(its, asked, it)
            counts[what] += 1
            if why:
                print(f"{lines_of(it)}: {it.name} is refused: {why}")
    print(", ".join(f"{count} {what}" for what, count in counts.items()))
    return WRONG if counts["refused"] else DONE


def main(words: list[str] | None = None) -> int:
    asked = desks.understood(reader(), words)
    try:
        found, wrong = made(asked)
    except (imports.BadTable, ValueError, OSError) as fault:
        plant.tell(str(fault))
        return BAD
    if wrong:
        for row in wrong:
            print(f"line {row.line}: {row.why}")
        print(f"{len(wrong)} rows are wrong, so nothing is sent")
        return WRONG
    try:
        return shown(asked, found) if asked.dry_run else sent(asked, found)
    except (GivenUp, NotTaken, OSError) as fault:
        plant.tell(f"{asked.url}: {fault}. A second call goes on")
        return NO_ANSWER
