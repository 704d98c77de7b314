"""The answer for one customer: their serials only, with those that hold no piece."""
from __future__ import annotations

import contextlib
import sqlite3
from collections.abc import Iterable
from typing import Any

from tracedesk_ops import copies, sealed
from tracedesk_ops.recalls import tables, wording
from tracedesk_ops.recalls.recall import Recall
from tracedesk_ops.recalls.tables import Shipped, Table

HEADER = ("board", "customer", "date", "holds", "pieces", "first_minute", "last_minute")
YES, NO, PERHAPS, NOT_KNOWN = "yes", "no", "perhaps", "not known"
# columns of untraced work with names of senders and people, and anybody's words
HIDDEN = ("place", "source", "decided_by", "reason")
SAID_TO_THE_PLANT = "the plant's own evidence of this recall says why"
KNOWN = "SELECT 1 FROM board WHERE board = ?"


def serials_of(shipped: Shipped, customer: str) -> dict[str, str]:
    """The serials of a customer, and the dates."""
    return {
        board: "; ".join(date for name, date in rows if name == customer)
        for board, rows in shipped.items()
        if any(name == customer for name, _ in rows)
    }


def unknown(recall: Recall, serials: Iterable[str]) -> set[str]:
    """The serials that no file of the lines knows."""
    left = set(serials)
    for _, file in recall.those.paths() if left else ():
        with contextlib.suppress(OSError, sqlite3.Error), sealed.opened(file) as database:
            left -= {its for its in left if copies.rows(database, KNOWN, its)}
    return left


def narrow(recall: Recall, shipped: Shipped, customer: str) -> dict[str, Table]:
    """The tables for a customer. A serial that nobody knows makes the answer incomplete, and in an
    incomplete one nobody knows that a serial holds none.
    """
    serials = serials_of(shipped, customer)
    # what is on a board that nobody named may be on each
    doubtful = {row[1] for row in recall.doubtful} | {row[3] for row in recall.undecided()}
    if nowhere := unknown(recall, serials.keys() - {piece.board for piece in recall.pieces}):
        named = ", ".join(sorted(nowhere)[:20])
        recall.faults.append(
            f"{len(nowhere)} serials of {customer} are known to none of these lines: {named}."
            " Look at how they are spelled, and ask the lines that made them"
        )
    without = NOT_KNOWN if recall.status() == 3 else NO
    rows: Table = [HEADER]
    whole = tables.tables_of(recall, None)
    by_board = {row[0]: row for row in whole["boards"][1:]}
    for serial, date in serials.items():
        its = by_board.get(serial)
        holds = PERHAPS if doubtful & {serial, ""} else without
        placed = its[1:4] if its else [0, "", ""]
        rows.append([serial, customer, date, YES if its else holds, *placed])
    places = {"pieces": 0, "doubtful": 1, "untraced": 3}  # of the column that has the board
    own = {
        name: [whole[name][0], *(row for row in whole[name][1:] if row[at] in {*serials, ""})]
        for name, at in places.items()
    }
    left = [at for at, name in enumerate(own["untraced"][0]) if name not in HIDDEN]
    own["untraced"] = [[row[at] for at in left] for row in own["untraced"]]
    return {"serials": rows, **own}


def sentence(recall: Recall, serials: Table) -> str:
    """Whether the answer is complete, and how many of the serials hold a piece."""
    count = {word: 0 for word in (YES, NO, PERHAPS, NOT_KNOWN)}
    for row in serials[1:]:
        count[str(row[3])] += 1
    texts = [
        f"{wording.begin(recall)}: of your {len(serials) - 1} serials {count[YES]} hold a piece",
        f"{count[NO]} hold none",
    ]
    texts += [f"{count[PERHAPS]} may hold one"] if count[PERHAPS] else []
    texts += [f"{count[NOT_KNOWN]} are not known"] if count[NOT_KNOWN] else []
    return f"{', '.join(texts)}."


def hide(told: dict[str, Any], customer: str) -> None:
    """Takes out of a certificate what a customer may not see: folders, senders and people of the
    plant, and boards of others, as where two files differ. It has the checksums of the files alone.
    Its title names the customer.
    """
    told["title"] += f", for {customer}"
    told["notes"] = []
    told["reasons"] = told["reasons"] and [SAID_TO_THE_PLANT]
    for line in told["lines"]:
        line["folder"] = None
        for archive in line["archives"]:
            archive["why"] = archive["why"] and SAID_TO_THE_PLANT
