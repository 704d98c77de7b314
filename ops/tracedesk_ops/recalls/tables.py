"""The tables that a recall prints."""
from __future__ import annotations

import functools
from collections.abc import Sequence
from typing import Any

from tracedesk_ops import catalogue, tapes, untraced
from tracedesk_ops.firstlook import Piece, ReelLeft
from tracedesk_ops.recalls.recall import Recall

Table = list[Sequence[Any]]  # the first row is the header
Shipped = dict[str, list[list[str]]]  # by board the customers and dates


@functools.lru_cache
def spelled(minute: int | None) -> str:
    return "" if minute is None else catalogue.spelled(minute)


def boards_table(recall: Recall, shipped: Shipped | None) -> Table:
    """A row for each board."""
    boards: dict[str, list[Piece]] = {}
    for it in recall.pieces:
        boards.setdefault(it.board, []).append(it)
    header = ["board", "pieces", "first_minute", "last_minute", "line", "overdue", "file"] + (
        ["customer", "date"] if shipped is not None else []
    )
    return [header] + [
        board_row(board, pieces) + (shipment(shipped, board) if shipped is not None else [])
        for board, pieces in boards.items()
    ]


def board_row(board: str, pieces: list[Piece]) -> list[Any]:
    minutes = [it.minute for it in pieces]
    overdue = "yes" if any(it.overdue == "yes" for it in pieces) else "no"
    return [
        board,
        len(pieces),
        spelled(min(minutes)),
        spelled(max(minutes)),
        "; ".join(dict.fromkeys(piece.line for piece in pieces)),
        overdue,
        "; ".join(dict.fromkeys(piece.file for piece in pieces)),
    ]


def shipment(shipped: Shipped, board: str) -> list[str]:
    """The customers of a board and the dates, in the order of the list; empty where it was not
    shipped.
    """
    return ["; ".join(it) for it in zip(*shipped[board])] if board in shipped else ["", ""]


def tables_of(recall: Recall, shipped: Shipped | None) -> dict[str, Table]:
    now = f"{recall.minute:%Y-%m-%dT%H:%M:00Z}"
    return {
        "boards": boards_table(recall, shipped),
        "pieces": [
            Piece._fields,
            *([*it[:8], spelled(it.minute), *it[9:]] for it in recall.pieces),
        ],
        "reels": [
            [*ReelLeft._fields[:-1], "as_of"],
            *([*it[:-1], spelled(it.minute) or now] for it in recall.reels),
        ],
        "untraced": [
            ["line", *untraced.WORK, "id", "reels", *untraced.OUTCOME],
            *recall.untraced,
        ],
        "doubtful": [["line", *tapes.HEADER], *recall.doubtful],
    }
