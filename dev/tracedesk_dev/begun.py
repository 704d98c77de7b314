"""The messages of a desk that goes on from a file, as a roll-over says them: for tests and cases.

    begun.messages_of(pathlib.Path("sealed/9f2c..desk"))
"""
from __future__ import annotations

import pathlib

from tracedesk_ops import carry, copies, desk_tables, sealed


def begun(file: pathlib.Path, at: int | None = None) -> tuple[list[str], list[str]]:
    """The messages, and what the new desk doesn't know. `at` is its minute, if that is another."""
    with copies.copied(file) as copy:
        copies.fold(copy)
        lines, carrier = carry.begun(desk_tables.DeskTables(copy), sealed.digits_of(copy), at)
    return [str(line) for line in lines], [*carrier.notes()]


def messages_of(file: pathlib.Path, at: int | None = None) -> list[bytes]:
    return [line.encode() for line in begun(file, at)[0]]
