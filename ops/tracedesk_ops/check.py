"""What keeps a line's desk from running, and whether its files are a chain.

A file that is damaged is not explained row by row: the proved audit judges it, and the remedy is
always to restore the newest sealed file.

    check.hindrances(line.desk, program.audit)     # why the desk can't run
    check.chain_faults("tracedesk", lineage.of(line))
"""
from __future__ import annotations

import os
import pathlib
from collections.abc import Iterator

from tracedesk_ops import chains, copies, files, outside, plant, sealing
from tracedesk_ops.lineage import Lineage

Path = pathlib.Path

OTHERS_FIRST = "book OthersFirst"  # docs/line.md, "A file that nobody serves"


def hindrances(desk: Path, audit: sealing.Audit) -> list[str]:
    """Why a desk can't run; nothing if it can, or runs. The audit is asked only if nothing else is
    in the way.
    """
    file = str(desk)
    if nothing := outside.no_file(file):
        return [nothing.text()]
    if os.access(desk, os.R_OK, effective_ids=True):
        if others := [its.text() for its in outside.in_use(file)]:
            return others
        if plant.is_open(desk):
            return []
    return [its.text() for its in outside.outside(file)] or [*unlawful(desk, audit)]


def want_one_name(desk: Path) -> None:
    """Stops before anything is stopped if no run would open the desk again."""
    names = (outside.Finding(outside.OTHER_NAME, it) for it in outside.names(str(desk)))
    if found := outside.no_file(str(desk)) or next(names, None):
        raise plant.Fault(found.text())


def unlawful(desk: Path, audit: sealing.Audit) -> Iterator[str]:
    """What the audit finds in a copy, which is made where temporary files are."""
    with files.Room() as room:
        plant.want_room(room, sealing.bytes_of(desk), f"a copy of {desk}: TMPDIR names another one")
        copy = Path(room, "desk")
        copies.copy(desk, copy)
        try:
            audit(copy)
        except plant.Fault as fault:
            remedy = f"look at the disk (journalctl --dmesg), and {outside.RESTORE}"
            if OTHERS_FIRST in str(fault):
                remedy = "drop the tables and views that somebody added"
            yield f"not lawful: {str(fault).replace(str(copy), f'a copy of {desk}')}: {remedy}"


def chain_faults(program: str, found: Lineage) -> Iterator[str]:
    """Why tracedesk-chain finds that the files are no chain."""
    if not found.chain:
        return
    paths = [file.path for file in found.chain]
    digits = [file.digits for file in found.chain]
    if not (chain := plant.chain_of(program)):
        yield "there is no tracedesk-chain next to tracedesk: CHAIN names it"
        return
    try:
        chains.asked(chain, ["check"], paths, digits)
    except (chains.NoAnswer, plant.Fault) as fault:
        yield f"{paths[0].parent}: its files are no chain: {fault}. Take them from a mirror"
