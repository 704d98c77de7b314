"""Prints labels of reels in ZPL, as many label printers take it.

usage: tracedesk-ops label REEL.. [--bare] [--size WIDTHxHEIGHT] [--dots N] [--url URL] [--ca FILE]
       [--user NAME --password-file FILE]

examples:
  tracedesk-ops label K-01 K-02 > /dev/usb/lp0
  tracedesk-ops label K-01 --size 70x30 --dots 12 | nc -N printer.plant 9100
  cut -d ';' -f 1 delivery.csv | tail -n +2 | tracedesk-ops label - | lp -d labels -o raw

A label has the reel's name as a Data Matrix, which the station scans, and as text. Next to it are
part, lot, level and pieces as the desk has them. With - the names are lines of standard input. If
a name is wrong, or the desk doesn't have the reel, nothing is printed.

--bare   the name alone; no desk is asked
--size   of a label, in millimetres (50x25)
--dots   of the printer in a millimetre: 8 at 203 dpi, 12 at 300 dpi (8)
--url    the desk, or the proxy in front of it (http://127.0.0.1:8080)
--ca     who signed the proxy's certificate
--user, --password-file   the log-in at the proxy

Exit status: 0 printed; 1 a name is wrong or too long, or the desk doesn't have it; 2 bad command
line; 3 no answer of a desk; 9 an unexpected failure.
"""
from __future__ import annotations

import argparse
import re
import sys

from tracedesk import Desk, GivenUp, NotTaken, NotThere, words
from tracedesk_ops import desks, plant, zpl

DONE, WRONG, NO_ANSWER = 0, 1, 3
PATIENCE = 10.0  # seconds for an answer


def size(text: str) -> tuple[float, float]:
    told = re.fullmatch(r"(\d+(?:\.\d+)?)x(\d+(?:\.\d+)?)", text)
    if not told:
        raise argparse.ArgumentTypeError("a size is WIDTHxHEIGHT in millimetres, as 50x25")
    return float(told[1]), float(told[2])


def reader() -> argparse.ArgumentParser:
    it = desks.reader_for("label", __doc__)
    it.add_argument("reels", nargs="+", metavar="REEL")
    it.add_argument("--bare", action="store_true")
    it.add_argument("--size", type=size, metavar="SIZE", default=(50.0, 25.0))
    it.add_argument("--dots", type=int, metavar="N", choices=range(6, 25), default=8)
    return it


def named(asked: argparse.Namespace) -> list[str]:
    """The names; - is those of standard input."""
    found: list[str] = []
    for name in asked.reels:
        lines = sys.stdin.read().splitlines() if name == "-" else [name]
        found += [words.NAME.checked("Reel", it.strip()) for it in lines if it.strip()]
    return found


def told_of(its: Desk, name: str) -> list[str]:
    """What the desk has of a reel, as lines of a label."""
    card = its.reel(name)
    return [card.part, f"LOT {card.lot}", f"MSL {card.level}   {card.remaining} PCS"]


def main(given: list[str] | None = None) -> int:
    asked = desks.understood(reader(), given)
    width, height = asked.size
    paper = zpl.Paper(width, height, asked.dots)
    made, name = [], ""
    try:
        with desks.client(asked, PATIENCE) as its:
            for name in named(asked):
                made.append(zpl.label(name, [] if asked.bare else told_of(its, name), paper))
    except (GivenUp, NotTaken, OSError) as fault:
        plant.tell(f"{asked.url}: {fault}")
        return NO_ANSWER
    except (ValueError, NotThere) as fault:
        plant.tell(f"{name}: {fault}" if isinstance(fault, NotThere) else str(fault))
        return WRONG
    plant.write_out("".join(made))
    return DONE
