"""Installs, sheets and counts of 16 lengths from 3 to 3,072, and a lot whose boards have as many
pieces.
"""
import pathlib
from typing import Any

from spelling import accepted, message, write

LENGTHS = sorted([*(3 << n for n in range(11)), 250, 500, 1_000, 2_000, 2_500])
NAMES = [f"R{n}" for n in range(1, 3_073)]
pairs: list[tuple[str, str]] = []


def accept(word: str, body: Any, **detail: Any) -> None:
    uid = f"u{len(pairs) + 1}"
    pairs.append((message(uid, word, **body), accepted(len(pairs) + 1, uid, **detail)))


accept("PartDefined", {"PartNumber": "P"})
accept(
    "SheetDefined",
    {
        "Product": "PR",
        "Machine": "M",
        "Rows": [{"Slot": "1", "PartNumber": "P", "Designators": NAMES}],
    },
)
accept("ProductSelected", {"Machine": "M", "Product": "PR"})
accept(
    "ReelReceived",
    {"Reel": "K", "PartNumber": "P", "Lot": "L", "Level": "1", "Quantity": 1_000_000},
)
accept("MaterialsLoaded", {"Machine": "M", "Slot": "1", "Reel": "K"}, MinutesLeft=None)
for n in range(1, 3_073):
    accept(
        "ReelReceived",
        {"Reel": f"K{n}", "PartNumber": "P", "Lot": "L2", "Level": "1", "Quantity": 2},
    )
for n in LENGTHS:
    accept("WorkStarted", {"Machine": "M", "Board": f"B{n}"})
    accept(
        "MaterialsInstalled",
        {"Machine": "M", "Board": f"B{n}", "Designators": NAMES[:n]},
        Reels=["K"] * n,
    )
    accept("WorkCompleted", {"Machine": "M", "Board": f"B{n}"})
    rows = [
        {"Slot": str(slot), "PartNumber": "P", "Designators": [NAMES[slot - 1]]}
        for slot in range(1, n + 1)
    ]
    accept("SheetDefined", {"Product": f"PR{n}", "Machine": "M", "Rows": rows})
    accept(
        "CountsTaken",
        {"Counts": [{"Reel": f"K{reel}", "Quantity": 2} for reel in range(1, n + 1)]},
        Taken=0,
    )
write(pairs)
boards = sorted(f"B{n}" for n in LENGTHS)
pathlib.Path("lawful.txt").write_text(f"lawful {len(pairs)}\n")
pathlib.Path("boards.csv").write_text("".join(f"{name}\n" for name in ["board", *boards]))
pathlib.Path("reports.txt").write_text("".join(f"{n}: {n + 1} {n + 1}\n" for n in LENGTHS))
