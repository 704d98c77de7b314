"""The certificate of a recall: the question, the files that were asked, the programs, the answer,
and what it can't know. It is `certificate.json` in the evidence, which a person can read too.
"""
from __future__ import annotations

import contextlib
import hashlib
import json
import pathlib
import subprocess
from typing import Any

from tracedesk_ops import __version__, catalogue, files, plant
from tracedesk_ops.firstlook import Line
from tracedesk_ops.recalls import wording
from tracedesk_ops.recalls.recall import Recall
from tracedesk_ops.recalls.tables import Table

FILE_NAME, KIND = "certificate.json", "recall 4"
LISTED = "asked-reels.txt"  # the list of `tracedesk-chain reels`
LIMITS = (
    "a piece whose placement nobody reported",
    "a change of reels that nobody scanned, and a wrong count of a reel",
    "a removal or replacement in rework",
    "a lot that was received under another name",
    "a line that is not named here",
    "what a desk of a line took that still runs on another machine, as after a move",
)


def programs(chain: str | None) -> dict[str, dict[str, str]]:
    """The versions and checksums of tracedesk-chain, if it is there, and of all modules of the
    plant's tools, in the order of their paths.
    """
    modules = sorted(pathlib.Path(plant.__file__).parent.rglob("*.py"))
    tools = hashlib.sha256(b"".join(module.read_bytes() for module in modules)).hexdigest()
    found = {"tracedesk-recall": {"version": __version__, "sha256": tools}}
    with contextlib.suppress(OSError, subprocess.CalledProcessError):
        its = pathlib.Path(chain or "")
        version = subprocess.check_output([its, "--version"], **plant.TEXT).strip()
        found["tracedesk-chain"] = {"version": version, "sha256": files.sha256_of(its)}
    return found


def certificate(recall: Recall, tables: dict[str, Table], sentence: str) -> dict[str, Any]:
    """The certificate of a recall, as JSON has it."""
    status = recall.status()
    return {
        "certificate": KIND,
        "title": wording.title(recall.question),
        "sentence": sentence,
        "question": dict(recall.question.about()),
        "asked_at": f"{recall.minute:%Y-%m-%dT%H:%M:00Z}",
        "answer": {
            "status": status,
            "is_complete": status in (0, 1, 5),
            **{name: len(table) - 1 for name, table in tables.items()},
        },
        "lines": [line_of(recall, line) for line in recall.lines],
        "programs": programs(plant.chain_of(recall.chain.program)),
        "reasons": recall.reasons(),
        "notes": recall.notes,
        "cannot_know": LIMITS,
    }


def line_of(recall: Recall, line: Line) -> dict[str, Any]:
    """What was asked of a line: the words of tracedesk-chain, whether its files are a chain, and
    which these are. `why` is empty if one was asked.
    """
    words = recall.chain.words
    files = [its for its in recall.asked if its.line == line.name]
    return {
        "line": line.name,
        "folder": str(line.folder),
        "words": [LISTED if word.endswith(f"/{LISTED}") else word for word in words],
        "is_chain": line.name in recall.chains,
        "archives": [
            {"file": its.file.file, "sha256": its.file.sha256, "commands": its.file.commands}
            | {"until": catalogue.spelled(its.file.last_minute), "why": its.why}
            for its in files
        ],
    }


def bytes_of(text: str) -> bytes:
    """A text as UTF-8, whatever names of files it has."""
    return text.encode(errors="backslashreplace")


def as_json(told: dict[str, Any]) -> bytes:
    return (json.dumps(told, indent=1) + "\n").encode("ascii")
