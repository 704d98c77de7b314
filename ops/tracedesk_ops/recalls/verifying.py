"""Whether evidence of a recall is what its signer gave, and whether its answer comes again from the
archives.

The signature is looked at first. Then the files that it names are read, each of them once, and no
others.
"""
from __future__ import annotations

import hashlib
import json
import pathlib
from collections.abc import Iterator, Sequence
from typing import Any

from tracedesk_ops import catalogue, chains, files, model
from tracedesk_ops.recalls import certificate, signing
from tracedesk_ops.recalls.certificate import LISTED
from tracedesk_ops.recalls.evidence import Contents
from tracedesk_ops.recalls.signing import SIGNATURE, SUMS

RUNNING = catalogue.RUNNING

MOST_SIGNED = 1 << 20  # bytes of the checksums, and of the signature
MOST = 1 << 30  # bytes of another file


class Refused(Exception):
    """Why the evidence is not as its signer gave it, or its answer doesn't come again."""


def read(folder: pathlib.Path, name: str, most: int) -> bytes:
    """A file of the evidence, which may be as long as this."""
    try:
        text = files.read_plain(folder / name, most + 1)
    except FileNotFoundError as fault:
        raise Refused(f"{name} is missing") from fault
    except (OSError, ValueError) as fault:
        raise Refused(f"{name} can't be read: {fault}") from fault
    if len(text) > most:
        raise Refused(f"{name} is longer than evidence is")
    return text


def signed(folder: pathlib.Path, signers: pathlib.Path, name: str = "") -> tuple[str, Contents]:
    """Who signed the evidence, and the files that the signature names, which are all of it."""
    sums, signature = (read(folder, name, MOST_SIGNED) for name in (SUMS, SIGNATURE))
    try:
        who = signing.signer(sums, signature, signers, name)
    except signing.NoSignature as fault:
        raise Refused(f"the signature doesn't hold: {fault}") from fault
    rows = (row.partition("  ") for row in sums.decode(errors="replace").splitlines())
    named = {name: sha256 for sha256, _, name in rows}
    if more := {path.name for path in folder.iterdir()} - {*named, SUMS, SIGNATURE}:
        raise Refused(f"{min(more)} is not in {SUMS}: it is none of the evidence")
    contents = {name: read(folder, name, MOST) for name in named}
    for name, content in contents.items():
        if hashlib.sha256(content).hexdigest() != named[name]:
            raise Refused(f"{name} was changed: its checksum is not that of {SUMS}")
    return who, contents


def told_in(contents: Contents) -> dict[str, Any]:
    """What the certificate says."""
    try:
        told = dict(json.loads(contents[certificate.FILE_NAME]))
        if told["certificate"] != certificate.KIND:
            raise Refused(f"{certificate.FILE_NAME} is of another version of tracedesk-recall")
    except (KeyError, ValueError, TypeError, RecursionError) as fault:
        raise Refused(f"{certificate.FILE_NAME} is missing or can't be read: {fault!r}") from fault
    return told


def rows_of(contents: Contents, name: str) -> list[dict[str, str]]:
    return catalogue.csv_table(contents[f"{name}.csv"].decode())


def want_boards(contents: Contents) -> None:
    """Stops if the boards, or the serials of a customer that hold a piece, aren't those of the
    pieces.
    """
    if "serials.csv" in contents:
        boards = {row["board"] for row in rows_of(contents, "serials") if row["holds"] == "yes"}
    else:
        boards = {row["board"] for row in rows_of(contents, "boards")}
    if boards != {row["board"] for row in rows_of(contents, "pieces")}:
        raise Refused("its boards are not those of its pieces")


def said(told: dict[str, Any]) -> str:
    """What was asked, when and of which lines, and whether the answer is complete."""
    lines = ", ".join(line["line"] for line in told["lines"])
    asked = f"{told['title']}, asked at {told['asked_at']} of the lines {lines}"
    return f"{asked}. {told['sentence']}"


def again(
    contents: Contents,
    told: dict[str, Any],
    folders: Sequence[pathlib.Path],
    program: str,
    room: pathlib.Path,
) -> Iterator[str]:
    """Asks tracedesk-chain again about the archives in these folders; yields what came of each
    line. A Refused if an archive is another one, or the answer is, or its boards are.
    """
    want_boards(contents)
    chain = chains.found(program)
    (room / LISTED).write_bytes(contents.get(LISTED, b""))
    pieces, own = rows_of(contents, "pieces"), None
    if "serials.csv" in contents:
        own = {row["board"] for row in rows_of(contents, "serials")}
    for line in told["lines"]:
        archives = [its for its in line["archives"] if its["file"] != RUNNING]
        if not archives:
            continue
        paths = [file_of(folders, its["file"], its["sha256"]) for its in archives]
        if not line["is_chain"]:
            raise Refused(f"{line['line']}: its archives were no chain")
        words = [str(room / it) if it == LISTED else it for it in line["words"]]
        digits = [its["sha256"][: model.DIGITS] for its in archives]
        answer = chains.asked(chain, words, paths, digits)
        wanted = [
            {**row, "line": line["line"], "file": archives[row["file"]]["file"]}
            | {"minute": catalogue.spelled(int(row["minute"]))}
            for row in answer.rows
            if own is None or row["board"] in own
        ]
        own_line = [row for row in pieces if row["line"] == line["line"]]
        got = [row for row in own_line if row["file"] != RUNNING]
        if in_order(got) != in_order(wanted):
            raise Refused(f"{line['line']}: tracedesk-chain answers otherwise about these archives")
        yield f"{line['line']}: the answer comes again from its {len(paths)} archives"


def in_order(rows: list[dict[str, str]]) -> list[list[tuple[str, str]]]:
    return sorted(sorted(row.items()) for row in rows)


def file_of(folders: Sequence[pathlib.Path], name: str, sha256: str) -> pathlib.Path:
    """The archive of this name and checksum."""
    there = [folder / name for folder in folders if (folder / name).is_file()]
    if not there:
        raise Refused(f"the archive {name} is in none of the folders of --archives")
    for file in there:
        if files.sha256_of(file) == sha256:
            return file
    raise Refused(f"{there[0]} is another archive: its checksum is not that of the certificate")
