"""The evidence that a recall writes: a folder, whole or not at all."""
from __future__ import annotations

import functools
import hashlib
import os
import pathlib
import shutil
import tempfile
from typing import Any

from tracedesk_ops import catalogue, files
from tracedesk_ops.recalls import certificate, signing
from tracedesk_ops.recalls.certificate import bytes_of
from tracedesk_ops.firstlook import Question
from tracedesk_ops.recalls.signing import SUMS
from tracedesk_ops.recalls.tables import Table

# A list may be a pipe, and may change: the evidence has what was asked by.
read_once = functools.lru_cache(pathlib.Path.read_bytes)
LISTED = certificate.LISTED
Contents = dict[str, bytes]  # of the files of a folder, by their names


def write(path: pathlib.Path, content: bytes) -> None:
    with open(path, "xb") as file:
        file.write(content)
        file.flush()
        os.fsync(file.fileno())


def sums_of(contents: Contents) -> bytes:
    """The checksums of the files, as `sha256sum` writes them."""
    rows = (f"{hashlib.sha256(text).hexdigest()}  {name}\n" for name, text in contents.items())
    return bytes_of("".join(sorted(rows, key=lambda row: row[66:])))


def write_evidence(folder: pathlib.Path, contents: Contents, key: pathlib.Path | None) -> None:
    """A new folder with these files, their checksums, and a signature by a key, if there is one;
    whole or not at all. A folder with something in it stays.
    """
    room = pathlib.Path(tempfile.mkdtemp(prefix=f".{folder.name}-", dir=folder.parent))
    try:
        for name, content in {**contents, SUMS: sums_of(contents)}.items():
            write(room / name, content)
        if key:
            signing.sign(room, key)
            files.keep(room / signing.SIGNATURE)
        files.keep(room)
        os.rename(room, folder)
    finally:
        shutil.rmtree(room, ignore_errors=True)
    files.keep(folder.parent)


def listing(question: Question) -> bytes:
    """The reels of a question, one a line."""
    return bytes_of("".join(f"{reel}\n" for reel in question.reels))


def contents(told: dict[str, Any], tables: dict[str, Table], question: Question) -> Contents:
    """The files of the evidence: their names and contents."""
    found = {f"{name}.csv": bytes_of(catalogue.csv_text(table)) for name, table in tables.items()}
    found[certificate.FILE_NAME] = certificate.as_json(told)
    if question.reels:
        found[LISTED] = listing(question)
    return found
