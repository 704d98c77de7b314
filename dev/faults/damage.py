"""Damages a desk's file, and looks at the answer of `audit`.

usage: dev/faults/run damage [--program FILE] [--boards N] [--pages N] [--seed N] [--folder FOLDER]

The file is that of the beginning of a shift (dev/tracedesk_dev/shift.py). It is cut at the end of
each of its pages, and within it, each page is filled with zeros in turn, and a bit of it is turned:
at most --pages of each. Of each damaged copy:

- `audit` ends with status 3, no word on standard output and a fault's name on standard error, and
  the copy is unchanged; or with `lawful` and the number of all commands, and then the file is sound
  to stock SQLite, and the rows of each table are those of the whole file: the damaged bytes were in
  use for nothing. Of a turned bit alone another thing may come: a command with another source, or
  another minute of its own where that is not the one at which it took effect. No rule speaks of
  these, and no table but `accepted` has them, so the list is a lawful one.
"""
import argparse
import collections
import contextlib
import pathlib
import random
import re
import sqlite3
import subprocess
import tempfile
from typing import Any, Iterator

from tracedesk_dev import program, shift, trial

PATIENCE = 600  # seconds for a run of audit
FAULT = re.compile(
    rb"tracedesk: (NotADesk|OtherVersion \d+|NotLawful \d+|TableDiffers \w+|Unavailable)\n"
)


def rows_of(file: pathlib.Path) -> dict[str, list[Any]] | None:
    """All rows of all tables, or none where stock SQLite finds the file unsound."""
    uri = f"file:{file}?mode=ro&immutable=1"
    with contextlib.closing(sqlite3.connect(uri, uri=True)) as database:
        try:
            if database.execute("PRAGMA integrity_check").fetchall() != [("ok",)]:
                return None
            return trial.rows_in(database)
        except sqlite3.Error:
            return None


def damages(whole: bytes, page: int, most: int, seed: int) -> Iterator[tuple[str, int, bytes]]:
    """Each damage: its kind, where it is, and the bytes."""
    chance, places = random.Random(seed), range(0, len(whole), page)
    for at in sorted(chance.sample(places, min(most, len(places)))):
        within = at + chance.randrange(1, page)
        turned = bytes([whole[within] ^ 1 << chance.randrange(8)])
        yield "cut at the end of a page", at, whole[:at]
        yield "a page of zeros", at, whole[:at] + bytes(page) + whole[at + page :]
        yield "cut within a page", within, whole[:within]
        yield "a bit turned", within, whole[:within] + turned + whole[within + 1 :]


def judged(tracedesk: str, file: pathlib.Path, rows: dict[str, list[Any]]) -> str:
    """What `audit` says of a damaged file; a text that begins with FOUND where that may not be."""
    before = file.read_bytes()
    words = [tracedesk, "audit", "--db", str(file)]
    try:
        done = subprocess.run(words, capture_output=True, timeout=PATIENCE)
    except subprocess.TimeoutExpired:
        return f"FOUND no end after {PATIENCE} seconds"
    if done.returncode == 3 and not done.stdout and FAULT.fullmatch(done.stderr):
        if file.read_bytes() != before:
            return "FOUND a refused file was changed"
        return re.sub(r" \d+", " n", done.stderr.decode().split(": ")[1].strip())
    if (done.returncode, done.stdout) == (0, b"lawful %d\n" % len(rows["accepted"])):
        got = rows_of(file)
        if got == rows:
            return "lawful"
        if got and got | {"accepted": judged_part(got)} == rows | {"accepted": judged_part(rows)}:
            return "lawful with another source or own minute"
        return "FOUND lawful, and to stock SQLite the file is unsound or its rows are others"
    return f"FOUND status {done.returncode}, {done.stdout[:200]!r} {done.stderr[-300:]!r}"


def judged_part(rows: dict[str, list[Any]]) -> list[Any]:
    """The commands without their sources and own minutes."""
    return [row[:2] + row[4:] for row in rows["accepted"]]


def words(reader: argparse.ArgumentParser) -> None:
    program.offer(reader)
    reader.add_argument("--boards", type=int, default=12)
    reader.add_argument("--pages", type=int, default=1_000)
    reader.add_argument("--seed", type=int, default=1)
    reader.add_argument("--folder", help="where the files are made")


def main(asked: argparse.Namespace, _reader: argparse.ArgumentParser) -> int:
    tracedesk, ticks = program.to_use(asked.program), program.Ticks()
    told: dict[str, collections.Counter[str]] = collections.defaultdict(collections.Counter)
    with tempfile.TemporaryDirectory(prefix="damage-", dir=asked.folder) as folder:
        file = pathlib.Path(folder, "desk")
        given = b"".join(it.text + b"\n" for it in shift.Shift(asked.seed, asked.boards).lines)
        feed = [tracedesk, "feed", "--db", str(file)]
        subprocess.run(feed, input=given, stdout=subprocess.DEVNULL, check=False)
        whole, rows = file.read_bytes(), rows_of(file)
        if not rows or not rows["accepted"]:
            program.stop("the whole file has no commands")
        page = int.from_bytes(whole[16:18], "big")
        for kind, at, damaged in damages(whole, page, asked.pages, asked.seed):
            ticks.tell(f"byte {at:,} of {len(whole):,}")
            trial.remove(file)
            file.write_bytes(damaged)
            said = judged(tracedesk, file, rows)
            if said.startswith("FOUND"):
                print(f"{kind}, byte {at}: {said}", flush=True)
            told[kind][said.split(",")[0]] += 1
    for kind, seen in told.items():
        counts = ", ".join(f"{number} {word}" for word, number in seen.most_common())
        print(f"{kind}: {seen.total()} files; {counts}")
    return int(any(word.startswith("FOUND") for seen in told.values() for word in seen))
