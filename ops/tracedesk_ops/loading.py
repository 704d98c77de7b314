"""What the plant's PostgreSQL has of a line: the files of its chain, with the pieces that
tracedesk-chain names, and what a recall has to say besides.

    Tables("tracedesk").load("L1", pathlib.Path("/mirror/L1"))
"""
from __future__ import annotations

import datetime
import hashlib
import pathlib
import tempfile
from collections.abc import Iterator, Sequence
from typing import Any

from tracedesk_ops import catalogue, chains, copies, doubts, files, lineage, plant, sealed, untraced
from tracedesk_ops.line import LineFolder
from tracedesk_ops.sealed import Sealed

try:
    import psycopg

    ERRORS: tuple[type[Exception], ...] = (psycopg.Error,)
except ImportError:  # the help is printed without it
    ERRORS = ()

# an interruption ends it
FAULTS: tuple[type[Exception], ...] = (*plant.FAULTS, chains.NoAnswer, *ERRORS)
CHUNK = 1 << 20
BEGUN = "its load has not ended: wait for it, or call tracedesk-plant-load again"
ANEW = " DELETE FROM plant.line WHERE name = '{}'; then load again"
ANY = [""]  # in the place of parts: a recall of each of them
REELS = "SELECT reel, part, lot FROM reel"
PLACED = "SELECT DISTINCT reel FROM placement"
LAST = "SELECT max(effective) * 60 FROM accepted"
SAID = """CREATE TEMPORARY TABLE said (board text, designator text, part text, lot text, reel text,
    machine text, slot text, overdue text, minute bigint, file text) ON COMMIT DELETE ROWS"""
FILE = """INSERT INTO file
        (line, name, sha256, place, begun, commands, entries, rows, pieces, until, sealed)
    VALUES (%s, %s, %s, %s, %s, %s, %s, %s, (SELECT count(*) FROM said), to_timestamp(%s), %s)
    RETURNING id, pieces"""
SEALED = "UPDATE file SET sealed = %s WHERE sha256 = %s AND sealed < %s"
LOADED = "SELECT line, sha256, pieces, begun, commands, entries, rows FROM file"
PIECES = """INSERT INTO placement SELECT %s, board, designator, machine, slot, reel,
    overdue = 'yes', minute FROM said ORDER BY reel, minute"""  # a reel's lie on few pages
Doubt = tuple[str, str, list[str], list[str], list[str]]  # said, board, parts, reels, lots


class Tables:
    """The plant's tables, over one connection; one call at a time has them."""

    def __init__(self, program: str) -> None:
        self.chain = chains.found(program)
        self.link = psycopg.connect(autocommit=True, client_encoding="utf8")
        self.do("SELECT pg_advisory_lock(hashtext('tracedesk-plant-load'))")
        self.do("SET search_path TO plant")
        self.do(SAID)

    def do(self, text: str, *values: object) -> Any:
        return self.link.execute(text, values or None)

    def load(self, line: str, folder: pathlib.Path) -> None:
        """Makes a line's rows those of the chain in its folder, or keeps in its row why they stay
        as they were: then that is raised.
        """
        self.do("INSERT INTO line VALUES (%s) ON CONFLICT DO NOTHING", line)
        try:
            found = lineage.of(LineFolder(folder))
            if found.faults:
                raise plant.Fault("; ".join(found.faults))
            there = self.digests(line)
            if not {file.sha256 for file in found.chain} <= there:
                self.do("UPDATE line SET refused = %s WHERE name = %s", BEGUN, line)
            with self.link.transaction():
                self.take(line, folder, found)
            self.do("ANALYZE placement, reel")  # else the next query may read all of them
        except FAULTS as fault:
            why = storable(str(fault).strip())
            self.do("UPDATE line SET refused = %s WHERE name = %s", why, line)
            raise

    def digests(self, line: str) -> set[str]:
        """The checksums of a line's files that are loaded."""
        return {its for (its,) in self.do("SELECT sha256 FROM file WHERE line = %s", line)}

    def take(self, line: str, folder: pathlib.Path, found: lineage.Lineage) -> None:
        """Puts a line's rows anew."""
        self.want_newer(line, folder, found)
        those = [file.sha256 for file in found.chain]
        self.do("DELETE FROM file WHERE line = %s AND sha256 <> ALL (%s)", line, those)
        there = self.digests(line)
        for place, file in enumerate(found.chain, 1):
            if file.sha256 not in there:
                pieces = self.add(line, place, file)
                print(f"{line} {file.path.name}: {pieces:,} pieces", flush=True)
            # of an idle desk each seal is the same file
            self.do(SEALED, sealed_at(file), file.sha256, sealed_at(file))
        self.do("DELETE FROM doubt WHERE line = %s", line)
        with self.link.cursor() as cursor:
            rows = [
                (line, storable(said), storable(board), *([*map(storable, its)] for its in names))
                for said, board, *names in said_of(line, folder, found)
            ]
            cursor.executemany("INSERT INTO doubt VALUES (%s, %s, %s, %s, %s, %s)", rows)
        self.do("UPDATE line SET refused = '' WHERE name = %s", line)

    def want_newer(self, line: str, folder: pathlib.Path, found: lineage.Lineage) -> None:
        """A Fault if a file of the line that is loaded isn't in its folder, and no file of the
        chain continues it; or if the chain continues a file of another line.
        """
        digests = {file.sha256 for file in found.chain}
        here = digests | {file.sha256 for file in (*found.files, *found.lost)}
        for other, sha256, pieces, *its in self.do(LOADED).fetchall():
            if other == line and sha256 not in here and not is_continued(found.chain, *its):
                raise plant.Fault(
                    f"{folder}: its files are older than those that are loaded, or of another desk:"
                    f" load the newest ones. If the line was restored to these:{ANEW.format(line)}"
                )
            is_same = sha256 in digests or (pieces and is_continued(found.chain, *its))
            if other != line and is_same:
                raise plant.Fault(
                    f"{folder}: its files are loaded as the line {other}. If that name was wrong:"
                    f"{ANEW.format(other)}"
                )

    def add(self, line: str, place: int, file: Sealed) -> int:
        """Adds a file with its pieces; how many they are."""
        with sealed.opened(file.path) as database:
            reels = copies.rows(database, REELS)
            placed = [reel for (reel,) in copies.rows(database, PLACED)]
            ((until,),) = copies.rows(database, LAST)
        self.do("TRUNCATE said")
        if placed:
            self.copy_pieces(file, placed)
        lists = (file.commands, file.entries, rows_of(file.path, file.commands, file.entries))
        told = (file.sha256, place, file.begun, *lists, until, sealed_at(file))
        number, pieces = self.do(FILE, line, file.path.name, *told).fetchone()
        self.do(PIECES, number)
        with self.link.cursor() as cursor, cursor.copy("COPY reel FROM STDIN") as to:
            for row in reels:
                to.write_row((number, *row))
        plant.reached("added")
        return int(pieces)

    def copy_pieces(self, file: Sealed, reels: Sequence[str]) -> None:
        """Copies what tracedesk-chain prints of these reels in a file, as it is."""
        with files.Room() as room, tempfile.TemporaryFile() as out:
            pathlib.Path(room).chmod(0o755)  # for the desk's owner
            listed = pathlib.Path(room, "reels")
            listed.write_text("".join(f"{reel}\n" for reel in reels))
            words = ["reels", str(listed), "--pieces", "--from-middle"]
            chains.printed(self.chain, words, file.path, out)
            with self.link.cursor() as cursor:
                with cursor.copy("COPY said FROM STDIN (FORMAT csv, HEADER MATCH)") as to:
                    while some := out.read(CHUNK):
                        to.write(some)
                        plant.reached("copied")


def sealed_at(file: Sealed) -> datetime.datetime:
    return datetime.datetime.fromtimestamp(file.path.stat().st_mtime, datetime.timezone.utc)


def storable(text: str) -> str:
    """A text as PostgreSQL has it: U+0000 and half a letter are spelled. It is anybody's."""
    return text.replace("\0", "\\0").encode(errors="backslashreplace").decode()


def rows_of(path: pathlib.Path, *counts: int) -> str:
    """A checksum of so many commands of a file, and entries of its book, from the first on."""
    checksum = hashlib.sha256()
    with sealed.opened(path) as database:
        for its, count in zip(sealed.LISTS, counts):
            query = f"SELECT {', '.join(its.columns)} FROM {its.table} ORDER BY {its.key} LIMIT ?"
            for row in database.execute(query, [count]) if sealed.has(database, its) else ():
                checksum.update(f"{row}\n".encode())
    return checksum.hexdigest()


def is_continued(
    chain: Sequence[Sealed], begun: str, commands: int, entries: int, rows: str
) -> bool:
    """Whether a file of a chain begins with these rows, which a file had that was begun so."""
    return any(
        file.begun == begun
        and (file.commands >= commands and file.entries >= entries)
        and rows_of(file.path, commands, entries) == rows
        for file in chain
    )


def said_of(line: str, folder: pathlib.Path, found: lineage.Lineage) -> Iterator[Doubt]:
    """What a recall has to say of a line besides its pieces."""
    its = doubts.look(folder, [file.path for file in found.chain])
    for text in (*its.faults, *(lacked.text() for lacked in found.lacked)):
        yield f"{line}: {text}", "", ANY, [], []
    for record, by, reels in its.works:
        if by is None:
            _, _, at, machine, board, work, why, *_ = untraced.said(record)
            yield (
                f"untraced work of {line}, {at}: {work} of board {board} on {machine} was refused,"
                f" {why}; on the machine was {reels}; nobody decided about {record.id}"
            ), "", ANY, [], []
    for it in its.pieces:
        named = f"not be of {it.reel} of lot {it.lot}, but " if it.reel else ""
        others = f"{' or '.join(it.other_reels)} of lot {' or '.join(it.other_lots)}"
        lots = [lot for lots in (it.lot, *it.other_lots) for lot in (lots, *lots.split("; "))]
        yield (
            f"doubtful piece of {line}: {it.designator} of board {it.board},"
            f" {catalogue.spelled(it.minute)}, may {named}be of"
            f" {others if it.other_reels else 'another one'}: {it.why}"
        ), it.board, [*it.parts], [it.reel, *it.other_reels], lots
