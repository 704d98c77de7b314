"""What tracedesk-recall prints, compared with what the program reports of each file."""
from __future__ import annotations

import collections
import pathlib
import shutil
import threading
import urllib.parse
from typing import Any, Callable, Iterator, Protocol, Sequence

from lab.desk import rows_of_archive
from lab.line import table
from lab.tools import Ended, Word, run, run_tool
from lab.world import World
from tracedesk_ops import catalogue, chains, files
from tracedesk_ops.firstlook import Line, Question
from tracedesk_ops.recalls.recall import Recall
from tracedesk_ops.recalls.surveyed import Surveyed
from tracedesk_ops.recalls.tables import tables_of

TRACE = ("board", "designator", "part", "reel", "machine", "slot", "overdue")
BOARD_TRACE = ("designator", "part", "lot", "reel", "machine", "slot", "overdue")
KINDS = {"lot": "reel", "reel": "reel", "board": "board"}  # the tables that have their names
MINUTES = "SELECT board, designator, effective FROM placement JOIN accepted USING (number)"
PLACED = "SELECT DISTINCT lot FROM reel JOIN placement USING (reel)"
IN_STOCK = "SELECT DISTINCT lot FROM reel WHERE remaining > 0"
LEFT = """SELECT reel, part, lot, remaining,
    iif(mount.reel IS NOT NULL, 'mounted', iif(open_since >= 0, 'open', 'sealed')),
    coalesce(machine, ''), coalesce(slot, '')
    FROM reel LEFT JOIN mount USING (reel) WHERE {} = ? AND remaining > 0"""
LAST = "SELECT max(effective) FROM accepted"

BEGIN, END = b"-----BEGIN SSH SIGNATURE-----\n", b"-----END SSH SIGNATURE-----\n"

Rows = list[dict[str, str]]
Tables = dict[str, Rows]


class Asked(Protocol):
    """A line whose files hold pieces."""

    name: str
    program: pathlib.Path
    folder: pathlib.Path

    @property
    def last(self) -> pathlib.Path:
        """A copy of the running desk's file."""

    def named_files(self) -> dict[str, pathlib.Path]:
        ...


def recall(*words: Word) -> Ended:
    return run_tool("recall", *words)


def recalled(*words: Word, status: int = 0) -> Rows:
    """The rows that a recall prints; it has to end with this status."""
    return table(recall(*words).expect(status).out)


def key_in(folder: pathlib.Path, name: str) -> pathlib.Path:
    """A new key for signatures, and next to it NAME.signers, by which its signatures count."""
    key = folder / name
    run(["ssh-keygen", "-q", "-t", "ed25519", "-N", "", "-C", name, "-f", key]).expect()
    public = key.with_suffix(".pub").read_text()
    signers_of(key).write_text(f'{name} namespaces="tracedesk-recall" {public}')
    return key


def signers_of(key: pathlib.Path) -> pathlib.Path:
    return key.with_suffix(".signers")


def places_in(text: bytes) -> list[int]:
    """The places of the bytes that say something; of a signature its letters."""
    if not text.startswith(BEGIN):
        return [*range(len(text))]
    letters = range(len(BEGIN), text.index(END))
    return [place for place in letters if text[place] != ord("\n")]


def files_of(pieces: Rows) -> set[str]:
    return {row["file"] for row in pieces}


def lot_of(world: World) -> str:
    """The lot that has pieces in most files of the first line, of those of which some are left."""
    files = world.first.named_files().values()
    found = collections.Counter(lot for file in files for (lot,) in rows_of_archive(file, PLACED))
    left = {lot for (lot,) in rows_of_archive(world.first.last, IN_STOCK)}
    return str(max(left, key=lambda lot: (found[lot], lot)))


def last_minute(file: pathlib.Path) -> str:
    """The time of the last command that a file has."""
    return str(catalogue.spelled(rows_of_archive(file, LAST)[0][0]))


def state_of(world: World) -> dict[pathlib.Path, tuple[bytes, int]]:
    """What is in the archives of both lines, with the times of the databases."""
    return {
        file: (file.read_bytes(), file.stat().st_mtime_ns if file.suffix != ".csv" else 0)
        for line in world.lines
        for file in line.archive.iterdir()
    }


def copied(line: Asked, folder: pathlib.Path) -> list[Word]:
    """A copy of a line's archives in a folder of this name, and the words of a recall over it."""
    shutil.copytree(line.folder / "sealed", folder / "sealed")
    return ["--line", line.name, folder]


def minutes_of(file: pathlib.Path) -> dict[tuple[str, str], str]:
    """When each designator of each board was placed."""
    found = rows_of_archive(file, MINUTES)
    return {(board, name): str(catalogue.spelled(minute)) for board, name, minute in found}


class Meanwhile(chains.Asker):
    """tracedesk-chain, while something happens."""

    def __init__(self, program: str, words: list[str], meanwhile: Callable[[], Any]) -> None:
        super().__init__(program, words)
        self.meanwhile = meanwhile

    def ask(self, *words: Any, **how: Any) -> Any:
        self.meanwhile()
        return super().ask(*words, **how)


class Asking:
    """Asks the tool for names, in this process, and the program for reports of each file."""

    def __init__(self, lines: Sequence[Asked], room: pathlib.Path) -> None:
        self.lines, self.room, self.program = lines, room, lines[0].program
        self.asked = [Line(line.name, line.folder) for line in lines]
        self.files = [
            (line.name, name, file) for line in lines for name, file in line.named_files().items()
        ]
        self.minutes = {(line, name): minutes_of(file) for line, name, file in self.files}
        self.reports: dict[tuple[pathlib.Path, str], Rows] = {}
        self.locks: dict[pathlib.Path, threading.Lock] = collections.defaultdict(threading.Lock)

    def names(self, kind: str) -> list[str]:
        """All names of a kind in all files."""
        query = f"SELECT {kind} FROM {KINDS[kind]}"
        return sorted({name for *_, file in self.files for (name,) in rows_of_archive(file, query)})

    def begun(self, kind: str, name: str, lines: int, meanwhile: Callable[[], Any]) -> Any:
        """A recall over the first so many lines, during which something happens."""
        question = Question(kind, name)
        asker = Meanwhile(str(self.program), question.words(self.room), meanwhile)
        with files.Room() as room:
            its = Recall(question, Surveyed(self.asked[:lines], pathlib.Path(room)), asker)
            its.ask()
        return its

    def tables(self, kind: str, name: str) -> Tables:
        """What the tool prints, as rows of its tables."""
        its = self.begun(kind, name, len(self.lines), lambda: None)
        assert not its.faults, f"{kind} {name}"
        found = tables_of(its, None).items()
        return {name: table(catalogue.csv_text(rows)) for name, rows in found}

    def report(self, file: pathlib.Path, path: str, **query: Any) -> Rows:
        """The rows of the program's report of a file; none if it doesn't know what is asked."""
        target = f"{path}?{urllib.parse.urlencode(query)}"
        with self.locks[file]:
            if (file, target) not in self.reports:
                copy = self.room / "-".join(file.parts[-3:])
                if not copy.exists():
                    shutil.copy(file, copy)
                done = run([self.program, "report", "--db", copy, "--get", target])
                if done.status:
                    done.expect(1, '"NotFound"')
                self.reports[file, target] = [] if done.status else table(done.out)
            return self.reports[file, target]

    def wanted(self, kind: str, name: str) -> Iterator[tuple[str, str, list[tuple[str, ...]]]]:
        """The pieces by the program's reports: a line, a file, and rows of the report."""
        for line, file_name, file in self.files:
            if kind == "board":
                told = self.report(file, "/trace/board", board=name, detail=4)
            else:
                lots = [name]
                if kind == "reel":
                    query = "SELECT lot FROM reel WHERE reel = ?"
                    lots = [lot for (lot,) in rows_of_archive(file, query, name)]
                told = [
                    row
                    for lot in lots
                    for row in self.report(file, "/trace/lot", lot=lot, detail=4)
                    if kind == "lot" or row["reel"] == name
                ]
            yield line, file_name, sorted(tuple(row.values()) for row in told)

    def expect_reels(self, kind: str, name: str, reels: Rows) -> None:
        """Looks whether these are the reels that have something left."""
        left = [
            [line.name, *map(str, row)]
            for line in self.lines
            for row in rows_of_archive(line.last, LEFT.format(kind), name)
        ]
        got = [[row["line"], *list(row.values())[:7]] for row in reels]
        assert sorted(got) == sorted(left), f"{kind} {name}"


def expect_boards(tables: Tables) -> None:
    """Looks whether the boards are what the pieces say."""
    pieces: dict[str, Rows] = collections.defaultdict(list)
    for row in tables["pieces"]:
        pieces[row["board"]].append(row)
    assert [row["board"] for row in tables["boards"]] == sorted(pieces)
    for row in tables["boards"]:
        own = pieces[row["board"]]
        minutes = sorted(it["minute"] for it in own)
        wanted = {
            "pieces": str(len(own)),
            "first_minute": minutes[0],
            "last_minute": minutes[-1],
            "line": "; ".join(sorted({it["line"] for it in own})),
            "overdue": "yes" if any(it["overdue"] == "yes" for it in own) else "no",
        }
        assert {name: row[name] for name in wanted} == wanted, row["board"]
