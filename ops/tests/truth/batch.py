"""Runs that share one desk, and what recalls say of each of their lots."""
import collections
import contextlib
import csv
import dataclasses
import json
import pathlib
import random
import time
from typing import Any, Callable, Iterable, Iterator
from unittest import mock

from lab.tools import Ended, run_tool
from tracedesk import desk as desks
from tracedesk_ops import around, catalogue, chains, doubts, entries, files, sealed, untraced
from tracedesk_ops.line import LineFolder
from tracedesk_ops.firstlook import Line, Question
from tracedesk_ops.recalls.recall import Recall
from tracedesk_ops.recalls.surveyed import Surveyed
from truth.run import ROUNDS, SETTLE, SLOTS, Run
from truth.world import BEGIN, Clock, Place

LINE = "L1"
TABLES = ("pieces", "untraced", "doubtful")
COMMANDS_OF = """SELECT number, own, effective, command FROM accepted
    WHERE command LIKE ? AND command NOT LIKE 'SheetDefined%'"""


def wrong(run: Run, answer_of: Callable[[str], Any]) -> Iterator[str]:
    """What a recall of the run's lots leaves out, or has wrong."""
    for lot in sorted({lot for lot, _ in run.reels.values()}):
        told = answer_of(lot)
        run.traced += len(told.pieces)
        truth = {(board, name) for board, name, reel in run.truth if run.reels[reel][0] == lot}
        listed = {(piece.board, piece.designator) for piece in told.pieces}
        for those in (truth, listed):
            those -= {its for its in those if its[0] in run.scrapped}
        undecided = {row[3] for row in told.undecided()}
        named = {row[3] for row in told.untraced}
        if not run.names_reels:  # else each piece has two witnesses
            named |= {board for board, _ in listed}
        in_doubt = {(row[1], row[2]) for row in told.doubtful}
        its_boards = {board for board, _ in truth}
        run.of_lots += len(its_boards)
        run.besides += len({board for board, _ in in_doubt} - its_boards)
        status = told.status()
        if (undecided and status != 3) or (in_doubt and status not in (3, 5)):
            yield f"{lot}: status {status} with boards {undecided} and doubtful {in_doubt}"
        for board, name in sorted(truth - listed - in_doubt):
            if board not in named:
                yield f"{lot}: {name} of board {board} is of it, and the board is in no list"
        for board, name in sorted(listed - truth - in_doubt):
            if board not in undecided:
                yield f"{lot}: {name} of board {board} is listed, and isn't of it"


def by_machine(those: Iterable[Any], machine_of: Callable[[Any], Any]) -> dict[Any, list[Any]]:
    found = collections.defaultdict(list)
    for its in those:
        found[machine_of(its)].append(its)
    return found


def expect_done(done: Ended) -> None:
    assert done.status in (0, 4), done.said


class Batch:
    """Runs that share one desk; `faults` are those of all of them, and `counts` say how much was
    tried. With `planted`, recalls know nothing of what was refused, which a comparison has to find.
    Labels lie by one piece: `within` is what recalls are told of that."""

    def __init__(
        self,
        program: pathlib.Path,
        folder: pathlib.Path,
        seed: int,
        number: int,
        runs: int,
        planted: bool = False,
        within: int = 1,
    ) -> None:
        self.within, self.planted = within, planted
        self.random = random.Random(seed * 1_000_003 + number)
        self.faults: list[str] = []
        self.counts: "collections.Counter[str]" = collections.Counter()
        Clock.minute = BEGIN
        self.place = Place(program, folder)
        # Of all senders: a desk serves one connection at a time, and this one stays.
        self.desk = desks.Desk(self.place.url, patience=60)
        names = {f"M{number}-{its}": f"{seed}-{number}-{its}" for its in range(runs)}
        self.runs = [Run(name, self.place, self.desk, its) for name, its in names.items()]

    def whole(self) -> None:
        """Makes all runs, and compares."""
        try:
            self.work()
            self.compare()
        finally:
            self.desk.close()
            self.place.end()

    def work(self) -> None:
        parts = [
            {
                "MessageName": "TraceDesk.PartDefined",
                "UniqueID": name,
                "Source": "S",
                "TimeStamp": Clock.text(),
                "MessageBody": {"PartNumber": name},
            }
            for name in ("P", "Q")
        ]
        said = [json.dumps(part).encode() for part in parts]
        self.place.begin([*said, *(text for run in self.runs for text in run.setup())])
        for run in self.runs:
            for slot in SLOTS:
                run.handle("MaterialsLoaded", slot)
        events = self.events()
        for minute in range(ROUNDS):
            Clock.minute += 1
            for event in events[minute]:
                self.desk.close()
                event()
            for run in self.runs:
                run.minute(minute >= ROUNDS - SETTLE)
        Clock.minute += 1
        for run in self.runs:
            run.settle()
        self.desk.close()

    def events(self) -> dict[int, list[Callable[[], None]]]:
        """When the desk is killed, copied, restored and rolled over."""
        found = collections.defaultdict(list)
        for _ in range(2):
            found[self.random.randrange(ROUNDS)].append(self.place.kill)
        if self.random.random() < 0.5:
            copied = self.random.randrange(2, ROUNDS - 6)
            found[copied].append(self.copy)
            found[self.random.randrange(copied + 1, ROUNDS - 1)].append(self.restore)
        else:
            found[self.random.randrange(3, ROUNDS - 2)].append(self.roll_over)
        return found

    def copy(self) -> None:
        self.copied, self.minute = time.time(), Clock.minute
        expect_done(self.place.seal())
        self.counts["copies"] += 1

    def restore(self) -> None:
        """A sealed file takes the desk's place, and each sender sends again what was accepted
        since. In that order some of it is refused, and becomes untraced work. A person looks at the
        entries of the old desk's book, and moves it elsewhere, as a recall asks for."""
        expect_done(self.place.restore())
        kept = len(entries.of(self.place.file))
        for run in self.runs:
            for name in run.in_any_order():
                run.sources[name].end()
                run.sources[name].spool.again_since(self.copied - 1)
                run.send(name)
        for lost in (self.place.folder / "lost").glob("*.desk"):
            machines = {its.machine for its in entries.of(lost, kept)}
            for run in self.runs:
                if run.name in machines:
                    run.begin_again(self.minute)
        (self.place.folder / "lost").rename(self.place.folder / "moved elsewhere")
        self.counts["restores"] += 1

    def roll_over(self) -> None:
        expect_done(self.place.rollover("--with-board-in-work"))
        self.counts["roll-overs"] += 1

    # --- What recalls say

    def compare(self) -> None:
        """Asks for each lot of each run. The desk stands still by now, so what is the same for all
        of them is looked at once."""
        self.line = Line(LINE, self.place.folder)
        looked = LookedOnce(self.within, self.planted)
        with contextlib.ExitStack() as held:
            self.room = pathlib.Path(held.enter_context(files.Room()))
            reels = "".join(f"{reel}\n" for run in self.runs for reel in run.reels)
            (self.room / "reels").write_text(reels)
            self.chain = AskedOnce(str(self.place.program), self.room / "reels")
            desk = around.survey(LineFolder(self.place.folder), room=self.room)
            for owner, name, its in (
                (around, "survey", lambda *_, **__: desk),
                (doubts, "look", looked),
            ):
                held.enter_context(mock.patch.object(owner, name, its))
            for number, run in enumerate(self.runs):
                looked.machine = run.name
                if number == 0 and not self.planted:
                    self.ask_the_tool(run)
                faults = [*wrong(run, self.answer_of)]
                if faults:
                    self.show(run, looked.told)
                self.faults += [f"run {number}: {fault}" for fault in faults]
                self.count(run)
        works = looked.told.works
        self.counts["untraced reports"] += len(works)
        self.counts["decided"] += sum(1 for work in works if work[1])
        self.counts["doubtful pieces"] += len(looked.told.pieces)

    def answer_of(self, lot: str) -> Any:
        """What tracedesk-recall says of a lot, in this process."""
        question = Question("lot", lot, within=self.within)
        self.chain.lot = lot
        with files.Room() as room:
            told = Recall(question, Surveyed([self.line], pathlib.Path(room)), self.chain)
            told.ask()
        assert not told.faults, f"a recall of {lot}: {told.faults}"
        return told

    def count(self, run: Run) -> None:
        self.counts["runs"] += 1
        self.counts["boards"] += run.boards
        self.counts["pieces"] += len(run.truth)
        self.counts["traced pieces"] += run.traced
        self.counts["boards of lots"] += run.of_lots
        self.counts["boards named besides"] += run.besides
        self.counts["messages"] += run.numbers
        self.counts["unscanned swaps"] += run.swaps

    def ask_the_tool(self, run: Run) -> None:
        """The tool itself, as a process of its own, says the same of a run's first lot."""
        lot = min(lot for lot, _ in run.reels.values())
        told, folder = self.answer_of(lot), self.place.folder / "evidence"
        words = [*self.place.recall_words(), "--evidence", folder]
        words += ["--within", self.within] if self.within else []
        done = run_tool("recall", "lot", lot, *words)
        tables = {
            name: list(csv.DictReader((folder / f"{name}.csv").open(newline=""))) for name in TABLES
        }
        said = {
            name: sorted(
                (row["board"], row.get("designator", ""))
                for row in rows
                if row["machine"] == run.name
            )
            for name, rows in tables.items()
        }
        assert said == {
            "pieces": sorted((piece.board, piece.designator) for piece in told.pieces),
            "untraced": sorted((row[3], "") for row in told.untraced),
            "doubtful": sorted((row[1], row[2]) for row in told.doubtful),
        }
        undecided = any(not row["became"] for row in tables["untraced"])
        done.expect(3 if undecided else 5 if tables["doubtful"] else 0)

    def show(self, run: Run, its: Any) -> None:
        """Prints what the files have of a run's machine, what was refused, and what really
        happened."""
        archives = {archive.file: archive.path for archive in self.place.archives()}
        print(f"--- {run.name}")
        with contextlib.ExitStack() as held:
            databases = {
                name: held.enter_context(sealed.opened(file)) for name, file in archives.items()
            }
            desk = held.enter_context(sealed.opened(self.room / catalogue.RUNNING))
            databases[catalogue.RUNNING] = desk
            for name, database in databases.items():
                for row in database.execute(COMMANDS_OF, [f"%{run.name}\t%"]):
                    minutes = [minute - BEGIN for minute in row[1:3]]
                    print(name[-8:], row[0], *minutes, row[3].replace("\t", " "))
                    query = "SELECT designator, reel FROM placement WHERE number = ?"
                    for placed in database.execute(query, row[:1]):
                        print("     ", *placed)
        for work, by, _ in its.works:
            said = untraced.said(work)
            if said[3] == run.name:
                print("refused", said[2:8], "decided" if by else "")
        for happened in run.told:
            print("really", *happened)


class LookedOnce:
    """What is around the line's files: it is looked at once, for all reels, and each run is told
    what is of its machine."""

    def __init__(self, within: int, planted: bool) -> None:
        self.look, self.machine, self.planted = doubts.look, "", planted
        self.all = Question("board", "each", within=within)
        self.told: Any = None

    def __call__(self, folder: Any, archives: Any, *_: Any) -> Any:
        if self.told is None:
            self.told = self.look(folder, archives, self.all)
            if self.planted:
                self.told = self.told._replace(works=[], pieces=[])
            # an entry that nobody could read has its machine in its message alone
            self.works = by_machine(self.told.works, lambda work: doubts.work_of(work[0]).machine)
            self.pieces = by_machine(self.told.pieces, lambda piece: piece.machine)
        works, pieces = self.works[self.machine], self.pieces[self.machine]
        return self.told._replace(works=works, pieces=pieces)


class AskedOnce(chains.Asker):
    """tracedesk-chain, which is asked once for all reels; each lot gets its own rows."""

    def __init__(self, program: str, listed: pathlib.Path) -> None:
        super().__init__(program, ["reels", str(listed)])
        self.told: Any = None
        self.lot = ""

    def ask(self, *words: Any, **how: Any) -> Any:
        self.told = self.told or super().ask(*words, **how)
        rows = [{**row} for row in self.told.rows if row["lot"] == self.lot]
        return dataclasses.replace(self.told, rows=rows)
