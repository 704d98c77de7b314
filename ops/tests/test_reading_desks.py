"""Tools that read a desk's file: its log is read too, also of one that runs, and nothing is
changed."""
import itertools
import multiprocessing
import pathlib
import shutil
import signal

import pytest

from lab import ROOT
from lab.desk import Desk
from lab.line import Line, NewLine
from lab.messages import FIRST_LINE
from lab.tools import Ended, Word, run, run_changed, tool
from tracedesk_dev import begun
from tracedesk_ops import plant

TARGET = "/slots?machine=M"
SLOTS_HEADER = "slot,position,reel,part,lot,remaining,minutes_left\n"
SLOTS = (
    SLOTS_HEADER + "1,1,K1,P,L1,100,unlimited\n"
)  # the last message of the first line loads a reel
LINES_OF_BEGIN = 11  # five messages, five UniqueIDs, and a ClockSet


def ask(file: pathlib.Path, target: str) -> Ended:
    return run([ROOT / "dev/ask", file, target])


@pytest.fixture
def served(desk: Desk) -> Desk:
    """A desk that is served, the newest commands of which are in its log alone."""
    desk.feed(FIRST_LINE[:3])
    desk.serve()
    desk.accept(*FIRST_LINE)
    return desk


@pytest.mark.parametrize("how", [signal.SIGTERM, signal.SIGKILL])
@pytest.mark.parametrize("by", ["name", "link"])
def test_log_is_read_and_stays_as_it_is(served: Desk, how: signal.Signals, by: str) -> None:
    assert ask(served.file, TARGET).out == SLOTS, "while it runs"
    served.end(how)
    alone = served.file.with_name("alone")
    shutil.copy(served.file, alone)
    assert ask(alone, TARGET).out == SLOTS_HEADER, "the file has the commands without its log"
    named = served.file
    if by == "link":
        named = served.file.with_name("link")
        named.symlink_to(served.file)
    before = served.bytes()
    assert ask(named, TARGET).out == SLOTS
    assert len(begun.messages_of(named)) == LINES_OF_BEGIN
    assert served.bytes() == before


def audit_status(desk: Desk) -> int:
    return run([desk.program, "audit", "--db", desk.file]).status


def test_who_looks_whether_a_desk_is_open_is_in_no_runs_way(served: Desk) -> None:
    """Else a service that is waited for would end as it starts."""
    assert plant.is_open(served.file)
    served.end()
    assert not plant.is_open(served.file)
    fork = multiprocessing.get_context("fork")

    def look() -> None:
        for _ in itertools.count():
            plant.is_open(served.file)

    lookers = [fork.Process(target=look, daemon=True) for _ in range(2)]
    for looker in lookers:
        looker.start()
    try:
        assert {audit_status(served) for _ in range(20)} == {0}
    finally:
        for looker in lookers:
            looker.kill()
            looker.join()


def test_names_in_another_locale(new_line: NewLine, folder: pathlib.Path) -> None:
    """A folder whose name is not ASCII, where Python takes all texts for ASCII."""
    env = {"LC_ALL": "C", "PYTHONUTF8": "0", "PYTHONCOERCECLOCALE": "0"}
    line = new_line(folder / "Lïne")
    line.rollover().expect()
    line.more("A")
    line.seal().expect()
    written: list[Word] = ["--evidence", folder / "evïdence"]
    run([tool("recall"), "lot", "L1", *line.recall_words(), *written], env=env).expect()
    line.call(line.ops("check"), env=env).expect()


def test_unexpected_failure_has_a_status_of_its_own(line: Line) -> None:
    change = "from tracedesk_ops import check; check.hindrances = None"
    run_changed("ops", ["check", line.folder], change).expect(9, "foresaw")


def test_what_cannot_be_printed_is_told(line: Line) -> None:
    line.end()
    with open("/dev/full", "w") as full:
        done = run(line.ops("restore", "--dry-run"), out=full)
        assert done.status == 3 and "Traceback" not in done.err
        line.call(line.ops("seal")).expect()
        done = run(line.ops("restore", "--dry-run"), out=full)
    assert done.status == 3 and "standard output" in done.err and "Traceback" not in done.err
