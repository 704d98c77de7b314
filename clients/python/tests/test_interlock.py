"""The words of the interlock before a line that is served: what the line says, and the sender's own
rules.
"""
from __future__ import annotations

import contextlib
import json
import pathlib
import sqlite3
import time
from typing import Any, Dict, Iterator, List
from unittest import mock

import at_port
import pytest
from line_lab import Line
from tracedesk import command, desk, disk, interlock, spool


@contextlib.contextmanager
def later(seconds: float) -> Iterator[None]:
    """So many seconds on."""
    now = interlock.clock
    with mock.patch.object(interlock, "clock", lambda: now() + seconds):
        with mock.patch.object(spool, "clock", lambda: now() + seconds):
            yield


def test_a_start_that_is_accepted_permits_its_board(line: Line) -> None:
    assert line.word() == "stop NoWork"
    line.start()
    assert line.install("B1", "1a", "2a") == "go B1"
    assert line.report("WorkCompleted", Board="B1") == "stop NoWork"


def test_what_was_said_before_an_answer_permits_nothing(line: Line) -> None:
    """The board is in the word, so the word of the board before permits no other one; and if the
    line can't be asked after an answer, nothing is known.
    """
    line.start()
    line.put("WorkCompleted", Board="B1")
    line.put("WorkStarted", Board="B2")
    with mock.patch.object(line.desk, "got", side_effect=OSError):
        line.sender.send_waiting()
        assert line.look() == "stop waiting: the line wasn't asked yet"
    assert line.word() == "go B2"


def test_a_start_that_waits_stops(line: Line) -> None:
    line.start()
    line.put("WorkStarted", Board="B2")
    assert line.word() == "stop waiting: a start of work waits for its answer"


def test_other_messages_may_wait_for_a_second(line: Line) -> None:
    """And no longer, however many come and are answered meanwhile."""
    line.start()
    line.put("MaterialsScrapped", Slot="1", Quantity=1)
    assert line.word() == "go B1"
    with later(1.1):
        line.put("MaterialsScrapped", Slot="1", Quantity=1)
        assert line.word() == "stop waiting: messages wait, and aren't answered in time"
        line.sender.send_waiting()
        assert line.word() == "go B1"
    line.put("MaterialsScrapped", Slot="1", Quantity=1)
    line.begin_sender()
    assert line.word().startswith("stop waiting"), "what an earlier sender left has no answer"


@pytest.mark.parametrize("word", ["MaterialsSpliced", "MaterialsLoaded", "MaterialsUnloaded"])
@pytest.mark.parametrize("is_own", [False, True])
def test_only_that_slot_closes_a_refused_scan(line: Line, word: str, is_own: bool) -> None:
    """Whoever scanned it: no scrap, no other slot, no start of work, no time, no restart does."""
    line.start()
    if word == "MaterialsUnloaded":
        assert not line.scan(word, "1")
    reel = {} if word == "MaterialsUnloaded" else {"Reel": "2-K2"}
    if is_own:
        line.report(word, Slot="1", **reel)
    else:
        assert line.scan(word, "1", **{it.lower(): its for it, its in reel.items()})
    assert "Open (slot 1" in line.word()
    line.report("MaterialsScrapped", Slot="2", Quantity=1)
    assert not line.scan("MaterialsSpliced", "2", "2-K2")
    line.report("WorkCompleted", Board="B1")
    line.report("WorkStarted", Board="B2")
    with later(100_000):
        assert "Open (slot 1" in line.word()
    line.begin_sender()
    assert "Open (slot 1" in line.word()
    line.scan("MaterialsUnloaded", "1")
    assert not line.scan("MaterialsLoaded", "1", "1-K2")
    if "NoWork" in line.word():  # an empty slot refused the start
        line.report("WorkStarted", Board="B2")
    assert line.word() == "go B2"


def test_each_refusal_is_a_cause(line: Line) -> None:
    """Of two slots, and of two voices at one slot: none takes the place of another one."""
    line.start()
    line.report("MaterialsSpliced", Slot="1", Reel="2-K3")
    line.scan("MaterialsSpliced", "1", "2-K2")
    line.report("MaterialsSpliced", Slot="2", Reel="1-K2")
    assert line.word().count("Open (slot") == 3
    line.report("MaterialsSpliced", Slot="2", Reel="2-K2")
    assert line.word().count("Open (slot 1, 2-K") == 2 and "slot 2" not in line.word()
    line.scan("MaterialsSpliced", "1", "1-K2")
    assert line.word() == "go B1"


def test_a_change_of_product_closes_nothing(line: Line) -> None:
    """The fault stays with its slot, and is silent while the sheet doesn't have it."""
    line.start()
    line.scan("MaterialsSpliced", "2", "1-K2")
    line.report("WorkCompleted", Board="B1")
    line.say("ProductSelected", Machine="M1", Product="OTHER")
    line.start("B2")
    line.scan("MaterialsSpliced", "1", "1-K2")
    line.report("WorkCompleted", Board="B2")
    line.say("ProductSelected", Machine="M1", Product="PR")
    line.report("WorkStarted", Board="B3")
    assert line.word().startswith("stop Open (slot 2, 1-K2, WrongPart")
    line.scan("MaterialsSpliced", "2", "2-K2")
    assert line.word() == "go B3"


def test_a_reel_that_is_there_already_stops_nothing(line: Line) -> None:
    """Somebody verifies it, or loads it once more."""
    line.start()
    for word in ("MaterialsLoaded", "MaterialsSpliced"):
        assert line.scan(word, "1", "1-K1")
    assert line.word() == "go B1"


def test_a_slot_that_is_on_no_sheet_is_closed_by_whoever_scans_its_reel(line: Line) -> None:
    line.start()
    assert line.scan("MaterialsSpliced", "9", "1-K2", "Anna")
    assert line.word().startswith("stop Open (slot 9, 1-K2, SlotNotOnSheet")
    assert not line.scan("MaterialsSpliced", "2", "2-K2", "Bob")
    assert line.word().startswith("stop")
    assert not line.scan("MaterialsSpliced", "1", "1-K2", "Bob")
    assert line.word() == "go B1"


def test_a_refused_report_stops_until_a_start_or_a_decision(line: Line) -> None:
    """The half-placed board may go on once somebody has looked at it."""
    line.start()
    for number, way in enumerate(("scrap", "start", "install"), 1):
        if way == "scrap":
            line.report("MaterialsScrapped", Slot="1", Quantity=1000)
        elif way == "start":
            line.report("WorkStarted", Board="B1")
        else:
            line.install("B0", "1a")
        assert line.word().startswith("stop Open"), way
        line.decide(2 * number - 1)
        assert line.word() == "go B1"
    line.install("B0", "1a")
    line.report("WorkCompleted", Board="B1")
    line.start("B2")


def test_a_start_after_a_refusal_in_the_same_minute_permits(line: Line) -> None:
    line.scan("MaterialsUnloaded", "2")
    with mock.patch.object(line, "count", line.count):
        line.report("WorkStarted", Board="B1")
    line.scan("MaterialsLoaded", "2", "2-K2")
    line.start("B1")


def test_a_panel_that_is_one_board_has_no_stop_and_no_refusal(line: Line) -> None:
    """Its units are in the names of its pieces, and the reel has exactly these."""
    pieces = [f"{unit}.C1" for unit in "1234"]
    rows = [{"Slot": "1", "PartNumber": "P1", "Designators": pieces}]
    line.say("SheetDefined", Product="PANEL", Machine="M1", Rows=rows)
    line.say("ProductSelected", Machine="M1", Product="PANEL")
    line.scan("MaterialsUnloaded", "1")
    line.receive("1", "EXACT", len(pieces))
    line.scan("MaterialsLoaded", "1", "EXACT")
    line.start("P-60")
    words = [line.install("P-60", it) for it in pieces]
    assert words[:-1] == ["go P-60"] * 3
    assert line.report("WorkCompleted", Board="P-60").startswith("stop NoWork")
    assert not line.book(), "nothing was refused"


def test_a_sender_that_begins_anew_goes_on(line: Line) -> None:
    """In mid-board, also if a clock is set back."""
    line.start()
    line.begin_sender()
    assert line.word() == "go B1"
    real = time.time
    with mock.patch.object(time, "time", lambda: real() - 3600):
        assert line.look().startswith("stop silent: program doesn't run")
        with mock.patch.object(line.spool, "renewed", {}):
            assert line.word() == "go B1"


def test_silence_stops(line: Line) -> None:
    line.start()
    with later(10.1):
        assert line.look().startswith(
            "stop silent: program doesn't run, so the machine isn't heard"
        )
        line.spool.renew("program")
        assert line.look() == "stop silent: no answer for 10 seconds"
        assert line.word() == "go B1"


def test_a_machine_that_is_not_heard_stops(line: Line) -> None:
    """Whoever feeds the spool lives: its lease is there, and one that was never given up counts."""
    line.start()
    line.spool.change("DELETE FROM feeder")
    assert "nobody feeds the spool" in line.look()
    line.spool.renewed.clear()
    line.spool.renew("the bridge")
    assert line.word() == "go B1"
    line.spool.change("UPDATE feeder SET at = at - 11 WHERE name = 'the bridge'")
    assert line.look().startswith("stop silent: the bridge doesn't run")
    line.spool.release("the bridge")
    assert line.look() == "go B1"


def test_a_spool_that_cannot_be_read_or_written_stops(line: Line) -> None:
    line.start()
    with mock.patch.object(line.spool, "feeders", side_effect=sqlite3.OperationalError("full")):
        assert line.look() == "stop fault: the spool can't be read: full"
    assert line.look() == "go B1"
    with later(1.1):
        assert line.states.word("M1") == "stop fault: the spool wasn't looked at"
    with later(10.1):
        with mock.patch.object(line.spool, "rows", side_effect=sqlite3.OperationalError("full")):
            line.spool.renew("program")  # the lease ends where the disk takes nothing
        assert line.look().startswith("stop silent: program")


def test_what_was_asked_before_a_suspend_permits_nothing(line: Line) -> None:
    line.start()
    caller = command.Caller(line.states, "M1", ["true"], print)
    assert caller.word() == "go B1"
    begun = interlock.clock()
    with mock.patch.object(command, "clock", lambda: begun + 1.1):
        assert caller.word().startswith("stop silent: the sender was suspended")
    line.states.resumed = begun
    assert line.word() == "go B1"


SILENT = "stop silent: no answer for 10 seconds"
GO: Dict[str, Any] = {
    "Answer": "State",
    "Board": "B1",
    "Causes": [],
    "Machine": "M1",
    "Number": 1,
    "State": "go",
}
MANY = [{"Cause": "AtSlot", "Refusal": "SlotEmpty", "Slot": f"{it}"} for it in range(9)]
ANSWERS: List[Any] = [
    (200, GO, "go B1"),
    (200, {**GO, "State": "stop", "Causes": MANY}, "stop AtSlot (slot 0, SlotEmpty); "),
    (200, {**GO, "State": "stop"}, "stop fault: "),
    (200, {**GO, "State": "else"}, "stop fault: "),
    (200, {**GO, "Board": None}, "stop fault: "),
    (200, {**GO, "Causes": MANY}, "stop fault: "),
    (200, {**GO, "Machine": "M2"}, "stop fault: "),
    (200, {}, "stop fault: "),
    (200, [], "stop fault: "),
    (404, {"Answer": "NotFound", "Kind": "Machine"}, "stop NoSheet: "),
    (404, {"Answer": "NotFound", "Kind": "Path"}, f"stop fault: {interlock.OLD_DESK}"),
    (401, {"Answer": "Proxy"}, "stop fault: status 401: the log-in is refused"),
    (403, {"Answer": "Proxy"}, "stop fault: status 403"),
    (302, {}, "stop fault: status 302"),
]


@pytest.mark.parametrize("status, told, wanted", ANSWERS)
def test_each_answer_has_a_word(
    status: int, told: Any, wanted: str, tmp_path: pathlib.Path
) -> None:
    its = interlock.Interlock(spool.Spool(tmp_path / "spool"), ["M1"])
    its.spool.renew("program")
    asked = desk.Desk()
    with mock.patch.object(asked, "got", return_value=(status, json.dumps(told).encode())):
        its.ask(asked)
    its.look()
    assert its.word("M1").startswith(wanted)
    its.states["M1"] = interlock.State()
    with mock.patch.object(asked, "got", return_value=(503, b"")):
        its.ask(asked)
    assert its.word("M1").startswith("stop waiting")


def test_a_desk_without_a_book_stops(program: pathlib.Path, line: Line) -> None:
    """One that was not updated, or runs the other program."""
    line.start()
    line.end()
    line.program = str(program)
    with mock.patch.object(line, "asked"):
        line.begin()
    end = time.monotonic() + at_port.PATIENCE
    while "no /line/state" not in (word := line.word()):
        assert word in ("go B1", SILENT) and time.monotonic() < end, word
        time.sleep(0.05)
    assert word == f"stop fault: {interlock.OLD_DESK}"


def test_one_sender_has_a_machine(line: Line, tmp_path: pathlib.Path) -> None:
    """By whatever address it asks."""
    other = interlock.Interlock(spool.Spool(tmp_path / "other"), ["M1"])
    with line.states.held("permit"):
        with other.held("another"):
            pass
        with pytest.raises(disk.SpoolError, match="another sender"), other.held("permit"):
            pass
    with other.held("permit"):
        pass


# --- A machine that names its reels: dev/tests/test_line_serve.py has when that stops it


def test_a_difference_is_kept_whoever_reports_it_and_if_its_answer_is_lost(line: Line) -> None:
    """A program of the plant's own says it, and hears nothing; then the sender says it again, and
    a program that isn't the package's.
    """
    line.start()
    reels = {"Designators": ["1a"], "MachineReels": ["G-9"]}
    told = line.message("MaterialsInstalled", "M1", Machine="M1", Board="B1", **reels)
    line.asked("/messages", told)
    assert [it["kind"] for it in line.book()] == ["differs"]
    line.spool.put(json.dumps(told).encode())
    line.sender.send_waiting()
    assert line.spool.names("aside") == [] and len(line.book()) == 1
    assert line.word() == "stop Open (slot 1, G-9, differs, entry 1)"


REELS: List[Any] = [["G-9"], ["1-K1", "G-9"], "1-K1", ["1-K1"], [None], None]


@pytest.mark.parametrize("reels", REELS)
def test_what_was_said_before_a_difference_permits_nothing(line: Line, reels: Any) -> None:
    """If the line can't be asked after its answer, nothing is known, unless the reels agree."""
    line.start()
    line.put("MaterialsInstalled", Board="B1", Designators=["1a"], MachineReels=reels)
    with mock.patch.object(line.desk, "got", side_effect=OSError):
        line.sender.send_waiting()
        unknown = "stop waiting: the line wasn't asked yet"
        assert line.look() == ("go B1" if reels in (["1-K1"], [None], None) else unknown)
