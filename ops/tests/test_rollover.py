"""Roll-overs of a line that works on: nothing is lost, nothing acts twice, and traces are those of
one desk. That the new desk has the same reels is proved by tracedesk-chain alike, at each."""
import contextlib
import http.client
import json
import pathlib
import time
from typing import Any, Iterator

import pytest

from lab.desk import Desk, rows_of
from lab.line import Line
from lab.messages import part
from lab.shifted import Shifted
from lab.tools import started
from lab.waits import PATIENCE
from tracedesk_ops import catalogue, copies, rollover, sealed
from tracedesk_ops.line import LineFolder

CLOCK = {"MessageName": "TraceDesk.ClockSet", "MessageBody": {}}

# --- Three roll-overs in a row


@pytest.fixture(scope="module")
def thrice(
    shifted: Shifted, program: pathlib.Path, tmp_path_factory: pytest.TempPathFactory
) -> Iterator[Line]:
    """A line that was rolled over three times during the shift."""
    line = Line(program, tmp_path_factory.mktemp("thrice") / "L1")
    line.feed([])
    line.serve()
    try:
        cuts = shifted.cuts(3)
        for start, end in zip([0, *cuts], [*cuts, len(shifted.lines)]):
            if start:
                line.rollover().expect()
            shifted.post(line, start, end)
        yield line
    finally:
        line.end()


def test_archives_are_a_chain_with_every_command_once(thrice: Line, shifted: Shifted) -> None:
    thrice.expect_tidy()
    with thrice.stopped():
        assert thrice.uids() == dict.fromkeys(shifted.accepted(), 1)
    begun = [sealed.begun_in(file) for file in thrice.files()]
    assert begun == ["", *(file.stem for file in thrice.files()[:-1])]


def test_nothing_acts_that_is_sent_again(thrice: Line, shifted: Shifted) -> None:
    begun, before = shifted.cuts(3)[-1], thrice.lawful_now()
    there, own = shifted.accepted(), set(shifted.lines[begun:])
    lines = [line for line, it in zip(shifted.lines, shifted.told) if it["UniqueID"] in there]
    for line, answer in zip(lines, thrice.post(lines)):
        may_repeat = line in own or b"ClockSet" in line
        is_repeat = may_repeat and answer["Answer"] == "Accepted"
        assert is_repeat or answer.get("Refusal") == "IdReused", f"{line[:300]!r}: {answer}"
    asked = [{**json.loads(line), **CLOCK} for line in lines if line not in own]
    for answer in thrice.post(json.dumps(it).encode() for it in asked):
        assert answer["Answer"] == "Accepted", "a ClockSet in its place says that it is there"
    assert thrice.lawful_now() == before


def reports_of(desk: Desk, file: pathlib.Path, targets: list[str]) -> Iterator[str]:
    """What the program reports of each target over a copy of a file, which is served for that."""
    served = Desk(desk.program, file.with_name("copy"))
    copies.copy(file, served.file)
    served.serve()
    try:
        for target in targets:
            status, text = served.get(target)
            assert status in (200, 404), f"{target} was answered {status}: {text}"
            yield text
    finally:
        served.end()
        served.remove()
        served.start_script.unlink()
        served.pid_file.unlink()


def rows_by_target(desk: Desk, files: list[pathlib.Path], targets: list[str]) -> dict[str, Any]:
    """Of each report its rows over all of these desks, in no order."""
    found: dict[str, set[str]] = {target: set() for target in targets}
    for file in files:
        for target, text in zip(targets, reports_of(desk, file, targets), strict=True):
            found[target] |= set() if text.startswith("{") else set(text.splitlines()[1:])
    return found


def test_traces_over_all_desks_are_those_of_one(thrice: Line, shifted: Shifted) -> None:
    boards, lots = shifted.names("Board"), shifted.names("Lot")
    targets = [f"/trace/board?board={board}&detail=4" for board in boards]
    targets += [f"/trace/lot?lot={lot}&detail=4" for lot in lots]
    targets += ["/overdue"]
    with thrice.stopped():
        all_of_them = rows_by_target(thrice, thrice.files(), targets)
    assert all_of_them == rows_by_target(thrice, [shifted.one.file], targets)
    assert any(all_of_them.values())


# --- One roll-over


@pytest.mark.parametrize("off", [1440, -1440])
def test_new_desk_at_another_minute(half: Line, off: int) -> None:
    half.end()
    ((minute,),) = half.rows("SELECT max(effective) FROM accepted")
    half.serve()
    at = catalogue.spelled(minute + off)
    half.rollover("--at", at).expect(0, "tracedesk-chain says of both desks: alike")
    half.end()
    assert half.rows("SELECT max(effective) FROM accepted") == [(minute + off,)]


def test_a_board_may_be_in_work_if_that_is_asked_for(half: Line, shifted: Shifted) -> None:
    rest = shifted.lines[shifted.upto :]
    place = next(n for n, line in enumerate(rest) if b"WorkStarted" in line)
    half.post(rest[: place + 1])
    half.rollover("--with-board-in-work").expect()
    half.expect_tidy()


def test_whether_it_is_due(half: Line, shifted: Shifted) -> None:
    half.rollover("--due").expect(1, "placed pieces")
    half.rollover("--due", "--pieces", 1).expect(0, "placed pieces")
    half.rollover("--if-due").expect(0, "seconds")
    assert not half.archive.exists(), "it was rolled over though it is not time"
    half.rollover("--if-due", "--pieces", 1).expect()
    shifted.expect_rolled_over(half)


def test_whether_a_file_that_is_no_desk_is_due(half: Line) -> None:
    half.end()
    half.remove()
    half.file.write_bytes(b"no desk")
    half.rollover("--due").expect(3)


def test_nobody_reads_its_standard_error(half: Line, shifted: Shifted) -> None:
    tool = started(half.rollover_words())
    assert tool.stderr
    tool.stderr.close()
    assert tool.wait(PATIENCE) == 0
    shifted.expect_rolled_over(half)


def test_sheet_that_is_longer_than_a_message(half: Line, shifted: Shifted) -> None:
    """It came as a setup file, and is carried over."""
    slots = 5_000
    rows = "slot,part,designators\n" + "".join(
        f"{slot},X-LONG,{' '.join(f'D{slot}-{n:03}' for n in range(18))}\n" for slot in range(slots)
    )
    half.more("X-LONG")
    query = "id=x-S&source=t&time=2026-03-02T06:00:00Z&product=LONG&machine=LONG"
    with half.link() as link:
        link.request("POST", f"/imports/setup?{query}", rows)
        assert b"Accepted" in link.getresponse().read()
    half.rollover().expect()
    shifted.expect_rolled_over(half, "X-LONG", "S")
    query = "SELECT place, slot, part, designators FROM sheet_row WHERE product = 'LONG' ORDER BY 1"
    old, new = (rows_of(file, query) for file in half.files())
    assert old == new and len(new) == slots


# --- Senders


def test_a_sender_at_the_desks_own_port_goes_on_at_the_new_desk(
    half: Line, shifted: Shifted
) -> None:
    """What it has no answer to it sends again; afterwards all of it is known to the new desk."""
    tool = started(half.rollover_words())
    names: list[str] = []
    while tool.poll() is None:
        names.append(f"B-{len(names)}")
        with contextlib.suppress(OSError, http.client.HTTPException):
            half.post([part(names[-1], half.time)])
        time.sleep(0.05)
    assert tool.wait() == 0
    half.post(part(name, half.time) for name in names)
    for answer in half.post(part(name, half.time) for name in names):
        assert answer["Answer"] == "Accepted" or answer.get("Refusal") == "IdReused"
    shifted.expect_rolled_over(half, *names)


def test_wrong_port(half: Line, line: Line, shifted: Shifted) -> None:
    """A port on which another desk answers, or none: the service is there as before."""
    right = half.port
    for wrong in (line.port, 1):
        half.port = wrong
        half.rollover().expect(3, "say by --port")
        half.port = right
        half.wait_until_ready()
        assert line.answers()
    half.end()
    half.port = line.port
    half.rollover().expect(3, "say by --port")
    half.port = right
    half.serve()
    shifted.expect_unchanged(half)


def test_service_that_somebody_had_stopped_is_left_so(half: Line) -> None:
    half.end()
    half.rollover("--if-due", "--pieces", 1).expect(0, "is left so")
    assert not half.answers()


def test_service_that_a_killed_call_had_stopped_is_started(half: Line) -> None:
    half.end()
    work = LineFolder(half.folder).work
    for path in (half.archive, work):
        path.mkdir()
    (work / rollover.STOPPED).touch()
    half.rollover("--if-due").expect()
    assert half.answers() and not work.exists()


def test_what_a_killed_seal_left_makes_no_roll_over(half: Line) -> None:
    LineFolder(half.folder).work.mkdir()
    half.rollover("--if-due").expect(0, "seconds")
    assert not half.archive.exists() and half.answers()
