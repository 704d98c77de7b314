"""The watch of a desk behind the packaged nginx: its format, its numbers, and who may read them."""
import base64
import json
import os
import pathlib
import shutil
import subprocess
import time
from typing import Any, Iterator, Optional

import pytest
from lab.programs import auditor
from lab.tools import Word, run_tool
from lab.waits import wait_for
from lab.watched import AWAY, ODD, Watched, expect, read, watched
from tracedesk_ops import sealing

pytestmark = [pytest.mark.needs("nginx", "openssl"), pytest.mark.xdist_group("watch")]

AT, SECOND = "2026-03-02T07:05:09Z", 1772435109


@pytest.fixture(scope="module")
def its(program: pathlib.Path) -> Iterator[Watched]:
    with watched(program) as made:
        yield made


# --- The format


def test_a_run_writes_one_file_that_all_can_read(its: Watched) -> None:
    found, told = its.look()
    assert (told, its.file.stat().st_mode & 0o777) == ("", 0o644)
    assert os.listdir(its.file.parent) == ["metrics"]
    assert read(its.call(to="-").out).keys() == found.keys()


@pytest.mark.needs("promtool")
def test_promtool_takes_the_file(its: Watched) -> None:
    its.look()
    checked = ["promtool", "check", "metrics"]
    subprocess.run(checked, stdin=its.file.open(), check=True, capture_output=True)


# --- The numbers


def test_reports_are_those_of_the_program(its: Watched) -> None:
    """Two overdue pieces, an expired reel, an empty slot, and nothing of another machine."""
    rows = [line.split(",") for line in its.site.report("/slots?machine=M1").splitlines()[1:]]
    lives = [int(row[6]) for row in rows if row[6].isdigit()]
    pieces = {slot: sum(int(row[5]) for row in rows if row[0] == slot) for slot in ("1", "2")}
    assert (sorted(lives), pieces) == ([0, 8180], {"1": 498 + 700, "2": 89})
    assert len(its.site.report("/overdue").splitlines()) - 1 == 2
    expect(
        its.metrics(),
        up=1,
        proxy_up=1,
        service_active=1,
        service_restarts_total=3,
        overdue_pieces=2,
        least_floor_life_seconds__M1=0,
        least_slot_pieces__M1=89,
        least_floor_life_seconds__M2=None,
        least_slot_pieces__M2=0,
    )


def test_figures_of_the_book_are_those_of_the_line(its: Watched) -> None:
    sealing.seal(its.line, auditor(pathlib.Path(its.site.program), its.room).audit)
    for _ in range(2):  # a look asks the desk about the newest sealed file, and makes no entry
        found = its.metrics()
        expect(found, book_entries=0, book_open=0, book_undecided=0, watch_source_up__book=1)
        assert found["backup_commands"] > 0
    shutil.rmtree(its.line.sealed)
    shutil.rmtree(its.line.lost)
    for reel in ("K-8", "K-9"):
        its.site.say("MaterialsLoaded", {"Machine": "M1", "Slot": "1", "Reel": reel}, 0)
    said = {"Of": 1, "Became": "nothing", "By": "A", "Reason": "typed"}
    assert its.site.asked("POST", "/line/decisions", "op", json.dumps(said))[0] == 200
    for path in ("state?machine=M1", "book?after=0", "undecided", "counts"):
        assert its.site.asked("GET", f"/line/{path}")[0] == 401
        assert its.site.asked("GET", f"/line/{path}", "office")[0] == 200
    expect(its.metrics(), book_entries=3, book_open=1, book_undecided=0, watch_source_up__book=1)


def test_other_figures_are_those_of_the_files_and_of_the_run(its: Watched) -> None:
    """Nothing is said of what isn't there: sealed files, a clock and senders."""
    size, before = (its.room / "desk").stat().st_size, time.time()
    found = its.metrics()
    expect(
        found,
        file_bytes=size,
        log_bytes=(its.room / "desk-wal").stat().st_size,
        pieces_estimate=size // 120,
        next_start_estimate_seconds=round(size // 120 * 19 / 1e6, 3),
        **dict.fromkeys(("backup_timestamp_seconds", "backup_commands", "clock_commands")),
        sender_waiting__m1=None,
        **{f"watch_source_up__{name}": 1 for name in ("backup", "clock", "status")},
    )
    assert before - 1 <= found["watch_timestamp_seconds"] <= time.time() + 1
    assert 0 < found["get_seconds"] < time.time() - before


def test_machines_are_those_of_the_set_up(its: Watched) -> None:
    kept = its.site.setup
    its.site.set_up({**kept, "machines": [{"machine": "M9"}, {"machine": ODD}]})
    try:
        found = its.metrics()
    finally:
        its.site.set_up(kept)
    slots = {name: value for name, value in found.items() if name.startswith("least_slot_pieces")}
    assert slots == {r"least_slot_pieces{M \"3\" \\}": 33}


def test_the_desks_file_is_not_opened(its: Watched) -> None:
    """Nobody could open a pipe in the place of the file or of its log."""
    (its.room / "pipes").mkdir()
    for name in ("desk", "desk-wal"):
        os.mkfifo(its.room / "pipes" / name)
    found = its.metrics(line=its.room / "pipes")
    expect(found, file_bytes=0, log_bytes=0, up=1, watch_source_up__file=1)


# --- What senders say of themselves


STATUS: dict[str, Any] = {
    "Aside": 2,
    "At": AT,
    "Machines": {"M1": {"State": "go"}, "M2": {"State": "stop"}},
    "OldestWaiting": AT,
    "Sender": "m1",
    "Version": 1,
    "Waiting": 3,
}


@pytest.fixture
def status(its: Watched) -> Iterator[pathlib.Path]:
    """The status files of two senders."""
    folder = its.room / "status"
    folder.mkdir()
    second = {**STATUS, "Sender": "m2", "Machines": {}, "OldestWaiting": None, "Waiting": 0}
    for told in (STATUS, second):
        (folder / f"{told['Sender']}.json").write_text(json.dumps(told))
    yield folder
    shutil.rmtree(folder)


def test_senders_are_told(its: Watched, status: pathlib.Path) -> None:
    found, told = its.look()
    assert "watch: status: " not in told
    of_senders = {it: found[it] for it in found if it.startswith(("sender_", "interlock_"))}
    assert of_senders == {
        "sender_waiting{m1}": 3,
        "sender_waiting{m2}": 0,
        "sender_aside{m1}": 2,
        "sender_aside{m2}": 2,
        "sender_timestamp_seconds{m1}": SECOND,
        "sender_timestamp_seconds{m2}": SECOND,
        "sender_oldest_waiting_timestamp_seconds{m1}": SECOND,
        "interlock_go{m1,M1}": 1,
        "interlock_go{m1,M2}": 0,
    }


SPOILT = {
    "members that are missing": '{"Sender":"m1"}',
    "too large": '{"Sender":"m1","Waiting":1e999}',
    "a list": '{"Sender":"m1","Waiting":0,"Aside":0,"OldestWaiting":null,"Machines":[7]}',
    "deep": '{"Sender":"m1","Waiting":' + "[" * 5_000,
}


@pytest.mark.parametrize("name", SPOILT)
def test_a_status_that_is_spoilt_hides_no_other(
    its: Watched, status: pathlib.Path, name: str
) -> None:
    (status / "m1.json").write_text(SPOILT[name])
    found, told = its.look()
    expect(found, watch_source_up__status=0, sender_waiting__m2=0)
    assert "m1.json" in told


# --- Who may read them


def test_nginx_serves_the_file_to_readers(its: Watched) -> None:
    its.look()
    status, headers, body = its.site.asked("GET", "/metrics", "office")
    assert (status, body) == (200, its.file.read_text())
    assert headers["Content-Type"] == "text/plain; version=0.0.4; charset=utf-8"


@pytest.mark.parametrize(
    ("method", "path", "user", "status"),
    [
        ("GET", "/metrics", "office", 404),
        ("GET", "/metrics", None, 401),
        ("POST", "/metrics", "op", 403),
        ("GET", "/metrics/", "office", 404),
        ("GET", "/health", None, 200),
        ("HEAD", "/health", None, 200),
        ("POST", "/health", None, 403),
        ("GET", "/health/", None, 401),
    ],
)
def test_the_health_is_anybodys_and_numbers_are_readers(
    its: Watched, method: str, path: str, user: Optional[str], status: int
) -> None:
    its.file.unlink(missing_ok=True)
    assert its.site.asked(method, path, user, "x" if method == "POST" else None)[0] == status


def test_few_looks_at_the_health_come_to_the_desk(its: Watched) -> None:
    served, began = its.site.connections(), time.monotonic()
    said = {its.site.asked("GET", "/health")[::2] for _ in range(30)}
    assert said == {(200, '{"Answer":"Proxy","Health":"Well"}')}
    assert its.site.connections() - served <= time.monotonic() - began + 2


@pytest.mark.parametrize(
    ("method", "path", "user", "status"),
    [("GET", "/overdue", "office", 200), ("POST", "/messages", "op", 400)],
)
def test_a_guess_is_answered_after_a_second_and_locks_nobody_out(
    its: Watched, method: str, path: str, user: str, status: int
) -> None:
    body = "x" if method == "POST" else None
    guess = "Basic " + base64.b64encode(f"{user}:guess".encode()).decode()
    for _ in range(2):
        began = time.monotonic()
        assert its.site.asked(method, path, body=body, Authorization=guess)[0] == 401
        assert time.monotonic() - began >= 1
    assert its.site.asked(method, path, user, body)[0] == status


def test_the_health_follows_the_desk(its: Watched) -> None:
    with its.desk_is_down():
        wait_for("/health says that the desk is down", lambda: its.health() == AWAY)
    wait_for("/health says that it is back", lambda: its.health()[0] == 200)


# --- Words


@pytest.mark.parametrize(
    ("words", "status", "said"),
    [
        (["--help"], 0, "Exit status: 0 written"),
        (["--list"], 0, "tracedesk_up gauge"),
        (["--nothing"], 2, "--nothing"),
        (["--timeout", "0"], 2, "takes some time"),
        (["--health", "http://x/"], 2, "https"),
    ],
)
def test_words_of_the_watch(words: list[Word], status: int, said: str) -> None:
    run_tool("watch", *words).expect(status, said)
