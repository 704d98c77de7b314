"""A watch whose desk, proxy, sources or disk fail: its file is whole, and has no half report."""
import contextlib
import os
import pathlib
import subprocess
from typing import Iterator, Optional

import pytest
from lab.site import WELL
from lab.waits import wait_for
from lab.watched import AWAY, Watched, expect, saying, watched

pytestmark = [pytest.mark.needs("nginx", "openssl"), pytest.mark.xdist_group("watch_faults")]

JSON = "application/json"
OVERDUE = "board,designator,reel,minute\n"
SLOTS = "slot,position,reel,part,lot,remaining,minutes_left\n"


@pytest.fixture(scope="module")
def its(program: pathlib.Path) -> Iterator[Watched]:
    with watched(program) as made:
        yield made


def test_a_desk_that_is_down(its: Watched) -> None:
    with its.desk_is_down():
        found, told = its.look()
    expect(
        found,
        up=0,
        get_seconds=None,
        proxy_up=1,
        overdue_pieces=None,
        least_slot_pieces__M1=None,
        watch_source_up__reports=0,
        watch_source_up__file=1,
        service_active=1,
    )
    assert "Connection refused" in told and "not asked for them" in told
    expect(its.metrics(), up=1, overdue_pieces=2)


def test_a_desk_that_hangs(its: Watched) -> None:
    """It takes connections and answers none: each wait has an end."""
    its.site.pause_desk()
    try:
        found = its.metrics(timeout=2)
        wait_for("/health says 503", lambda: its.health() == AWAY)
    finally:
        its.site.resume_desk()
    expect(found, up=0, proxy_up=1, watch_source_up__reports=0)


def test_a_proxy_that_is_down(its: Watched) -> None:
    its.site.stop_nginx()
    try:
        found = its.metrics()
    finally:
        its.site.start_nginx()
    expect(found, up=1, proxy_up=0, overdue_pieces=2, watch_source_up__reports=1)


# --- What breaks off, is another's or makes no sense


def head(
    body: str, length: Optional[int] = None, status: str = "200 OK", kind: str = "text/csv"
) -> bytes:
    lines = (
        f"HTTP/1.1 {status}",
        f"Content-Type: {kind}",
        f"Content-Length: {len(body) if length is None else length}",
        "Connection: close",
    )
    return "\r\n".join([*lines, "", body]).encode()


NO_REEL = head('{"Answer":"NotFound","Kind":"Reel"}', status="404 Not Found", kind=JSON)
ANSWERS: dict[str, tuple[dict[str, bytes], bool, Optional[int]]] = {
    # what a port says of each path, whether that is a desk, and the overdue pieces
    "half an overdue list": (
        {"/reel": NO_REEL, "/overdue": head(f"{OVERDUE}B,C1,K,2026-03-02T06:00:00Z\n", 900)},
        True,
        None,
    ),
    "half a list of slots": (
        {"/reel": NO_REEL, "/kit": NO_REEL, "/overdue": head(OVERDUE), "/slots": head(SLOTS, 900)},
        True,
        0,
    ),
    "another program's page": ({"/reel": head("<html></html>", kind="text/html")}, False, None),
}


@pytest.mark.parametrize("name", ANSWERS)
def test_no_number_is_of_half_a_report_or_of_another_program(its: Watched, name: str) -> None:
    """Tests of the package's client try what else is no report."""
    answers, is_up, overdue = ANSWERS[name]
    with saying(answers) as port:
        found, told = its.look(port=port)
    assert told
    expect(
        found,
        up=int(is_up),
        overdue_pieces=overdue,
        least_slot_pieces__M1=None,
        watch_source_up__reports=0,
        watch_source_up__file=1,
    )


# --- Each source


SOURCES = {  # the file that one reads
    "clock": "clock.json",
    "reports": "etc/station/setup.json",
    "status": "status/m1.json",
    "backup": f"sealed/{'0' * 24}.desk",
}


@pytest.mark.parametrize("name", SOURCES)
def test_a_source_that_is_spoilt_hides_no_other(its: Watched, name: str) -> None:
    file = its.room / SOURCES[name]
    with contextlib.ExitStack() as kept:
        if not file.parent.exists():
            file.parent.mkdir()
            kept.callback(file.parent.rmdir)
        kept.callback(file.write_bytes, file.read_bytes()) if file.exists() else None
        kept.callback(file.unlink)
        file.write_text('{"half":')
        found, told = its.look()
    others = {*SOURCES, "book", "service", "file"} - {name}
    expect(found, **{f"watch_source_up__{other}": 1 for other in others}, up=1, overdue_pieces=2)
    expect(found, **{f"watch_source_up__{name}": 0})
    assert f"watch: {name}: " in told


@pytest.mark.parametrize(
    ("text", "status", "is_active", "is_up"),
    [
        ("", 1, None, 0),
        ("LoadState=not-found\nActiveState=inactive\nNRestarts=0\n", 0, None, 0),
        ("LoadState=loaded\nActiveState=active\nNRestarts=\n", 0, 1, 0),
        (WELL.replace("active", "failed"), 0, 0, 1),
    ],
    ids=["fails", "no unit", "no number", "a service that failed"],
)
def test_a_service_is_as_systemctl_says(
    its: Watched, text: str, status: int, is_active: Optional[int], is_up: int
) -> None:
    its.site.systemd_says(text, status)
    found = its.metrics()
    its.site.systemd_says()
    expect(found, service_active=is_active, watch_source_up__service=is_up)
    expect(found, service_restarts_total=3 if is_up else None, watch_source_up__reports=1)


def test_a_desks_file_that_is_not_there(its: Watched) -> None:
    found = its.metrics(line=its.room / "nowhere")
    expect(found, watch_source_up__file=0, file_bytes=None, up=1)


# --- The file


def expect_not_written(its: Watched, to: pathlib.Path, limit: int = 0) -> None:
    its.call(limit, to=to).expect(1, f"{to} was not written")


def test_a_file_that_cannot_be_written_leaves_the_one_before(its: Watched) -> None:
    its.look()
    before = its.file.read_bytes()
    expect_not_written(its, its.file, limit=100)
    expect_not_written(its, its.file / "metrics")
    expect_not_written(its, its.room / "nowhere/metrics")
    assert (its.file.read_bytes(), os.listdir(its.file.parent)) == (before, ["metrics"])


@pytest.mark.root
@pytest.mark.gate
def test_a_full_disk_leaves_the_file_before(its: Watched) -> None:
    at = its.room / "disk"
    at.mkdir()
    subprocess.run(["mount", "-t", "tmpfs", "-o", "size=16k", "small", at], check=True)
    try:
        its.look(to=at / "metrics")
        before = (at / "metrics").read_bytes()
        with contextlib.suppress(OSError), open(at / "filler", "wb", buffering=0) as filler:
            while True:
                filler.write(bytes(512))
        expect_not_written(its, at / "metrics")
        subprocess.run(["mount", "-o", "remount,ro", at], check=True)
        expect_not_written(its, at / "metrics")
        assert (at / "metrics").read_bytes() == before
        assert sorted(os.listdir(at)) == ["filler", "metrics"]
    finally:
        subprocess.run(["umount", at], check=True)
