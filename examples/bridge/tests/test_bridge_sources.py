"""Where the bridge's messages come from: standard input, and a file that grows, is gone, or can't
be read.
"""
from __future__ import annotations

import gzip
import subprocess
import time
import types
from typing import Any

import brokers
import pytest
from at_port import rows_in, until
from bridge_lab import Room, line_of, one_lane, said, start


def test_each_line_of_standard_input_is_answered(room: Room) -> None:
    lines = [
        start("a"),
        line_of(said("CFX.Heartbeat")),
        b"",
        line_of(said("CFX.Production.WorkStarted", "b")),
        b"{",
        b"[" + start("c") + b" ,\t" + start("a") + b" ]",
        b"[]",
        b"\xff",
    ]
    done = room.run(given=b"\r\n".join(lines), status=1)
    got = [it.split("-")[0] for it in done.stdout.decode().splitlines()]
    assert got == [
        "kept 000000000001",
        "passed CFX.Heartbeat",
        "dead 00000001",
        "dead 00000002",
        "kept 000000000004",
        "kept 000000000001",
        "passed []",
        "dead 00000003",
    ]
    assert room.dead() == [lines[3] + b"\n", b"{\n", b"\xff\n"]
    assert (
        b"8 read, 2 put in, 1 there already, 3 dead, 2 passed over: CFX.Heartbeat 1, [] 1\n"
        in done.stderr
    ), done.stderr.decode()
    mended = b"".join(room.dead()).replace(
        b'"MessageBody":{}', b'"MessageBody":{"PrimaryIdentifier":"SN-b"}'
    )
    room.run(given=mended, status=1)
    assert room.waiting() == ["a", "c", "b"]
    assert len(room.dead()) == 3


def test_what_is_given_twice_is_put_in_once(room: Room) -> None:
    room.run(given=start("a") + b"\n" + start("b"))
    room.move(1, "aside")
    done = room.run(
        given=start("a") + b"\n" + start("b") + b"\n" + start("b", PrimaryIdentifier="SN-other")
    )
    assert done.stdout == b"kept 000000000001\nkept 000000000002\nkept 000000000003\n"
    assert room.waiting() == ["b", "b"]


def test_a_file_is_read_on_from_where_it_was(room: Room) -> None:
    room.file.write_bytes(start("a") + b"\n" + start("b")[:20])
    room.run(room.file, status=1)  # what isn't followed has its last line whole
    room.file.write_bytes(start("a") + b"\n" + start("b") + b"\n")
    room.follow()
    room.wait_for(["a", "b"])
    with open(room.file, "ab") as file:
        file.write(start("c")[:30])
        file.flush()
        time.sleep(0.5)
        assert room.waiting() == ["a", "b"]
        file.write(start("c")[30:] + b"\n")
    room.wait_for(["a", "b", "c"])
    room.end()
    with open(room.file, "ab") as file:
        file.write(start("d") + b"\n")
    done = room.run(room.file)
    assert room.dead() == [start("b")[:20] + b"\n"]
    assert room.waiting() == ["a", "b", "c", "d"]
    assert (
        b"1 put in" in done.stderr and b"1 put in" not in room.run(room.file).stderr
    ), done.stderr.decode()


def test_a_renamed_file_is_read_on_and_one_that_was_never_read_is_a_gap(room: Room) -> None:
    """By its inode, whatever its name is. Of those that no bridge has read one is noticed by its
    name, once: that of the log with more behind it.
    """
    (room.at / "said.log.9").write_bytes(start("x") + b"\n")  # of before the first run
    room.file.write_bytes(start("a") + b"\n")
    room.run(room.file)
    with open(room.file, "ab") as file:
        file.write(start("b") + b"\n")
    for name, uid in (("anything", "c"), ("said.log.1", "d"), ("said-1.log", "e")):
        room.file.rename(room.at / name)
        room.file.write_bytes(start(uid) + b"\n")
    done = room.run(room.file, status=1)
    assert b"said.log.1 was never read" in done.stderr and b"; 1 gaps" in done.stderr
    assert room.waiting() == ["a", "b", "e"]
    room.file.unlink()
    room.file.write_bytes(start("f") + b"\n")
    done = room.run(room.file, status=1)
    assert b"was read to byte" in done.stderr and b"; 1 gaps" in done.stderr
    assert room.waiting() == ["a", "b", "e", "f"]
    room.run(room.file)


def lease(room: Room) -> float:
    """When the bridge said last that it lives; 0 where it didn't."""
    its = rows_in(room.spool, "SELECT at FROM feeder WHERE name = 'the bridge'")
    return float(its[0][0]) if its else 0.0


def test_a_bridge_holds_a_lease_while_it_hears_the_machine(room: Room) -> None:
    """From when its file is there until it is killed. One that reads a file to its end is no voice
    of a machine.
    """
    room.follow()
    room.wait_for([])
    time.sleep(2)
    assert lease(room) == 0
    room.file.write_bytes(start("a") + b"\n")
    room.wait_for(["a"])
    until(lambda: lease(room) > 0)
    before = lease(room)
    until(lambda: lease(room) > before)
    room.end()
    before = lease(room)
    room.run(room.file)
    assert lease(room) == before
    stream = subprocess.Popen(room.command(), stdin=subprocess.PIPE, stderr=subprocess.DEVNULL)
    until(lambda: lease(room) > before)
    stream.kill()
    stream.communicate()


def test_what_passes_is_waited_out(room: Room) -> None:
    """A file that isn't there yet, and a folder of dead letters that is full."""
    room.running = subprocess.Popen(
        room.command(room.file, "--follow", "--dead", "2"), stderr=subprocess.PIPE
    )
    assert room.running.stderr
    told = room.running.stderr.readline()
    room.file.write_bytes(b"{1\n{2\n{1\n{3\n" + start("a") + b"\n")
    told += room.running.stderr.readline()  # it says that the folder is full
    assert room.dead() == [b"{1\n", b"{2\n"]
    assert room.waiting() == []
    for it in room.aside.iterdir():
        it.unlink()
    room.wait_for(["a"])
    assert room.dead() == [b"{3\n"]
    room.running.kill()
    told += room.running.communicate()[1]
    assert b"not there yet" in told and b"--dead says no more" in told, told.decode()
    room.running = None


def test_a_refused_report_of_work_is_not_put_in_again(room: Room) -> None:
    """Not even by another table, and once somebody has dropped it; a request that was refused may
    be, with other bytes.
    """
    load_too = """if .MessageName == "load" then {MessageName: "TraceDesk.MaterialsLoaded", UniqueID,
      Source, TimeStamp, MessageBody: {Machine: "M1", Slot: "1", Reel: .MessageBody.Reel}} else"""
    table = f"{load_too} {one_lane()} end"
    load = line_of(said("load", "l", Reel="K-1"))
    room.table.write_text(table)
    room.run(given=start("a") + b"\n" + load + b"\n")
    room.move(0, "aside")
    room.run(given=start("a") + b"\n")
    room.move(1, "dropped")
    mended = table.replace('machine: "M1"', 'machine: "M3"').replace('Slot: "1"', 'Slot: "2"')
    done = room.run(given=start("a") + b"\n" + load + b"\n")
    assert done.stdout == b"kept 000000000001\nkept 000000000002\n"
    room.table.write_text(mended)
    done = room.run(given=start("a") + b"\n" + load + b"\n")
    assert done.stdout == b"kept 000000000001\nkept 000000000003\n"
    assert room.waiting() == ["l"]


def test_numbers_that_others_round_keep_their_digits(room: Room) -> None:
    """They come to the filter as texts, so two names never become one."""
    numbers = [
        b"9007199254740991",
        b"9007199254740993",
        b"9007199254740992",
        b"-9007199254740993",
        b"4503599627370496.2",
        b"17.0",
        b"2.5",
    ]
    wrong = [b"NaN", b"1e99999999999999999999", b"01"]
    lines = [start("x").replace(b'"SN-x"', it) for it in [*numbers, *wrong]]
    named = [it.replace(b'"x"', b'"%d"' % number) for number, it in enumerate(lines)]
    done = room.run(given=b"\n".join(named), status=1)
    got = [it.split()[0] for it in done.stdout.decode().splitlines()]
    assert got == ["kept"] * len(numbers) + ["dead"] * len(wrong)
    boards = [it["MessageBody"]["Board"] for it in room.made()]
    assert boards == [f"{it.decode()}-1".replace("17.0", "17") for it in numbers]


PACKED = gzip.compress(b"{}\n", mtime=0) + gzip.compress(b"[]", mtime=0)
BYTES: list[tuple[Any, bytes]] = [
    ("\ud800", b"\xed\xa0\x80"),
    ({b"\xff": 7}, b"{b'\\xff': 7}"),
    (None, b"None"),
    (b"\xff", b"\xff"),
    (memoryview(b"{}"), b"{}"),
    (b"\x1f\x8bno", b"\x1f\x8bno"),
    (PACKED, b"{}\n[]"),
    (PACKED + b"{}", PACKED + b"{}"),
    (PACKED + PACKED[:9], PACKED + PACKED[:9]),
    (PACKED + b"\0\0", b"{}\n[]"),
]


@pytest.mark.parametrize("body, wanted", BYTES)
def test_a_body_is_unpacked_whole_or_taken_as_it_came(body: Any, wanted: bytes) -> None:
    assert brokers.unpacked(types.SimpleNamespace(body=body)) == wanted


@pytest.mark.parametrize(
    "words",
    [
        ["--follow"],
        ["--try"],
        ["--broker", "amqp://127.0.0.1"],
        ["--broker", "http://x", "--queue", "q"],
        ["--broker", "amqp://u:p@x", "--queue", "q"],
        ["--user", "x"],
        ["none"],
        ["--dead", "0"],
        ["--table", "broken.jq"],
        ["--zone", "Europe/Nowhere"],
        ["--form", "xlsx"],
        ["--folder", "x", "said.log"],
        ["--broker", "mqtt://127.0.0.1", "--queue", "q"],
        ["--broker", "mqtts://x", "--topic", "t", "--user", "x"],
        ["--broker", "amqps://x", "--queue", "q", "--topic", "t"],
        ["--table", "none"],
        ["--window", "0", "--broker", "amqp://x", "--queue", "q"],
    ],
)
def test_a_bad_command_line_is_refused(
    room: Room, words: list[str], monkeypatch: pytest.MonkeyPatch
) -> None:
    monkeypatch.chdir(room.at)
    (room.at / "broken.jq").write_text("{")
    assert b"Traceback" not in room.run(*words, status=2).stderr


def test_one_bridge_has_a_spool(room: Room) -> None:
    room.file.write_bytes(b"")
    room.follow()
    room.wait_until_at(0)
    assert b"another bridge" in room.run(status=2).stderr
