"""tracedesk-line serves a line: on the routes of `tracedesk serve` its answers are the same bytes,
its file has an entry for each message that is refused or faulty, and a kill loses none.
"""
import contextlib
import csv
import http.client
import io
import json
import pathlib
import socket
import sqlite3
import subprocess

from typing import Any, Iterator

import pytest
from tracedesk_dev import trial
from tracedesk_dev.ports import free_port
from tracedesk_ops import stored

SETUP = [
    "PartDefined P",
    "SheetDefined PR M 1 1 P 1 R1",
    "ProductSelected M PR",
    "ReelReceived K1 P L1 1 100 0",
    "ReelReceived K2 P L2 1 100 0",
]
LOADED = [*SETUP, "MaterialsLoaded M 1 K1"]
UNKNOWN = "MaterialsLoaded M 1 K9"
BUILDING = [
    *(SETUP[0], "SheetDefined PR M 1 1 P 3 R1 R2 R3", *SETUP[2:]),
    *("MaterialsLoaded M 1 K1", "WorkStarted M B1"),
]
INSTALL = "MaterialsInstalled M B1"
WORK = ["WorkStarted M B1", "MaterialsInstalled M B1 1 R1", "WorkCompleted M B1"]
SAID = {"By": "A. Person", "Reason": "looked at"}
COLUMNS = "n, after, kind, source, uid, machine, slot, reel, word, of"
Answer = tuple[int, bytes]


def message(number: int, line: str) -> bytes:
    """The message of a command: its stored text, with spaces for tabs."""
    return stored.message(f"u{number}", "S", 0, line.replace(" ", "\t")).encode()


def with_members(number: int, line: str, **members: Any) -> bytes:
    """The message of a command, with more members in its body."""
    told = json.loads(message(number, line))
    return json.dumps(told | {"MessageBody": told["MessageBody"] | members}).encode()


def asked(link: http.client.HTTPConnection, target: str, body: bytes | None = None) -> Answer:
    link.request("GET" if body is None else "POST", target, body)
    answer = link.getresponse()
    return answer.status, answer.read()


class Line:
    """A line's file in a folder, and the programs over it."""

    def __init__(self, program: pathlib.Path, line: pathlib.Path, folder: pathlib.Path) -> None:
        self.program, self.line, self.folder = str(program), str(line), folder
        self.file = folder / "line.db"

    @contextlib.contextmanager
    def served(self) -> Iterator[http.client.HTTPConnection]:
        """One connection to the line; then the server ends."""
        with trial.served(self.line, self.file) as (process, link):
            yield link
        assert process.returncode in (0, 1)

    def killed_after(self, target: str, body: bytes) -> Answer:
        """A request, after whose answer the server is killed."""
        with trial.served(self.line, self.file) as (process, link):
            told = asked(link, target, body)
            process.kill()
        assert process.returncode == -9
        return told

    def send(self, *lines: str, first: int = 1) -> list[int]:
        """Sends these commands on one connection; the statuses of their answers."""
        with self.served() as link:
            its = [
                asked(link, "/messages", message(number, line))
                for number, line in enumerate(lines, first)
            ]
        return [status for status, _ in its]

    def tell(self, number: int, line: str, **members: Any) -> int:
        """Sends a command with members that the desk skips; the status of its answer."""
        with self.served() as link:
            return asked(link, "/messages", with_members(number, line, **members))[0]

    def say(self, what: str, **said: Any) -> dict[str, Any]:
        with self.served() as link:
            status, told = asked(link, f"/line/{what}", json.dumps(said | SAID).encode())
        assert status == 200, told
        return dict(json.loads(told))

    def state(self, machine: str = "M") -> dict[str, Any]:
        """The state of a machine, served and printed: the same bytes."""
        with self.served() as link:
            status, told = asked(link, f"/line/state?machine={machine}")
        printed = self.run("state", "--machine", machine)
        assert (status, printed.stdout) == (200, told + b"\n")
        return dict(json.loads(told))

    def causes(self) -> list[tuple[Any, ...]]:
        return [(it["Cause"], it.get("Entry")) for it in self.state()["Causes"]]

    def counts(self) -> tuple[int, int, int]:
        """How many entries there are, how many are open, and how many wait for a decision."""
        with self.served() as link:
            its = json.loads(asked(link, "/line/counts")[1])
        return its["Entries"], its["Open"], its["Undecided"]

    def run(self, command: str, *words: str) -> "subprocess.CompletedProcess[bytes]":
        return subprocess.run(
            [self.line, command, "--db", str(self.file), *words], capture_output=True
        )

    def audit(self) -> str:
        done = self.run("audit")
        assert (done.returncode, done.stderr) == (0, b"")
        return done.stdout.decode()

    def rows(self, columns: str = COLUMNS) -> list[Any]:
        """The book, by SQL."""
        with contextlib.closing(sqlite3.connect(self.file)) as desk:
            return list(desk.execute(f"SELECT {columns} FROM book ORDER BY n"))


@pytest.fixture
def line(program: pathlib.Path, line_program: pathlib.Path, tmp_path: pathlib.Path) -> Line:
    return Line(program, line_program, tmp_path)


def test_a_refused_load_stops_the_machine_until_somebody_decides(line: Line) -> None:
    assert line.send(*LOADED, *WORK[:1]) == [200] * 7
    assert line.state()["State"] == "go"
    assert line.send(UNKNOWN, first=8) == [409]
    assert line.rows() == [
        (1, 7, "handling", "S", "u8", "M", "1", "K9", "SlotTaken", 0),
    ]
    assert line.causes() == [("Open", 1)]
    assert line.say("decisions", Of=1, Became="gone") == {"Answer": "Decided", "Entry": 2}
    assert line.causes() == [] and line.audit() == "lawful 7 book 2\n"


def test_a_refused_load_stops_the_machine_until_its_slot_is_handled(line: Line) -> None:
    assert line.send(*LOADED, *WORK[:1], UNKNOWN) == [200] * 7 + [409]
    assert line.causes() == [("Open", 1)]
    assert line.send("MaterialsUnloaded M 1", "MaterialsLoaded M 1 K2", first=9) == [200, 200]
    assert line.causes() == []


def test_a_hold_stops_the_machine_until_it_is_released(line: Line) -> None:
    line.send(*LOADED, *WORK[:1])
    for kind, name in ("reel", "K1"), ("lot", "L1"):
        entry = line.say("holds", Hold=kind, Name=name)["Entry"]
        assert line.causes() == [("Held", entry)]
        line.say("releases", Release=kind, Name=name)
        assert line.causes() == []
    assert [row[2] for row in line.rows()] == ["hold", "release"] * 2


def test_what_is_refused_again_is_one_entry(line: Line) -> None:
    line.send(*SETUP, "WorkStarted M B1", "WorkStarted M B1", "WorkStarted M B1")
    assert [row[:3] for row in line.rows()] == [(1, 5, "work")]
    assert line.audit() == "lawful 5 book 1\n"


def test_a_faulty_message_is_an_entry_with_its_bytes(line: Line) -> None:
    line.send(*SETUP)
    told = message(9, UNKNOWN).replace(b'"K9"', b"9")
    with line.served() as link:
        assert asked(link, "/messages", told)[0] == 422
        assert asked(link, "/messages", b'{"MessageName":"CFX.Heartbeat"')[0] == 400
    assert [row[2] for row in line.rows()] == ["unread", "unread"]
    assert line.rows("told")[0] == (told.decode(),)


def test_the_answers_are_the_bytes_of_tracedesk(line: Line, tmp_path: pathlib.Path) -> None:
    """Over a day's kinds of requests, on one connection to each program."""
    requests: list[tuple[str, bytes | None]] = [
        ("/messages", message(number, it))
        for number, it in enumerate([*LOADED, UNKNOWN, *WORK, WORK[0], "PartDefined P"], 1)
    ]
    requests += [requests[0], ("/messages", b"no JSON"), ("/messages", b'{"MessageName":"X"}')]
    requests += [
        (it, None)
        for it in ("/slots?machine=M", "/slots?machine=N", "/slots", "/reel?reel=K1", "/overdue")
        + ("/trace/lot?lot=L1&detail=4", "/trace/board?board=B1&detail=4", "/nothing", "/messages")
    ]
    counts = "/imports/counts?id=c1&source=S&time=2026-03-02T06:00:00Z"
    requests += [(counts, b"reel,quantity\nK1,90\n"), (counts, b"reel\n"), ("/overdue", b"")]
    told = []
    for program, file in (line.program, tmp_path / "desk.db"), (line.line, line.file):
        with trial.served(program, file) as (_, link):
            told.append([asked(link, *it) for it in requests])
    assert told[0] == told[1] and {200, 400, 404, 405, 409} <= {status for status, _ in told[0]}
    with contextlib.closing(sqlite3.connect(line.file)) as desk:
        kept = list(desk.execute("SELECT * FROM accepted"))
    with contextlib.closing(sqlite3.connect(tmp_path / "desk.db")) as desk:
        assert kept == list(desk.execute("SELECT * FROM accepted"))


def test_a_kill_loses_no_entry(line: Line) -> None:
    """Each answer is on disk before it goes out: a command, an entry, a decision."""
    line.send(*LOADED, *WORK[:1])
    assert line.killed_after("/messages", message(8, UNKNOWN))[0] == 409
    assert line.causes() == [("Open", 1)]
    assert line.killed_after("/messages", message(9, "PartDefined Q"))[0] == 200
    decision = json.dumps({"Of": 1, "Became": "gone"} | SAID).encode()
    assert line.killed_after("/line/decisions", decision) == (
        200,
        b'{"Answer":"Decided","Entry":2}',
    )
    assert line.causes() == [] and line.audit() == "lawful 8 book 2\n"


def test_a_file_of_tracedesk_gets_its_book_at_the_first_opening(line: Line) -> None:
    said = b"".join(message(number, it) + b"\n" for number, it in enumerate(LOADED, 1))
    words = [line.program, "feed", "--db", str(line.file)]
    subprocess.run(words, input=said, capture_output=True, check=True)
    assert line.audit() == "lawful 6 book 0\n"
    with pytest.raises(sqlite3.OperationalError):
        line.rows()
    assert line.send(UNKNOWN, first=7) == [409] and len(line.rows()) == 1
    done = subprocess.run([line.program, "audit", "--db", str(line.file)], capture_output=True)
    assert (done.returncode, done.stdout) == (0, b"lawful 6\n")


@pytest.mark.parametrize(
    "change, fault",
    [
        ("UPDATE book SET after = 9", "book WrongEntry 1"),
        ("ALTER TABLE book RENAME COLUMN told TO said", "book OtherColumns"),
        ("DELETE FROM accepted WHERE number = 2", "NotLawful 2"),
    ],
)
def test_a_file_with_a_fault_is_refused_by_name_and_stays(
    line: Line, change: str, fault: str
) -> None:
    line.send(*LOADED, UNKNOWN)
    with contextlib.closing(sqlite3.connect(line.file)) as desk, desk:
        desk.execute(change)
    before = line.file.read_bytes()
    done = line.run("serve", "--port", str(free_port()), "--connections", "1")
    assert (done.returncode, done.stdout) == (3, b"")
    assert done.stderr.decode() == f"tracedesk: {fault}\n" and line.file.read_bytes() == before


def test_a_port_that_somebody_has(line: Line) -> None:
    with socket.create_server(("127.0.0.1", 0)) as other:
        done = line.run("serve", "--port", str(other.getsockname()[1]))
    assert (done.returncode, done.stdout, done.stderr) == (4, b"", b"tracedesk: Read\n")


@pytest.mark.parametrize("number", ["0", "4294967296", "x"])
def test_a_number_of_connections_that_is_none(line: Line, number: str) -> None:
    done = line.run("serve", "--port", str(free_port()), "--connections", number)
    assert (done.returncode, done.stdout) == (2, b"") and not line.file.exists()
    assert b"no number from 1 to 4294967295" in done.stderr


def test_the_book_as_csv(line: Line) -> None:
    line.send(*SETUP, UNKNOWN, "WorkStarted M B1")
    with line.served() as link:
        book, undecided = asked(link, "/line/book?after=0"), asked(link, "/line/undecided")
        assert asked(link, "/line/book")[0] == 400
    rows = list(csv.DictReader(io.StringIO(book[1].decode())))
    assert [(row["kind"], row["state"]) for row in rows] == [("handling", "open"), ("work", "open")]
    assert [row["n"] for row in csv.DictReader(io.StringIO(undecided[1].decode()))] == ["2"]


# --- Members that only a line reads


def test_the_attributes_of_a_receipt(line: Line) -> None:
    line.send(*SETUP)
    told = "ReelReceived K3 P L3 1 100 0"
    members = {"Supplier": 'Acme, "x"', "DateCode": "2614", "MakerPart": "", "Order": 7}
    assert [line.tell(6, told, **members) for _ in range(2)] == [200, 200]
    assert line.rows() == [
        (1, 5, "attribute", "S", "u6", "", "", "K3", "DateCode", 0),
        (2, 5, "attribute", "S", "u6", "", "", "K3", "Supplier", 0),
    ]
    assert line.rows("told") == [("2614",), ('Acme, "x"',)] and line.counts() == (2, 0, 0)
    assert line.tell(7, told, **members) == 409
    assert line.audit() == "lawful 6 book 2\n"


def test_a_difference_stops_the_machine_until_its_slot_is_loaded(line: Line) -> None:
    assert line.send(*BUILDING) == [200] * 7 and line.causes() == []
    its = 8, f"{INSTALL} 3 R1 R2 R3"
    assert [line.tell(*its, MachineReels=["K2", "K1", "K2"]) for _ in range(2)] == [200, 200]
    assert line.rows() == [(1, 7, "differs", "S", "u8", "M", "1", "K2", "K1", 0)]
    assert line.rows("board, told") == [("B1", "R1 R3")]
    assert line.send("MaterialsSpliced M 1 K2", first=9) == [200]
    assert line.causes() == [("Open", 1)] and line.counts() == (1, 1, 1)
    assert line.send("MaterialsUnloaded M 1", "MaterialsLoaded M 1 K2", first=10) == [200, 200]
    assert line.causes() == [] and line.counts() == (1, 0, 1)


def test_a_difference_stops_the_machine_until_somebody_decides(line: Line) -> None:
    line.send(*BUILDING)
    assert line.tell(8, f"{INSTALL} 1 R1", MachineReels=["K2"]) == 200
    assert line.tell(9, f"{INSTALL} 1 R2", MachineReels=["K9"]) == 200
    assert line.causes() == [("Open", 1), ("Open", 2)]
    line.say("decisions", Of=1, Became="looked at")
    assert line.causes() == [("Open", 2)]
    line.say("decisions", Of=2, Became="scrapped")
    assert line.causes() == [] and line.counts() == (4, 0, 0)


def test_a_neighbor_on_the_tape_is_a_boundary(line: Line) -> None:
    """Also a spent one."""
    line.send(*(it.replace("L1 1 100", "L1 1 1") for it in BUILDING), "MaterialsSpliced M 1 K2")
    assert line.tell(9, f"{INSTALL} 1 R1", MachineReels=["K2"]) == 200
    assert line.tell(10, f"{INSTALL} 1 R2", MachineReels=["K1"]) == 200
    assert line.rows() == [
        (1, 8, "boundary", "S", "u9", "M", "1", "K2", "K1", 0),
        (2, 9, "boundary", "S", "u10", "M", "1", "K1", "K2", 0),
    ]
    assert line.causes() == [] and line.counts() == (2, 0, 0)


def test_reels_that_cannot_be_compared(line: Line) -> None:
    line.send(*BUILDING)
    told = f"{INSTALL} 1 R1"
    assert line.tell(8, told, MachineReels=["K2", "K2"]) == 200
    assert line.rows() == [(1, 7, "uncompared", "S", "u8", "M", "", "", "", 0)]
    sent = with_members(8, told, MachineReels=["K2", "K2"]).decode()
    assert line.rows("board, told") == [("B1", sent)]
    assert line.causes() == [] and line.counts() == (1, 0, 1)


@pytest.mark.parametrize("reels", [["K1"], [None], None])
def test_reels_that_differ_in_nothing(line: Line, reels: list[str | None] | None) -> None:
    line.send(*BUILDING)
    assert line.tell(8, f"{INSTALL} 1 R1", MachineReels=reels) == 200
    assert line.rows() == [] and line.causes() == []


def test_a_refused_install_is_not_compared(line: Line) -> None:
    line.send(*BUILDING)
    assert line.tell(8, "MaterialsInstalled M B2 1 R1", MachineReels=["K2"]) == 409
    assert [row[2] for row in line.rows()] == ["work"]


def test_a_kill_leaves_a_command_and_its_entries(line: Line) -> None:
    line.send(*BUILDING)
    told = with_members(8, f"{INSTALL} 1 R1", MachineReels=["K2"])
    assert line.killed_after("/messages", told)[0] == 200
    assert line.audit() == "lawful 8 book 1\n" and line.causes() == [("Open", 1)]
