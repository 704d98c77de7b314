"""What machines write becomes records: JSON, CSV and XML, of a file that grows and of a folder; and
a bridge that is killed at each record loses none and doubles none.
"""
from __future__ import annotations

import json
import os
import pathlib
import subprocess
import time
from typing import Any

import fronts
import pytest
from at_port import until
from bridge_lab import Room

from tracedesk import tables

# Pieces that a machine placed, a row each; the time is that of the plant.
PIECES = """
def need($what): if . == null or . == "" then error("\\($what) is not there") else . end;
(.Rows // [.])[] as $row | $row | {MessageName: "TraceDesk.MaterialsInstalled",
  UniqueID: "\\(.Board | need("Board"))-\\(.Designator)", Source: $from, TimeStamp: .Time,
  MessageBody: {Machine: "M1", Board, Designators: [.Designator],
    MachineReels: [.Reel | if . == "" then null else . end]}}
"""
HEADING = "Time;Board;Designator;Reel"


def row(number: int) -> str:
    return f"2026-03-02 07:{number:02}:00;B-{number};C1;K-1"


def of_csv(data: bytes) -> Any:
    (record,) = fronts.csv_record(data)
    return record.fault or record.value["Rows"]


GOOD = [{"Board": "B-1", "Reel": 'K "1"; x'}, {"Board": "B-ü", "Reel": ""}]
CSV = 'Board;Reel\r\nB-1;"K ""1""; x"\r\n\r\nB-ü;\r\n'


@pytest.mark.parametrize(
    "data",
    [
        CSV.encode(),
        CSV.encode("utf-8-sig"),
        CSV.encode("utf-16"),
        CSV.encode("cp1252"),
        b"sep=;\r\n" + CSV.encode(),
        b"\r\n;;\r\n" + CSV.encode(),
        'Board,Reel,\n" B-1 ","K ""1""; x",\nB-ü,,\n'.encode(),
        'Board\tReel\nB-1\t"K ""1""; x"\nB-ü\t'.encode(),
        'Board|Reel\nB-1|"K ""1""; x"\n|\nB-ü|'.encode(),
    ],
)
def test_a_table_is_found_whatever_wrote_it(data: bytes) -> None:
    assert of_csv(data) == GOOD


@pytest.mark.parametrize(
    "data, why",
    [
        (b"", "it has no heading"),
        (b";;\r\n", "it has no heading"),
        (b"Board;Board\n", "line 1: the heading has 'Board' twice"),
        (b"Board;;Reel\n", "line 1: the heading lacks the name of a column"),
        (b"\nBoard;Reel\nB;K\nB\n", "line 4: it has 1 fields, and the heading has 2"),
        (b"Board;Reel\nB;K;more\n", "line 2: it has 3 fields, and the heading has 2"),
        (b'Board;Reel\nB;"K\n', "line 2: it is no row: unexpected end of data"),
        (b'Board;Reel\nB;"K"x\n', "line 2: it is no row: ';' expected after '\"'"),
    ],
)
def test_a_table_with_a_fault_names_its_line(data: bytes, why: str) -> None:
    assert of_csv(data) == why


XML = b"""<?xml version="1.0" encoding="ISO-8859-1"?><l:Log xmlns:l="urn:x" Machine="M-\xfc">
<l:Board Id="B-1"><Piece Ref="C1"/><Piece Ref="C2"> K-1 </Piece></l:Board><l:Board Id="B-2"/>
</l:Log>"""


def test_a_document_is_an_object_with_lists() -> None:
    (record,) = fronts.xml_record(XML)
    boards = [
        {"Id": "B-1", "Piece": [{"Ref": "C1"}, {"Ref": "C2", "Text": "K-1"}]},
        {"Id": "B-2"},
    ]
    assert record.value == {"Log": {"Machine": "M-ü", "Board": boards}}
    assert json.loads(record.text) == record.value


@pytest.mark.parametrize(
    "data, why",
    [
        (b"", "no element found"),
        (XML[:-2], "it is no XML: "),
        (b"<a x='1'><x/></a>", "x is an attribute and an element of a"),
        (b"<!DOCTYPE a [<!ENTITY x SYSTEM 'file:///etc/passwd'>]><a>&x;</a>", "undefined entity"),
        (b"<?xml version='1.0' encoding='no'?><a/>", "it is no XML"),
        (b"<a>" * 100_000, "it is no XML"),
    ],
)
def test_a_document_with_a_fault_says_so(data: bytes, why: str) -> None:
    (record,) = fronts.xml_record(data)
    assert record.fault and why in record.fault and "root:" not in record.text.decode()


def by_csv(room: Room) -> list[Any]:
    room.table.write_text(PIECES)
    return ["--form", "csv", "--zone", "Europe/Berlin"]


def test_rows_of_a_file_that_grows_are_records(room: Room) -> None:
    """Below the heading of their own file, also after a rotation; a row that is none is kept
    aside.
    """
    words = by_csv(room)
    room.file.write_text(f"{HEADING}\n{row(1)}\n")
    room.run(*words, room.file)
    with open(room.file, "a") as file:
        file.write(f"{row(2)}\nB-3;C1\n{row(3)[:9]}")
    done = room.run(*words, room.file, status=1)
    assert b"2 dead" in done.stderr
    why = sorted(it.read_text() for it in room.aside.glob("*.why"))
    assert "said.log: it has 2 fields, and the heading has 4\n" in why
    with open(room.file, "a") as file:
        file.write(f"{row(3)[9:]}\n")
    room.file.rename(room.at / "said.log.1")
    room.file.write_text(f"Board;Time;Reel;Designator\nB-4;2026-03-02 07:04:00;K-1;C1\n{row(5)}\n")
    room.run(*words, room.file, status=1)
    assert room.waiting() == ["B-1-C1", "B-2-C1", "B-3-C1", "B-4-C1"]
    told = json.loads(room.texts()[0])
    assert told["TimeStamp"] == "2026-03-02T06:01:00Z"


def test_rows_of_standard_input_are_records(room: Room) -> None:
    room.table.write_text(PIECES.replace("$from", '"M1"'))
    given = f"{HEADING}\n{row(1)}\n\n{row(2)}".encode()
    done = room.run("--form", "csv", "--zone", "Europe/Berlin", given=given)
    assert done.stdout == b"kept 000000000001\nkept 000000000002\n"


def put_file(folder: pathlib.Path, name: str, text: str, age: float = 60) -> None:
    (folder / "x.tmp").write_text(text)
    os.utime(folder / "x.tmp", (time.time() - age, time.time() - age))
    (folder / "x.tmp").rename(folder / name)


DOCUMENTS = "if .Log then {Rows: [.Log.Board[] | {Board: .Id} + .Piece[0]]} else . end | "


def test_files_of_a_folder_are_records(room: Room) -> None:
    """By their endings, the oldest first; one that is none is a dead letter, and moved aside
    too. One of another ending is left alone.
    """
    folder = room.at / "out"
    folder.mkdir()
    room.table.write_text(DOCUMENTS + PIECES)
    put_file(folder, "3.csv", f"{HEADING}\n{row(3)}\n{row(4)}\n", 70)
    put_file(folder, "1.json", '{"Rows": [{"Time": "2026-03-02 07:00:00", "Board": "J"}]}', 90)
    piece = '<Piece Time="2026-03-02 07:02:00" Designator="C1" Reel="K-1"/>'
    put_file(folder, "2.xml", f'<Log><Board Id="X">{piece}</Board></Log>', 80)
    put_file(folder, "4.csv", f"{HEADING}\n{row(5)}\nB\n", 60)
    put_file(folder, "5.txt", "x", 50)
    object_ = {"Time": "2026-03-02 07:06:00", "Board": "L", "Designator": "C1", "Reel": ""}
    put_file(folder, "6.jsonl", f"{json.dumps(object_)}\n\n", 40)
    done = room.run("--folder", folder, "--zone", "Europe/Berlin", status=1)
    assert b"5 read, 4 put in, 0 there already, 2 dead" in done.stderr, done.stderr
    assert room.waiting() == ["X-C1", "B-3-C1", "B-4-C1", "L-C1"]
    assert sorted(it.name for it in folder.iterdir()) == ["5.txt", "taken"]
    why = sorted(it.read_text() for it in room.aside.glob("*.why"))
    assert why[0].startswith("1.json: 'J-null': what isn't there became the text null")
    assert why[1] == "4.csv: line 3: it has 1 fields, and the heading has 4\n"
    put_file(folder, "3.csv", f"{HEADING}\n{row(3)}\n{row(4)}\n", 70)
    done = room.run("--folder", folder, "--zone", "Europe/Berlin")
    assert b"1 read, 0 put in, 2 there already" in done.stderr
    assert (folder / "taken/3.2.csv").exists()


def test_a_file_that_grows_is_waited_for(room: Room) -> None:
    folder = room.at / "out"
    folder.mkdir()
    room.table.write_text(PIECES)
    (folder / "1.csv").write_text(f"{HEADING}\n")
    words = ["--folder", folder, "--zone", "Europe/Berlin", "--follow"]
    room.running = subprocess.Popen(room.command(*words), stderr=subprocess.DEVNULL)
    for number in range(1, 9):
        time.sleep(0.7)
        with open(folder / "1.csv", "a") as file:
            file.write(f"{row(number)}\n")
    room.wait_for([f"B-{number}-C1" for number in range(1, 9)])


def test_a_bridge_killed_at_each_file_loses_and_doubles_none(room: Room) -> None:
    """It is killed once each record's message is there, and started again."""
    words, folder = by_csv(room)[2:], room.at / "out"
    words += ["--folder", folder, "--follow"]
    folder.mkdir()
    wanted: list[str] = []
    for number in range(1, 13):
        put_file(folder, f"{number:03}.csv", f"{HEADING}\n{row(number)}\n")
        wanted.append(f"B-{number}-C1")
        room.running = subprocess.Popen(room.command(*words), stderr=subprocess.DEVNULL)
        until(lambda: len(room.waiting()) == len(wanted))
        room.end()
    room.running = subprocess.Popen(room.command(*words), stderr=subprocess.DEVNULL)
    put_file(folder, "013.csv", f"{HEADING}\n{row(13)}\n")
    room.wait_for([*wanted, "B-13-C1"])


def test_what_is_no_text_is_read_all_the_same() -> None:
    assert tables.decoded(b"\xff\xfe\x00") == ""
    assert tables.decoded(b"\x81") == "\ufffd"
