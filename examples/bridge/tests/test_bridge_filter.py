"""The bridge's filter: what records give, and what is wrong with records and with filters."""
from __future__ import annotations

import json
import os
import pathlib
import signal
from typing import Any, Iterator

import filters
import pytest
from at_port import PATIENCE
from bridge_lab import EXAMPLE, Room, elements_of, line_of, one_lane, ours, said
from filters import BadFilter, Filter, NotMapped
from fronts import json_records

OVEN = "Vendor1.Oven1.Oven7"
INSTALLED = "CFX.Production.Assembly.MaterialsInstalled"
STARTED = said("CFX.Production.WorkStarted", PrimaryIdentifier="SN-1")


@pytest.fixture
def at(tmp_path: pathlib.Path) -> Iterator[Any]:
    """Makes filters of texts."""
    made: list[Filter] = []

    def of(text: str, **more: Any) -> Filter:
        (tmp_path / "table.jq").write_text(text)
        made.append(Filter(tmp_path / "table.jq", **more))
        return made[-1]

    yield of
    for it in made:
        it.end()


def texts(table: Filter, message: Any) -> list[bytes]:
    (record,) = json_records(line_of(message))
    if record.fault:
        raise NotMapped(record.fault)
    return [it.text for it in table.made(record)]


def carrier(*units: tuple[str, str, dict[str, Any]]) -> dict[str, Any]:
    """An install of IPC's SDK, of units with a slot and the reel of each piece; none where the
    machine names no reel.
    """
    elements = [
        it for board, slot, pieces in units for it in elements_of(board, slot, pieces.items())
    ]
    for it in elements:
        if it["Material"]["UniqueIdentifier"] is None:
            del it["Material"]
    return said(INSTALLED, InstalledMaterials=elements)


def install(number: str, board: str, **pieces: Any) -> bytes:
    reels: dict[str, Any] = {"MachineReels": list(pieces.values())} if any(pieces.values()) else {}
    body: dict[str, Any] = {"Machine": "M1", "Board": board}
    body.update(Designators=list(pieces), **reels)
    return ours("MaterialsInstalled", f"u-1-{number}", **body)


def unit(number: str, board: str, **pieces: Any) -> list[bytes]:
    """A unit that is started and completed around its pieces."""
    at = {"Machine": "M1", "Board": board}
    return [
        ours("WorkStarted", f"u-1-{number}-s", **at),
        install(f"{number}-i", board, **pieces),
        ours("WorkCompleted", f"u-1-{number}-c", **at),
    ]


PANEL = carrier(
    *((board, "23", {"C1": "K-1"}) for board in ("P-1-1", "P-1-2", "P-1-3")),
    *((board, "24", {"R1": "K-9"}) for board in ("P-1-1", "P-1-3")),
)
BEGUN = said("CFX.Production.WorkStarted", PrimaryIdentifier="P-1", UnitCount=2)
ENDED = said("CFX.Production.WorkCompleted", PrimaryIdentifier="P-1", UnitCount=2)
ONE_LANE: list[tuple[Any, list[bytes]]] = [
    (BEGUN, [ours("WorkStarted", "u-1", Machine="M1", Board="P-1-1")]),
    (
        carrier(("P-1-1", "23", {"C1": "K-1", "C2": "K-2"})),
        [install("1", "P-1-1", C1="K-1", C2="K-2")],
    ),
    (carrier(("P-1-1", "23", {"C1": None})), [install("1", "P-1-1", C1=None)]),
    (carrier(("P-1-1", "23", {})), []),
    (carrier(), []),
    (said("CFX.Production.WorkStarted", source=OVEN, PrimaryIdentifier="P-1"), []),
    (said("CFX.Heartbeat"), []),
    (
        PANEL,
        [
            install("1", "P-1-1", C1="K-1", R1="K-9"),
            ours("WorkCompleted", "u-1-c", Machine="M1", Board="P-1-1"),
            *unit("2", "P-1-2", C1="K-1"),
            *unit("3", "P-1-3", C1="K-1", R1="K-9"),
            ours("WorkStarted", "u-1-s", Machine="M1", Board="P-1-1"),
        ],
    ),
    (ENDED, [ours("WorkCompleted", "u-1", Machine="M1", Board="P-1-1")]),
    (
        said("CFX.Production.WorkCompleted", PrimaryIdentifier=117),
        [ours("WorkCompleted", "u-1", Machine="M1", Board="117-1")],
    ),
]
TWO_LANES: list[tuple[Any, list[bytes]]] = [
    (BEGUN, []),
    (
        PANEL,
        [
            *unit("1", "P-1-1", C1="K-1", R1="K-9"),
            *unit("2", "P-1-2", C1="K-1"),
            *unit("3", "P-1-3", C1="K-1", R1="K-9"),
        ],
    ),
    (carrier(("P-1-1", "23", {})), []),
    (ENDED, []),
]


def test_the_example_gives_what_was_worked_out(at: Any) -> None:
    """A start and a completion of a carrier, and installs of its units, with one lane and with
    two.
    """
    for text, worked in ((one_lane(), ONE_LANE), (EXAMPLE.read_text(), TWO_LANES)):
        table = at(text)
        for message, wanted in worked:
            assert texts(table, message) == wanted


def without_time() -> dict[str, Any]:
    return {name: value for name, value in STARTED.items() if name != "TimeStamp"}


FAULTS: list[tuple[Any, str]] = [
    (said("CFX.Production.WorkStarted"), "PrimaryIdentifier is not there"),
    (said("CFX.Production.WorkStarted", PrimaryIdentifier=None), "is not there"),
    (said("CFX.Production.WorkStarted", PrimaryIdentifier=["SN-1"]), "is no text"),
    (
        said("CFX.Production.WorkStarted", PrimaryIdentifier=" SN-1"),
        "Board: ' SN-1-1' is not a text of",
    ),
    (
        said("CFX.Production.WorkStarted", source="Vendor2", PrimaryIdentifier="SN-1"),
        "Vendor2 is no machine of the filter",
    ),
    (without_time(), "TimeStamp is not there"),
    ({**STARTED, "TimeStamp": "2026-03-02T07:10:59"}, "no time with its offset"),
    ({**STARTED, "TimeStamp": "2026-02-30T07:10:59Z"}, "in no calendar"),
    ({**STARTED, "TimeStamp": "1969-03-02T07:10:59Z"}, "TimeStamp: "),
    ({**STARTED, "UniqueID": "x" * 65}, "UniqueID: "),
    (carrier(("P-1-1", "23", {"C 1": None})), "Designators: 'C 1' is not a text of"),
    (said(INSTALLED, InstalledMaterials=[{}]), "UnitIdentifier is not there"),
    (said(INSTALLED), "InstalledMaterials is not there"),
    ({"UniqueID": "u"}, "MessageName is not there"),
    ("CFX", "no JSON object"),
]


def test_a_record_with_a_fault_is_refused_with_its_reason(at: Any) -> None:
    table = at(one_lane())
    for message, why in FAULTS:
        with pytest.raises(NotMapped) as fault:
            texts(table, message)
        assert why in str(fault.value)


MESSAGE = """{MessageName: "TraceDesk.ReelReceived", UniqueID: $id, Source: $from, TimeStamp: .at,
MessageBody: ({Reel: .reel, PartNumber: "P", Lot: "L-\\(.lot)", Level: "1", Quantity: .pieces}
  + .more)}"""
RECEIVED = {"at": "2026-03-02T06:10:59Z", "reel": "7", "lot": 3, "pieces": 5, "more": {}}


@pytest.mark.parametrize(
    "change, why",
    [
        ({}, ""),
        ({"pieces": 5.0}, ""),
        ({"pieces": "5"}, "Quantity: '5' is not a whole number"),
        ({"pieces": 2.5}, "Quantity: 2.5 is not a whole number"),
        ({"reel": None}, "Reel: None is not a text of"),
        ({"lot": None}, "'L-null': what isn't there became the text null"),
        ({"more": {"DateCode": "2614", "Supplier": "<b>Maker & Co</b>"}}, ""),
        ({"more": {"DateCode": 2614}}, "DateCode: 2614 is not a text of"),
        ({"more": {"Colour": "red"}}, "Colour: ReelReceived has no such member"),
        ({"more": 7}, "cannot be added"),
    ],
)
def test_what_a_filter_gives_is_looked_at(at: Any, change: dict[str, Any], why: str) -> None:
    """Each member by its form. `$id` is a name made of the record, `$from` where it came from."""
    (record,) = json_records(line_of({**RECEIVED, **change}))
    table = at(MESSAGE)
    if why:
        with pytest.raises(NotMapped) as fault:
            table.made(record, "store")
        assert why in str(fault.value)
    else:
        (made,) = table.made(record, "store")
        told = json.loads(made.text)
        assert (told["UniqueID"], told["Source"]) == (filters.id_of(record.text), "store")
        assert told["MessageBody"]["Quantity"] == 5


WRONG: list[tuple[str, str]] = [
    ("7", "the filter gave 7, which is no message"),
    ("{MessageName: 1}", "which is no message"),
    ("{MessageName, UniqueID, Source, TimeStamp, MessageBody}", "which a desk doesn't have"),
    (f"{MESSAGE}, {MESSAGE}", "two of its messages have one UniqueID"),
    ('error("so")', "so"),
    ('error({why: "so"})', "so"),
    ("halt", "jq gave no answer"),
    ("input", "break"),
    (".a.b", "Cannot index number"),
]


@pytest.mark.parametrize("text, why", WRONG)
def test_a_filter_that_gives_no_message_has_its_reason(
    at: Any, text: str, why: str, monkeypatch: pytest.MonkeyPatch
) -> None:
    """Also one that ends jq, or wants more input than a record, for both of which the bridge waits;
    and the next record is taken.
    """
    monkeypatch.setattr(filters, "ANSWER", 5.0 if text in ("halt", "input") else PATIENCE)
    table = at(f'if .a == null then {MESSAGE} else (. + {{MessageName: "x"}}) | {text} end')
    good = line_of({**RECEIVED, "lot": "1"})
    bad = line_of({**RECEIVED, "lot": "1", "a": 7})
    for line in (good, bad, good):
        (record,) = json_records(line)
        if line is good:
            assert len(table.made(record, "store")) == 1
        else:
            with pytest.raises(NotMapped) as fault:
                table.made(record, "store")
            assert why in str(fault.value)


def test_a_filter_without_an_end_is_ended(at: Any, monkeypatch: pytest.MonkeyPatch) -> None:
    monkeypatch.setattr(filters, "ANSWER", 0.2)
    with pytest.raises(NotMapped) as fault:
        texts(at("def f: f; f"), STARTED)
    assert "without an end" in str(fault.value)


def test_jq_that_was_killed_is_started_again(at: Any) -> None:
    table = at(one_lane())
    for _ in range(3):
        assert len(texts(table, STARTED)) == 1
        assert table.jq
        os.kill(table.jq.pid, signal.SIGKILL)


@pytest.mark.parametrize(
    "text, why",
    [
        ("{", "syntax error"),
        ("1\n2 +* 3", "line 2"),
        (". | f(1)", "f/1 is not defined"),
        ("$plant", "$plant is not defined"),
    ],
)
def test_a_text_that_is_no_filter_is_refused_with_its_place(at: Any, text: str, why: str) -> None:
    with pytest.raises(BadFilter) as fault:
        at(text)
    assert why in str(fault.value)


def test_without_jq_its_package_is_named(at: Any, monkeypatch: pytest.MonkeyPatch) -> None:
    monkeypatch.setenv("PATH", "/nowhere")
    with pytest.raises(BadFilter) as fault:
        at(one_lane())
    assert "apt-get install jq" in str(fault.value)


@pytest.mark.parametrize(
    "text, utc",
    [
        ("2026-03-02 07:10:59", "2026-03-02T06:10:59Z"),
        ("2026-07-02T07:10:59,5", "2026-07-02T05:10:59Z"),
        ("2026-07-02T07:10:59+05:00", "2026-07-02T02:10:59Z"),
    ],
)
def test_a_time_without_an_offset_is_of_the_zone(at: Any, text: str, utc: str) -> None:
    (made,) = texts(at(one_lane(), zone="Europe/Berlin"), {**STARTED, "TimeStamp": text})
    assert json.loads(made)["TimeStamp"] == utc


def test_the_line_hears_of_a_dead_letter_that_may_be_work(room: Room) -> None:
    """By a message that it can't read, once. Also of one that is no JSON, or has a member twice,
    since nobody knows what it was.
    """
    start = line_of(said("CFX.Production.WorkStarted"))
    twice = start.replace(b'{"MessageName"', b'{"UniqueID":"x","MessageName"')
    opened = line_of(said("CFX.Materials.Management.MaterialsOpened", Materials=[{}]))
    given = b"\n".join((start, twice, b"{", opened, start))
    done = room.run(given=given, status=1)
    assert done.stdout.count(b"dead ") == 5
    assert len(room.dead()) == 4
    told = [json.loads(it) for it in room.texts()]
    assert [it["Text"].encode() for it in told] == [start, twice, b"{"]
    assert not any("TimeStamp" in it for it in told), "so the desk takes it for faulty"
    assert [it["MessageBody"].get("Machine") for it in told] == ["M1", None, None]


ODD: tuple[Any, ...] = (None, True, 7, 1.5, "", "x", "{", [], ["x"], [[]], {}, "\ud800", 2**70)


def places(value: Any) -> Iterator[tuple[Any, Any]]:
    """Each place of a value: the list or object that has it, and its number or name there."""
    if isinstance(value, (dict, list)):
        for name in list(value) if isinstance(value, dict) else range(len(value)):
            yield value, name
            yield from places(value[name])


def test_any_record_is_taken_or_its_fault_has_a_name(at: Any) -> None:
    """Odd values at each place in turn."""
    tried = 0
    table = at(one_lane())
    for message in (PANEL, BEGUN):
        for number in range(len(list(places(message)))):
            for odd in ODD:
                whole = json.loads(json.dumps(message))
                inner, name = list(places(whole))[number]
                inner[name] = odd
                try:
                    texts(table, whole)
                except NotMapped as fault:
                    assert str(fault) and "jq gave no answer" not in str(fault)
                tried += 1
    assert tried > 500
