"""The seventeen messages: what is made is taken by the schema, and what is out of range is not
made.
"""
import dataclasses
import datetime
import json
import pathlib
from typing import Any, Callable, cast

import pytest
import tracedesk
from tracedesk_dev import schemas
from tracedesk import forms, words

API = pathlib.Path(__file__).resolve().parents[3] / "docs/api"
TABLE = json.loads((API / "messages.json").read_text(encoding="utf-8"))
SCHEMA = schemas.Messages(json.loads((API / "message.schema.json").read_text(encoding="utf-8")))


def examples() -> list[tuple[Any, Any]]:
    """Each kind of message, with its example."""
    document = json.loads((API / "message.schema.json").read_text(encoding="utf-8"))["$defs"]
    return [(kind, document[kind.WORD]["examples"][0]) for kind in words.MESSAGES]


def test_seventeen_in_the_order_of_the_table() -> None:
    assert [it.WORD for it in words.MESSAGES] == [it["word"] for it in TABLE["messages"]]
    assert len(words.MESSAGES) == 17


def test_each_example_is_made() -> None:
    for kind, example in examples():
        at = datetime.datetime.fromisoformat(example["TimeStamp"].replace("Z", "+00:00"))
        made = kind.of_body(example["MessageBody"]).message(
            example["Source"], unique_id=example["UniqueID"], at=at
        )
        assert json.loads(made.text) == example
        assert SCHEMA.fault(json.loads(made.text)) is None


VALUES: tuple[Any, ...] = (
    None,
    True,
    "",
    " x",
    "x" * 65,
    "x\n",
    -1,
    0,
    10_000_001,
    1.0,
    2.5,
    [],
    {},
    "C1",
    ["C 1"],
    ["C1"] * 5001,
)


def test_what_the_schema_refuses_is_not_made() -> None:
    tried = 0
    for kind, example in examples():
        for name, attribute, form in (*kind.MEMBERS, *kind.BESIDE):
            for value in VALUES:
                body = {**example["MessageBody"], name: value}
                if (
                    isinstance(form, forms.Where)
                    and body["Level"] != "6"
                    or name in ("Rows", "Counts")
                ):
                    continue
                is_good = SCHEMA.fault({**example, "MessageBody": body}) is None
                if value is None and name in [it[0] for it in kind.BESIDE]:
                    is_good = True  # to the package it isn't there
                if value == ["C 1"] and name == "MachineReels":
                    is_good = False  # the example has three pieces
                if value == 1.0 and isinstance(value, float):
                    is_good = False  # to a schema it is 1; a desk refuses it
                try:
                    kind.of_body(body).message("S")
                    assert is_good, f"{kind.WORD} was made with {name} {value!r:.50}"
                except forms.OutOfRange as fault:
                    assert (
                        not is_good
                    ), f"{kind.WORD} was not made with {name} {value!r:.50}: {fault}"
                    assert fault.member == name
                tried += 1
    assert tried > 400


def test_rows_are_rows() -> None:
    for given in ([], [{"Slot": "1"}], "row", None, [words.CountRow("K", 1)] * 5001):
        with pytest.raises(forms.OutOfRange) as caught:
            words.CountsTaken(cast(Any, given))
        assert caught.value.member == "Counts"
    assert words.CountsTaken([words.CountRow("K", 0)]).body() == {
        "Counts": [{"Reel": "K", "Quantity": 0}]
    }


def test_label_minutes_stand_at_level_6_alone() -> None:
    assert "LabelMinutes" not in words.ReelReceived("K", "P", "L", "3", 5, 60).body()
    assert words.ReelReceived("K", "P", "L", "6", 5, 60).body()["LabelMinutes"] == 60
    with pytest.raises(forms.OutOfRange):
        words.ReelReceived("K", "P", "L", "6", 5)


def test_times_know_their_offset() -> None:
    berlin = datetime.timezone(datetime.timedelta(hours=1))
    made = words.ClockSet().message("S", at=datetime.datetime(2026, 3, 2, 7, 0, tzinfo=berlin))
    assert b'"TimeStamp":"2026-03-02T06:00:00Z"' in made.text
    for at in (
        datetime.datetime(2026, 3, 2),
        datetime.datetime(1969, 12, 31, tzinfo=berlin),
        datetime.datetime(9999, 12, 31, tzinfo=berlin),
    ):
        with pytest.raises(forms.OutOfRange):
            words.ClockSet().message("S", at=at)


def test_each_has_a_name_of_its_own_and_keeps_it() -> None:
    made = [words.ClockSet().message("S") for _ in range(100)]
    assert len({it.unique_id for it in made}) == 100
    with pytest.raises(dataclasses.FrozenInstanceError):
        setattr(made[0], "text", b"")


def test_a_message_that_is_too_long_is_not_made() -> None:
    row = words.SheetRow("1", "P", ["C" * 16] * 5000)
    with pytest.raises(forms.OutOfRange) as caught:
        words.SheetDefined("P", "M", [row] * 20).message("S")
    assert "1,048,576" in str(caught.value)


def test_all_names_are_there() -> None:
    for name in tracedesk.__all__:
        assert hasattr(tracedesk, name), name


def test_what_the_desk_skips_is_typed_and_others_have_no_place() -> None:
    """The reel of each piece by the machine, and the attributes of a reel."""
    installed = words.MaterialsInstalled("M1", "B", ["C1", "C2"], ["K-1", None])
    assert installed.body()["MachineReels"] == ["K-1", None]
    received = words.ReelReceived("K", "P", "L", "1", 5, date_code="2614", order="7\u00fc")
    assert received.body()["DateCode"] == "2614" and received.body()["Order"] == "7\u00fc"
    assert "Supplier" not in received.body()
    wrong: tuple[tuple[str, Callable[[], object]], ...] = (
        ("MachineReels", lambda: words.MaterialsInstalled("M1", "B", ["C1"], ["K-1", None])),
        ("MachineReels", lambda: words.MaterialsInstalled("M1", "B", ["C1"], ["K 1 "])),
        ("DateCode", lambda: words.ReelReceived("K", "P", "L", "1", 5, date_code="26\t14")),
        ("Machine", lambda: words.WorkStarted.of_body({"Board": "B"})),
        ("Bord", lambda: words.WorkStarted.of_body({"Machine": "M1", "Board": "B", "Bord": "C"})),
        (
            "Slot",
            lambda: words.SheetDefined.of_body({"Product": "P", "Machine": "M", "Rows": [{}]}),
        ),
        ("MessageBody", lambda: words.ClockSet.of_body([])),
    )
    for member, make in wrong:
        with pytest.raises(forms.OutOfRange) as caught:
            make()
        assert caught.value.member == member
