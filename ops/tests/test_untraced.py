"""What is around a line's traces: tables of any text, the status of senders, and a folder of
1.0.0.
"""
import json
import pathlib
import random
from typing import Any

import pytest
from tracedesk_ops import catalogue, doubts

# --- Texts that nobody meant to send, and that come all the same

ODD = [
    *map(chr, range(33)),
    *'",;=\\\x7f\x85\xa0\u2028\u00e9\ud83d\udc00\ufeff',
    "SN-1\r",
    "\r\n",
    "a" * 9,
]


def test_a_table_is_read_as_it_was_written() -> None:
    chance = random.Random(5)
    table = [
        ["".join(chance.choices(ODD, k=chance.randrange(4))) for _ in range(3)] for _ in range(2000)
    ]
    text = catalogue.csv_text([["a", "b", "c"], *table])
    assert [*catalogue.csv_rows(text)][1:] == table
    assert [list(row.values()) for row in catalogue.csv_table(text)] == table


# --- Senders

OLD, LATE = "2026-03-02T06:00:00Z", "2999-03-02T06:00:00Z"
STATUS = {"Sender": "m1", "Waiting": 3, "At": OLD, "OldestWaiting": OLD}
SAID: dict[
    str, tuple[Any, str]
] = {  # what a sender's status has otherwise, or is, and what a recall says of it
    "it died as its first message waited": ({}, "3 messages wait at m1 since 2026-03-02"),
    "the clock was set back": ({"At": LATE, "OldestWaiting": "2999-03-02T05:00:00Z"}, "3 messages"),
    "nothing waits": ({"OldestWaiting": None}, ""),
    "it waits for less than a minute": ({"At": LATE, "OldestWaiting": LATE}, ""),
    "half of it": (b'{"Sender":"m1","Wait', "can't be read"),
    "another time": ({"OldestWaiting": "yesterday"}, "can't be read"),
    "a list": (b"[7]", "can't be read"),
}


@pytest.mark.parametrize("name", SAID)
def test_a_sender_may_hold_messages(folder: pathlib.Path, name: str) -> None:
    its, said = SAID[name]
    text = its if isinstance(its, bytes) else json.dumps({**STATUS, **its}).encode()
    (folder / "m1.json").write_bytes(text)
    (folder / ".m1.json").write_bytes(b"unfinished")
    assert [said in fault for fault in doubts.waiting(folder)] == [True] * bool(said)


@pytest.mark.parametrize("name", ["sealed/untraced.csv", "untraced/0f.json"])
def test_untraced_work_of_an_older_release_is_named(folder: pathlib.Path, name: str) -> None:
    for path in ("sealed", "untraced"):
        (folder / path).mkdir()
    assert doubts.look(folder, []).faults == []
    (folder / name).write_text("{}")
    (fault,) = doubts.look(folder, []).faults
    assert fault.startswith(f"{folder / name}: ") and "move it away" in fault
