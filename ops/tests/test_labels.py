"""Labels of reels in ZPL."""
from __future__ import annotations

import re

import pytest
from lab.desk import Desk
from lab.messages import FIRST_LINE
from lab.tools import Word, call_tool, run, tool
from tracedesk_ops import zpl

PAPER = zpl.Paper(50, 25, 8)


def fields(text: str) -> list[str]:
    """What a printer takes for the texts of the fields."""
    return [
        re.sub("_(..)", lambda it: chr(int(it[1], 16)), its)
        for its in re.findall(r"\^FH_\^FD([^\^~]*)\^FS", text)
    ]


@pytest.mark.parametrize("name", ["K-01", "12345678", "A^XZ~JA_5E", "\\|{}!$%", "X" * 62])
def test_a_label_has_a_name_as_it_is(name: str) -> None:
    text = zpl.label(name, [], zpl.Paper(70, 30, 12))
    assert fields(text) == [name, name]
    assert re.sub(r"\^FD.*", "", text).count("^XZ") == 1 and text.count("\n^X") == 1
    (mark,) = re.findall(r"\^BXN,\d+,200,,,,(.)\^FH", text)
    assert mark not in name


@pytest.mark.parametrize("name, side", [("1234", 10), ("A-1", 10), ("ABCD", 12), ("A" * 45, 32)])
def test_a_code_has_its_size(name: str, side: int) -> None:
    assert zpl.side_of(name) == side


def test_all_of_a_label_is_on_it() -> None:
    text = zpl.label("K-0001234", ["CAP-100N", "LOT L-77", "MSL 2a   10000000 PCS"], PAPER)
    module = int(re.findall(r"\^BXN,(\d+)", text)[0])
    assert zpl.side_of("K-0001234") * module <= 200 - 32
    places = re.findall(r"\^FO(\d+),(\d+)\^A0N,(\d+),(\d+)\^FH_\^FD(.*)\^FS", text)
    assert [it[4] for it in places] == [*fields(text)[1:]] and len(places) == 4
    for x, y, tall, wide, its in places:
        assert int(x) + int(wide) * len(its) <= 400 - 8 and int(y) + int(tall) <= 200
    assert [int(it[1]) for it in places] == sorted({int(it[1]) for it in places})


def test_a_label_that_is_too_small_is_refused() -> None:
    for paper in (zpl.Paper(20, 10, 8), zpl.Paper(30, 25, 8)):
        with pytest.raises(ValueError, match="is too small"):
            zpl.label("X" * 60, [], paper)


def test_a_label_says_what_the_desk_has(desk: Desk) -> None:
    desk.feed(FIRST_LINE)
    desk.serve()
    done = call_tool("labels", "K1", "--url", desk.url).expect()
    assert fields(done.out)[:4] == ["K1", "K1", "P", "LOT L1"]
    missing = call_tool("labels", "K1", "K-none", "--url", desk.url).expect(1, "no such reel")
    assert missing.out == ""
    desk.end()
    assert call_tool("labels", "K-9", "--bare", "--url", desk.url).expect().out.count("K-9") == 2


def test_names_come_by_standard_input() -> None:
    words: list[Word] = [tool("ops"), "label", "--bare", "-", "B"]
    done = run(words, given="A\n\n C \n").expect()
    assert fields(done.out) == ["A", "A", "C", "C", "B", "B"]
    run(words, given="Ä\n").expect(1, "Reel: 'Ä' is not a text of 1 to 64")
    run([*words, "--size", "x"]).expect(2, "a size is WIDTHxHEIGHT")
    run([*words, "--dots", "2"]).expect(2)
