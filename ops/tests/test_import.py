"""Parts, reels, alternates and placements of tables as spreadsheets, ERPs and placement programs
write them: what messages they give, and what a desk says to them.
"""
from __future__ import annotations

import datetime
import json
import pathlib
from typing import Any
from unittest import mock

import pytest
from lab.desk import Desk
from lab.messages import MORNING, message
from lab.tools import Ended, Word, call_tool, run_tool
from lab.written import FILES, OF_BOARD, PLACED, REELS_OF_SAP
from tracedesk import tables
from tracedesk_ops import imports
from tracedesk_ops.cmd import importing

AT = datetime.datetime(2026, 3, 2, 6, tzinfo=datetime.timezone.utc)


def messages(
    kind: str, data: bytes, mapping: dict[str, str], decimal: str | None = None
) -> tuple[list[Any], list[tuple[int, str]]]:
    given = imports.Given("erp", AT, decimal)
    text = tables.decoded(data)
    made, wrong = imports.messages_of(kind, text, mapping, given)
    return [json.loads(it.message.text)["MessageBody"] for it in made], [
        (it.line, it.why) for it in wrong
    ]


@pytest.mark.parametrize("it", FILES, ids=[it[0] for it in FILES])
def test_a_file_gives_its_messages(it: tuple[str, str, bytes, dict[str, str], list[Any]]) -> None:
    _, kind, data, mapping, wanted = it
    assert messages(kind, data, mapping) == (wanted, [])


@pytest.mark.parametrize(
    "text, decimal, number",
    [
        ("4000", None, 4000),
        ("4.000,000", None, 4000),
        ("1,234,567", None, 1234567),
        ("1 250", None, 1250),
        ("4.500", None, 4500),
        ("4000.0", None, 4000),
        ("4.000", ",", 4000),
        ("4.000", ".", 4),
        ("4,000", ",", 4),
        ("4,5", None, "4,5"),
        ("-3", None, "-3"),
        ("1.23.456", None, "1.23.456"),
        ("", None, ""),
    ],
)
def test_a_number_is_read_as_it_is_meant(text: str, decimal: str | None, number: object) -> None:
    assert imports.whole(text, decimal) == number


HEAD = "Reel;Part;Lot;MSL;Qty\n"
WRONG: list[tuple[str, str, list[tuple[int, str]]]] = [
    ("reels", HEAD + "K;P;L;1\n", [(2, "it has 4 fields, and the heading has 5")]),
    ("reels", HEAD + "K;P;;1;5\n", [(2, "Lot is empty")]),
    ("reels", HEAD + "K;P;L;1;4,000\n", [(2, "'4,000' it may be 4 or 4000")]),
    ("reels", HEAD + "K;P;L;7;5\nK2;P;L;1;0\n", [(2, "Level: '7' is none"), (3, "Quantity: 0 is")]),
    ("reels", HEAD + "K;P;L;1;4,5\n", [(2, "Quantity: '4,5' is not a whole number")]),
    ("reels", HEAD + "K;P;L;6;5\n", [(2, "LabelMinutes: None is not a whole")]),
    ("reels", HEAD + "Kü;P;L;1;5\n", [(2, "Reel: 'Kü' is not a text of 1 to 64")]),
    ("reels", HEAD + "K;P;L;1;5\n\nK;P;L;1;6\n", [(4, "K is in line 2 too, with other words")]),
    ("placements", "Ref;Part;Slot\nC1;P;1\nC2;Q;1\n", [(3, "slot 1 has Q, and in line 2 P")]),
    ("placements", "Ref;Part;Slot\nC1;P;1\nC1;P;2\n", [(3, "designator C1 is in line 2 too")]),
    ("placements", "Ref;Part;Slot\nC1 C1;P;1\n", [(2, "designator C1 is in line 2 too")]),
    ("placements", "Ref;Part;Slot\nC 1;P;\n", [(2, "Slot is empty")]),
    ("placements", "Ref;Part;Slot\nC/1;P;1\n", [(2, "Designators: 'C/1' is not a text of")]),
]


@pytest.mark.parametrize("kind, text, wanted", WRONG)
def test_a_wrong_row_has_its_line(kind: str, text: str, wanted: list[tuple[int, str]]) -> None:
    made, wrong = messages(kind, text.encode(), OF_BOARD if kind == "placements" else {})
    assert [line for line, _ in wrong] == [line for line, _ in wanted]
    for (_, why), (_, part) in zip(wrong, wanted):
        assert part in why
    assert kind == "reels" or made == []


@pytest.mark.parametrize(
    "text, mapping, why",
    [
        ("", {}, "it has no heading"),
        ("a;b\n1;2\n", {}, "no column is Reel: the heading has a, b. A mapping names it"),
        (HEAD, {"Rolle": "Reel"}, "Rolle is no member of reels"),
        (HEAD, {"Reel": "Rolle"}, "Reel = Rolle: the heading has Reel, Part"),
        ('Reel;Part\nK;"P\n', {}, "line 2: it is no row"),
        ("Reel;Reel\n", {}, "line 1: the heading has 'Reel' twice"),
    ],
)
def test_a_file_that_is_no_table_says_why(text: str, mapping: dict[str, str], why: str) -> None:
    with pytest.raises(imports.BadTable) as fault:
        messages("reels", text.encode(), mapping)
    assert why in str(fault.value)


@pytest.mark.parametrize("text", ["Reel\n", "Reel =\n", "= x\nReel", "Reel = a\nReel = b\n"])
def test_a_mapping_with_a_fault_has_its_line(text: str) -> None:
    with pytest.raises(imports.BadTable) as fault:
        imports.mapping_of(text)
    assert "line " in str(fault.value)


def test_a_mapping_is_lines_of_names() -> None:
    text = '# SAP\n\nReel = Rollen-Nr. \nLevel="1"\n'
    assert imports.mapping_of(text) == {"Reel": "Rollen-Nr.", "Level": '"1"'}


# --- With a desk


class Erp:
    """Calls the tool with files of a folder, for a served desk."""

    def __init__(self, desk: Desk, folder: pathlib.Path) -> None:
        self.desk, self.folder, self.at = desk, folder, AT
        desk.serve()

    def send(self, kind: str, table: str | bytes, *more: str) -> Ended:
        """A minute after the call before: within a minute the desk repeats its first answer."""
        file = self.folder / "table.csv"
        file.write_bytes(table.encode() if isinstance(table, str) else table)
        self.at += datetime.timedelta(minutes=1)
        with mock.patch.object(importing, "now", lambda: self.at):
            return call_tool("importing", kind, file, "--url", self.desk.url, *more)

    def number(self) -> int:
        """How many commands the desk has accepted, one more for this question."""
        return int(self.desk.say("ClockSet", time=f"{self.at:%Y-%m-%dT%H:%M:%SZ}")["Number"])


@pytest.fixture
def erp(desk: Desk, folder: pathlib.Path) -> Erp:
    return Erp(desk, folder)


@pytest.mark.parametrize("it", FILES, ids=[it[0] for it in FILES])
def test_a_second_run_of_a_file_changes_nothing(
    erp: Erp, it: tuple[str, str, bytes, dict[str, str], list[Any]]
) -> None:
    """The desk accepts each message of the first run, and no command of the second."""
    _, kind, data, mapping, wanted = it
    (erp.folder / "columns").write_text("".join(f"{a} = {b}\n" for a, b in mapping.items()))
    for part in {} if kind == "parts" else parts_in(wanted):
        erp.desk.accept(message("PartDefined", f"p-{part}", MORNING, PartNumber=part))
    words = "--columns", str(erp.folder / "columns")
    erp.send(kind, data, *words).expect(0, f"{len(wanted)} accepted, 0 known, 0 refused")
    before = erp.number()
    erp.send(kind, data, *words).expect(0, f"0 accepted, {len(wanted)} known, 0 refused")
    assert erp.number() == before + 1


def parts_in(told: Any) -> set[str]:
    """The part numbers in bodies."""
    if isinstance(told, list):
        return {part for it in told for part in parts_in(it)}
    its = {told[name] for name in ("PartNumber", "Alternate") if name in told}
    return its | parts_in(told.get("Rows", []))


def test_a_second_call_sends_new_rows_or_all_of_them_again(erp: Erp) -> None:
    parts = "Part\nCAP-100N\nRES 10K\n"
    erp.send("parts", parts).expect(0, "2 accepted, 0 known, 0 refused")
    erp.send("parts", parts + "LED\n").expect(0, "1 accepted, 2 known, 0 refused")
    words = "--product", "CTRL-A", "--machine", "M1"
    erp.send("placements", PLACED, *words).expect(0, "1 accepted, 0 known, 0 refused")
    erp.send("placements", PLACED, *words, "--again").expect(0, "1 accepted")


@pytest.mark.parametrize(
    "kind, table, named",
    [
        ("alternates", "Part;Ersatz\nA;B\nA;Z\nY;B\n", ["line 3: A Z", "line 4: Y B"]),
        ("reels", HEAD + "K;A;L;1;5\nM;Z;L;1;5\nN;Y;L;1;5\n", ["line 3: M", "line 4: N"]),
        ("placements", "Ref;Part;Slot;Job;Module\nC1;A;1;P;M\nC2;Z;1;Q;M\n", ["line 3: Q M"]),
    ],
)
def test_each_refused_row_is_named(erp: Erp, kind: str, table: str, named: list[str]) -> None:
    """Also by the second run, which sends them again."""
    erp.send("parts", "Part\nA\nB\n").expect()
    for counted in ("1 accepted, 0 known", "0 accepted, 1 known"):
        done = erp.send(kind, table).expect(1, f"{counted}, {len(named)} refused")
        lines = [it for it in done.out.splitlines() if "is refused" in it]
        assert [it.partition(" is refused: refused: UnknownPart")[0] for it in lines] == named


def test_what_the_desk_refuses_is_named_with_its_line(erp: Erp) -> None:
    erp.send("parts", "Part\nCAP-100N\n").expect()
    done = erp.send("reels", REELS_OF_SAP).expect(1, "1 accepted, 0 known, 1 refused")
    assert "line 3: 4711-2 is refused: refused: UnknownPart at RES 10K" in done.out
    erp.send("parts", "Part\nRES 10K\n").expect()
    erp.send("reels", REELS_OF_SAP).expect(0, "1 accepted, 1 known, 0 refused")
    other = erp.send("reels", REELS_OF_SAP.replace("L-78", "L-79")).expect(1)
    assert "ReelExists: the desk has it with part RES 10K, lot L-78" in other.out
    more = erp.send("reels", REELS_OF_SAP.replace("150", "151"))
    more.expect(0, "0 accepted, 2 known, 0 refused")  # the desk counts for itself
    gone = erp.send("placements", PLACED.replace("RES", "IND"), "--product", "X", "--machine", "M1")
    gone.expect(1, "lines 2 to 4: X M1 is refused: refused: UnknownPart at IND 10K")


def test_nothing_is_sent_of_a_file_with_a_wrong_row(erp: Erp) -> None:
    done = erp.send("parts", "Part\nA\nB \u00fc\nC\n").expect(1, "1 rows are wrong, so nothing")
    assert "line 3: PartNumber: 'B \u00fc' is not" in done.out
    erp.send("parts", "Part\nA\n").expect(0, "1 accepted, 0 known")


def test_a_dry_run_sends_nothing(erp: Erp) -> None:
    words = "--product", "X", "--machine", "M1", "--dry-run"
    erp.send("parts", "Part\nCAP-100N\n", "--dry-run").expect(0, '"PartNumber":"CAP-100N"')
    erp.send("parts", "Part\nCAP-100N\nRES 10K\n").expect(0, "2 accepted")
    erp.send("reels", REELS_OF_SAP.rpartition("4711-2")[0]).expect(0, "1 accepted")
    done = erp.send("reels", REELS_OF_SAP, "--dry-run").expect()
    assert [it.split("}  ")[-1] for it in done.out.splitlines()] == [
        "the desk has it: part CAP-100N, lot L-77",
        "it is new",
    ]
    erp.send("placements", PLACED, *words).expect(0, "}  it is new")
    erp.send("placements", PLACED, *words[:-1]).expect(0, "1 accepted")
    erp.send("placements", PLACED, *words).expect(0, "}  it takes the place of the desk's sheet")
    erp.desk.end()
    erp.send("reels", REELS_OF_SAP, "--dry-run").expect(0, "the desk isn't asked")


def test_a_workbook_is_no_table(folder: pathlib.Path) -> None:
    (folder / "reels.xlsx").write_bytes(b"PK\x03\x04\x14\x00")
    call_tool("importing", "reels", folder / "reels.xlsx").expect(2, "save it as CSV")


def test_a_bad_command_line_is_refused(folder: pathlib.Path) -> None:
    (folder / "table.csv").write_text("Part\nA\n")
    (folder / "map").write_text("Part\n")
    bad: list[list[Word]] = [
        ["boards", folder / "table.csv"],
        ["parts", folder / "none.csv"],
        ["parts", folder / "table.csv", "--columns", folder / "map"],
        ["parts", folder / "table.csv", "--url", "ftp://x"],
        ["parts", folder / "table.csv", "--user", "x"],
        ["parts", folder / "table.csv", "--url", "https://x", "--ca", folder / "none"],
        ["parts", folder / "table.csv", "--user", "x", "--password-file", folder / "none"],
        ["parts", folder / "table.csv", "--user", "x", "--password-file", folder / "map"],
        ["reels", folder / "table.csv"],
    ]
    for its in bad:
        assert "Traceback" not in run_tool("ops", "import", *its).expect(2).said
