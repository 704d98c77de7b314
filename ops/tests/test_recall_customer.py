"""The evidence for one customer: their serials, and nothing of others."""
from __future__ import annotations

import pathlib
from typing import Any

import pytest
from lab import files
from lab.line import Line, table
from lab.recalls import key_in, signers_of
from lab.tools import Ended, Word, run_tool
from tracedesk_ops import chains, firstlook
from tracedesk_ops.catalogue import Archive
from tracedesk_ops.firstlook import Question
from tracedesk_ops.recalls import customers, signing
from tracedesk_ops.recalls.evidence import sums_of
from tracedesk_ops.recalls.recall import Recall
from tracedesk_ops.recalls.surveyed import Surveyed

pytestmark = pytest.mark.xdist_group("recall_customer")

SHIPPED = """board,customer,date
SN-1,Customer A,2026-03-09
SN-3,Customer A,2026-03-09
SN-2,Customer B,2026-03-09
"""


@pytest.fixture(scope="module")
def line(small_line: Line) -> Line:
    return small_line


def recall(line: Line, folder: pathlib.Path, shipped: str, *more: Word) -> Ended:
    (folder / "shipped.csv").write_text(shipped)
    words: list[Word] = ["lot", "240131", *line.recall_words(), "--evidence", folder / "to"]
    words += ["--shipped", folder / "shipped.csv", "--customer", "Customer A", *more]
    return run_tool("recall", *words)


def test_a_customer_gets_their_serials_alone(line: Line, folder: pathlib.Path) -> None:
    key = key_in(folder, "plant")
    done = recall(line, folder, SHIPPED, "--key", key)
    done.expect(0, "Complete: of your 2 serials 1 hold a piece, 1 hold none.")
    rows = table((folder / "to/serials.csv").read_text())
    assert [(row["board"], row["holds"]) for row in rows] == [("SN-1", "yes"), ("SN-3", "no")]
    assert [row["board"] for row in table((folder / "to/pieces.csv").read_text())] == ["SN-1"]
    for file in (folder / "to").iterdir():
        text = file.read_text()
        assert "SN-2" not in text and "SN-4" not in text and "Customer B" not in text, file
        assert str(line.folder) not in text and "127.0.0.1" not in text, file
    words: list[Word] = [folder / "to", "--signers", signers_of(key), "--archives", line.archive]
    said = ("the answer comes again", "lot 240131, for Customer A, asked at", "Complete: of your 2")
    run_tool("verify", *words).expect(0, *said)


def test_a_serial_that_holds_a_piece_is_not_said_to_hold_none(
    line: Line, folder: pathlib.Path
) -> None:
    """Also if the plant's own key signs it."""
    key, to = key_in(folder, "plant"), folder / "to"
    recall(line, folder, SHIPPED, "--key", key).expect()
    text = (to / "serials.csv").read_text()
    (to / "serials.csv").write_text(text.replace(",yes,", ",no,"))
    names = {path.name for path in to.iterdir()} - {signing.SUMS, signing.SIGNATURE}
    (to / signing.SUMS).write_bytes(sums_of({name: (to / name).read_bytes() for name in names}))
    (to / signing.SIGNATURE).unlink()
    signing.sign(to, key)
    words: list[Word] = [to, "--signers", signers_of(key), "--archives", line.archive]
    run_tool("verify", *words).expect(1, "its boards are not those of its pieces")


def test_a_certificate_for_a_customer_names_nothing_of_others() -> None:
    """Where two files differ may be at another's board, and a sender's name is a person's."""
    says = "L1: L1-2: differs board SN-2 in work old"
    its = {"folder": "/srv/L1", "archives": [{"file": "L1-2", "why": says}]}
    told: dict[str, Any] = {
        "title": "lot L-77",
        "reasons": ["/srv/L1: 2 commands of W1 anna are in /srv/L1/lost/x.desk", says],
        "notes": [f"{says}: as by a roll-over"],
        "lines": [its],
    }
    customers.hide(told, "Customer A")
    assert not [word for word in ("SN-2", "anna", "srv") if word in str(told)]
    assert told["reasons"] == [customers.SAID_TO_THE_PLANT]


def test_a_name_that_a_spreadsheet_takes_for_a_formula_is_said(
    line: Line, folder: pathlib.Path
) -> None:
    done = recall(line, folder, SHIPPED.replace("Customer B", "=1+1"))
    done.expect(0, "a spreadsheet takes them for formulas")


def test_a_serial_that_nobody_knows_is_named(line: Line, folder: pathlib.Path) -> None:
    done = recall(line, folder, SHIPPED + "SN-9,Customer A,2026-03-09\n")
    done.expect(3, "2 are not known", "NOT COMPLETE: 1 serials of Customer A", "SN-9")
    rows = table((folder / "to/serials.csv").read_text())
    assert [row["holds"] for row in rows] == ["yes", "not known", "not known"]


def test_no_serial_holds_none_if_not_all_were_asked(line: Line, folder: pathlib.Path) -> None:
    done = recall(line, folder, SHIPPED, "--line", "L2", folder)
    done.expect(3, "NOT COMPLETE: of your 2 serials 1 hold a piece, 0 hold none, 1 are not")


def test_a_serial_of_any_line_that_is_asked_is_known(folder: pathlib.Path) -> None:
    """Also of one on another computer, of which a mirror is here."""
    those = Surveyed([], folder)
    for name in ("here", "mirrored"):
        path = files.desk(folder / name)
        with files.opened(path) as database:
            database.execute("INSERT INTO board VALUES (?, 'P', 'M1')", [name])
        those.lines = [*those.lines, firstlook.Line(name, folder)]
        those.files[name] = [Archive(path, "", 0, 0)]
    recall_ = Recall(Question("lot", "L"), those, chains.Asker("none", []))
    assert customers.unknown(recall_, ["here", "mirrored", "elsewhere"]) == {"elsewhere"}


UNDECIDED = ["L1", "", "M", "SN-2", "", "", "", "", "id", "", "", "", ""]
# untraced work, the board of a doubt, and what is said of a serial without a piece
SAID: dict[str, tuple[list[list[str]], str, str]] = {
    "all is known": ([], "SN-2", "no"),
    "work on another board is undecided": ([UNDECIDED], "SN-2", "not known"),
    "a piece may be on it": ([], "SN-1", "perhaps"),
    "a piece may be on any board": ([], "", "perhaps"),
}


@pytest.mark.parametrize("name", SAID)
def test_a_serial_holds_none_in_a_complete_answer_alone(
    folder: pathlib.Path, monkeypatch: pytest.MonkeyPatch, name: str
) -> None:
    untraced, board, holds = SAID[name]
    recall_ = Recall(Question("lot", "L"), Surveyed([], folder), chains.Asker("none", []))
    recall_.untraced, recall_.doubtful = untraced, [["L1", board, *[""] * 10]]
    monkeypatch.setattr(customers, "unknown", lambda *_: set())
    tables = customers.narrow(recall_, {"SN-1": [["A", ""]], "SN-2": [["B", ""]]}, "A")
    assert [row[3] for row in tables["serials"]] == ["holds", holds]
    assert "decided_by" not in tables["untraced"][0]


def test_a_customer_without_a_board_has_no_evidence(line: Line, folder: pathlib.Path) -> None:
    recall(line, folder, "board,customer,date\nSN-2,Customer B,2026-03-09\n").expect(2)
    assert not (folder / "to").exists()


def test_a_customer_wants_a_list_of_what_was_shipped(line: Line) -> None:
    run_tool("recall", "lot", "X", *line.recall_words(), "--customer", "A").expect(2)
