"""dev/wrong-bodies: the form of edits, the function that one changes, which public functions have
one, and what a check says of them. Each edit of the repository can be applied.
"""
import json
import os
import pathlib
import subprocess
import sys

import pytest
from tracedesk_dev import ROOT, own_bodies
from tracedesk_dev.edit_names import want_names
from tracedesk_dev.edits import (
    Edit,
    NotApplied,
    edits_of,
    find_functions,
    take_in,
    texts_of,
)
from tracedesk_dev.trying import Outcomes, try_bodies
from tracedesk_dev.verdicts import CALLS, FALSE, GOAL, MISFIT, PROVED, judged, short, told_of

SOURCE = """pub struct Pair;

impl Pair {
    pub fn first(&self) -> u64 {
        self.0
    }

    pub fn second(&self) -> u64 {
        self.0
    }

    pub fn law(&self) {}
}
"""
HALF = ("[half]", "-        self.0", "+        self.0 / 2", "")


def tool(*words: str) -> "subprocess.CompletedProcess[str]":
    line = [sys.executable, str(ROOT / "dev/wrong-bodies"), *words]
    return subprocess.run(line, capture_output=True, text=True)


def crate(folder: pathlib.Path, *lines: str, file: str = "src/lib.edits") -> pathlib.Path:
    """A crate with two functions of the same text, and a file of wrong bodies."""
    for name, text in (("src/lib.rt", SOURCE), (f"wrong-bodies/{file}", "\n".join(lines))):
        path = folder / "crates/pairs" / name
        path.parent.mkdir(parents=True, exist_ok=True)
        path.write_text(text)
    return folder / "crates/pairs"


def edits(folder: pathlib.Path) -> list[Edit]:
    return edits_of("pairs", str(folder))


def test_an_edit_changes_the_function_that_it_names(tmp_path: pathlib.Path) -> None:
    folder = crate(tmp_path, *HALF)
    with pytest.raises(NotApplied, match="2 times, and not once"):
        texts_of(edits(folder), str(folder))
    crate(tmp_path, HALF[0], "@ Pair::second", *HALF[1:])
    (edit,) = edits(folder)
    _, after = texts_of([edit], str(folder))
    assert after["src/lib.rt"].index("self.0 / 2") > SOURCE.index("fn second")
    find_functions(edit, str(folder))
    assert edit.functions == {"Pair::second"}
    crate(tmp_path, HALF[0], "@ Pair::third", *HALF[1:])
    with pytest.raises(NotApplied, match="0 functions Pair::third"):
        texts_of(edits(folder), str(folder))


def test_an_edit_has_many_texts_lines_and_sources(tmp_path: pathlib.Path) -> None:
    folder = crate(
        tmp_path,
        *("[two]", "# a remark", "-pub struct Pair;", "-", "+pub struct Pair(u64);", "+", ""),
        *("@ Pair::first", "-self.0", "+0", "@ src/other.rt", "-gone", ""),
        *("[one]", "-    pub fn law(&self) {}", "+", "+    pub fn law(&self);", ""),
    )
    (folder / "src/other.rt").write_text("kept gone")
    two, one = edits(folder)
    assert (two.label, two.notes, one.label) == ("pairs/two", ["a remark"], "pairs/one")
    _, after = texts_of([two], str(folder))
    assert after["src/other.rt"] == "kept "
    assert after["src/lib.rt"].startswith("pub struct Pair(u64);\n\nimpl Pair {\n    pub fn first")
    assert after["src/lib.rt"].count("self.0") == 1
    _, after = texts_of([one], str(folder))
    assert "    }\n\n\n    pub fn law(&self);\n}\n" in after["src/lib.rt"]


@pytest.mark.parametrize("line", ("half", "[half", "+        self.0 / 2", " -self.0"))
def test_a_line_that_says_nothing_is_told(tmp_path: pathlib.Path, line: str) -> None:
    folder = crate(tmp_path, "[half]", line, *HALF[1:])
    with pytest.raises(NotApplied, match=r"lib\.edits:2: "):
        edits(folder)


def test_an_edit_of_the_kits_form_is_taken_in(tmp_path: pathlib.Path) -> None:
    """In the order of the source, and in the place of one of its name, wherever that stands."""
    folder = crate(tmp_path, "[third]", "-pub fn law", "+fn law", "", *HALF, file="src/old.edits")
    (folder / "src/old.rt").write_text("")
    loose = folder / "wrong-bodies/half.edit"
    lines = "why", "file: src/lib.rt", "function: Pair::second", "old: self.0", "new: self.1", ""
    loose.write_text("\n".join(lines))
    with pytest.raises(NotApplied, match=r"half\.edit is no file of edits"):
        edits(folder)
    assert take_in(str(loose)) == str(folder / "wrong-bodies/src/lib.edits")
    first = folder / "must-fail/first.edit"
    first.parent.mkdir()
    first.write_text("file: src/lib.rt\nold: pub fn first\nnew: fn first\n")
    take_in(str(first))
    assert not loose.exists() and not first.exists()
    text = (folder / "wrong-bodies/src/lib.edits").read_text()
    half = "[half]\n# why\n@ Pair::second\n-self.0\n+self.1\n"
    assert text == f"[first]\n-pub fn first\n+fn first\n\n{half}"
    assert (folder / "wrong-bodies/src/old.edits").read_text() == "[third]\n-pub fn law\n+fn law\n"
    for name, old in (("third", "pub fn second"), ("gone", "no such text")):
        (folder / f"wrong-bodies/{name}.edit").write_text(f"file: src/lib.rt\nold: {old}\nnew: x\n")
    done = tool("--take", *map(str, sorted(folder.glob("wrong-bodies/*.edit"))))
    assert done.returncode == 1 and "gone.edit stays: an old text is in src/lib.rt 0" in done.stderr
    assert not (folder / "wrong-bodies/src/old.edits").exists()
    assert "[third]" in (folder / "wrong-bodies/src/lib.edits").read_text()


@pytest.mark.parametrize(
    "new, fault",
    (
        ("Side::Left", None),
        ("crate::Side::Left", None),
        ("other::Side::Left", None),
        ('"Gone"', None),
        ("Gone::Left", "it names Gone, which isn't there"),
        ("Side::Gone", "it names Side::Gone, which isn't there"),
        ("crate::Gone", "it names crate::Gone, which isn't there"),
        ("pairs::Gone::Left", "it names pairs::Gone, which isn't there"),
    ),
)
def test_an_edit_names_what_is_there(tmp_path: pathlib.Path, new: str, fault: str | None) -> None:
    folder = crate(tmp_path, "[new]", "-pub struct Pair;", f"+{new}", "")
    sources = folder / "src/lib.rt"
    sources.write_text(f"{sources.read_text()}\npub enum Side {{\n    Left,\n}}\n")
    (edit,) = edits(folder)
    if fault is None:
        want_names(edit, str(folder), str(folder.parent))
    else:
        with pytest.raises(NotApplied, match=fault):
            want_names(edit, str(folder), str(folder.parent))


def test_each_edit_of_the_repository_names_what_is_there() -> None:
    done = tool("--apply")
    assert done.returncode == 0, done.stdout + done.stderr


def test_each_public_function_of_the_repository_has_a_wrong_body_or_a_reason() -> None:
    done = tool("--table")
    assert done.returncode == 0, done.stdout


def test_a_function_has_a_wrong_body_or_a_reason(tmp_path: pathlib.Path) -> None:
    crate(tmp_path, HALF[0], "@ Pair::first", *HALF[1:])
    rows, faults = own_bodies.table(str(tmp_path), ["pairs"], {})
    assert rows[1].split() == ["pairs", "2", "1", "0"]
    assert faults == ["pairs Pair::second has no wrong body"]
    excused = {"pairs Pair::second": "it is its field", "pairs Pair::first": "it is its field"}
    _, faults = own_bodies.table(str(tmp_path), ["pairs"], excused)
    assert faults == ["pairs Pair::first has a wrong body, or isn't there"]


SAID = """./proofs/Pair/first/Answers.antt:8:76: error: `returns-clause-half`: {first}
note: src/lib.rt:9:5: it is not proved that what it ensures holds ({second})
fn pairs::Pair::first: not proved
fn pairs::Pair::second: no proof: `search` did not prove `returns-clause-half`
fn pairs::Pair::law: not proved: it calls `first`, which is not proved
fn pairs::asked::half: proved
logic=not-proved
"""
GONE = "Goals has no `returns-in-Ok-clause-half`"
FAILS = "the goal does not follow from what it read"


@pytest.mark.parametrize(
    "first, second, verdict",
    (
        (GONE, "`returns-clause-half`", MISFIT),
        (FAILS, "`returns-clause-half`", GOAL),
    ),
)
def test_a_proof_that_no_longer_fits_is_no_refusal(
    tmp_path: pathlib.Path, first: str, second: str, verdict: str
) -> None:
    """A goal of `second` fails at the line that the note names, which says nothing of `first`."""
    folder = str(crate(tmp_path, *HALF))
    said = SAID.format(first=first, second=second)
    told = told_of(said, "pairs", folder)
    assert told == {
        "Pair::first": verdict,
        "Pair::second": GOAL,
        "Pair::law": CALLS,
        "asked::half": PROVED,
    }
    assert told[short("other::Pair::first")] == verdict
    assert judged(1, said, ["src/lib.rt"], "pairs", folder)[0] == GOAL
    alone = "\n".join(line for line in said.split("\n") if "second" not in line)
    assert judged(1, alone, ["src/lib.rt"], "pairs", folder)[0] == verdict


@pytest.mark.parametrize(
    "note, verdict",
    (
        ("(`returns-then-clause-new`)", MISFIT),  # a goal of a new name has no answer yet
        ("(`returns-clause-half`)", GOAL),  # the proof answers it
        (f"(`returns-then-clause-new`); the facts known there {FALSE}", GOAL),
    ),
)
def test_a_goal_that_the_proof_answers_or_that_is_false_refuses(
    tmp_path: pathlib.Path, note: str, verdict: str
) -> None:
    folder = crate(tmp_path, *HALF)
    proof = folder / "proofs/Pair/first/Answers.antt"
    proof.parent.mkdir(parents=True)
    proof.write_text("pub returns-clause-half : goal.returns-clause-half\n")
    said = (
        f"proofs/Pair/first/Answers.antt:2:1: error: `invariant_of-self`: {GONE}\n"
        f"note: src/lib.rt:5:9: it is not proved that it holds {note}\n"
        "fn pairs::Pair::first: not proved\n"
    )
    assert told_of(said, "pairs", str(folder)) == {"Pair::first": verdict}


RT = """#!/bin/sh
case "$*" in
  lib*) [ ! -e broken ] ;;
  *--only*) echo 'fn pairs::Pair::first: proved'
    echo 'fn pairs::Pair::second: no proof: `search` did not prove its goal'; exit 1 ;;
esac
"""


@pytest.mark.parametrize(
    "is_broken, told",
    (
        (False, ["refused pairs/half", "NOT REFUSED pairs/same: the crate is still proved"]),
        (
            True,
            [f"NOT REFUSED pairs/{it}: the crate itself is not proved" for it in ("same", "half")],
        ),
    ),
)
def test_edits_are_tried_together_and_then_by_the_whole_crate(
    tmp_path: pathlib.Path,
    monkeypatch: pytest.MonkeyPatch,
    capsys: pytest.CaptureFixture[str],
    is_broken: bool,
    told: list[str],
) -> None:
    """With an rt that is made up."""
    same = "[same]", "@ Pair::first", "-self.0", "+(self.0)", ""
    folder = crate(tmp_path, *same, HALF[0], "@ Pair::second", *HALF[1:])
    rt = tmp_path / "bin/rt"
    rt.parent.mkdir()
    rt.write_text(RT)
    rt.chmod(0o755)
    monkeypatch.setenv("PATH", f"{rt.parent}:{os.environ['PATH']}")
    if is_broken:
        (folder / "broken").touch()
    try_bodies("pairs", edits(folder), str(folder), Outcomes())
    assert capsys.readouterr().out.splitlines() == told
    assert (folder / "src/lib.rt").read_text() == SOURCE


def test_what_an_earlier_run_kept_counts(
    tmp_path: pathlib.Path, capsys: pytest.CaptureFixture[str]
) -> None:
    file = str(tmp_path / "kept")
    edits_of_run = [Edit(f"pairs/{it}", sum=it * 16) for it in "abc"]
    outcomes = Outcomes(file)
    for it, outcome in zip(edits_of_run, ("refused", "proof only", "NOT REFUSED")):
        assert not outcomes.is_known(it)
        outcomes.tell(it, outcome, "because")
    assert outcomes.file
    outcomes.file.close()
    assert capsys.readouterr().out.splitlines()[1] == "proof only pairs/b: because"
    again = Outcomes(file)
    assert [again.is_known(it) for it in edits_of_run] == [True, True, False]
    assert again.in_words().startswith("1 refused by a goal, 1 only since a proof by hand")
    (tmp_path / "kept").write_text("a line of another tool\n")
    with pytest.raises(SystemExit):
        Outcomes(file)


def test_functions_that_call_one_another_are_tried_apart() -> None:
    first = Edit("pairs/first", functions={"Pair::first"}, calls={"half"})
    half = Edit("pairs/half", functions={"asked::half"})
    second = Edit("pairs/second", functions={"Pair::second"}, calls={"third"})
    assert first.meets(half) and half.meets(first) and first.meets(first)
    assert not second.meets(first)


@pytest.mark.parametrize(
    "words, why",
    (
        (["reels/nothing"], "there is no wrong body reels/nothing"),
        (["nothing"], "crates.txt has no crate nothing"),
        (["--list", "nothing"], "crates.txt has no crate nothing"),
    ),
)
def test_an_unknown_name_is_refused(words: list[str], why: str) -> None:
    done = tool(*words)
    assert (done.returncode, why in done.stderr) == (2, True), done.stderr


def test_it_lists_them() -> None:
    done = tool("--list", "reels")
    found = [json.loads(line) for line in done.stdout.splitlines()]
    assert {it["Crate"] for it in found} == {"reels"} and len({it["Name"] for it in found}) > 10
    assert all(
        it["Was"].keys() == it["Becomes"].keys() and it["Was"] != it["Becomes"] for it in found
    )
