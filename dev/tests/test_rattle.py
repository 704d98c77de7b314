"""The reader of Rattle's sources: what it finds in a made-up one; it misses no function."""
import pathlib
import re

import pytest
from tracedesk_dev import ROOT, rattle

TEXT = """//! A { comment } with fn no_function.
ghost use Rattle.std.specs.Prelude.{some};
mod inner;
pub use crate::inner::{Left, Right as Best};

pub trait Stored: Drop {
    /// Its law.
    fn write(&self, text: &mut Vec<u8>) -> Result<(), AllocError>
        ensures value { text.new ≡ written self };

    ghost is_read: { (value : Self) → IsRead value };
}

pub enum Side {
    Left,
}

impl<A: Stored, B> Stored for (A, B) {
    #[test]
    fn write(&self, text: &mut Vec<u8>) -> Result<(), AllocError>
        requires small { length text.now < 9 }
        // Why: not a brace }.
        ensures value { text.new ≡ '{' }
    {
        put(text, "fn } {", '}')
    }
}

pub const fn sizes() -> [u64; 2] {
    [1, 2]
}
"""
OF = rattle.source("src/pair.rt", TEXT)


def test_functions_have_their_names_places_and_clauses() -> None:
    declared, written, sizes = OF.functions
    assert [it.full_name for it in OF.functions] == [
        "pair::Stored::write",
        "pair::Tuple2Stored::write",
        "pair::sizes",
    ]
    assert (declared.clauses, declared.body == declared.end) == (["value"], True)
    assert TEXT[declared.begin : declared.end].endswith("written self };")
    assert (written.clauses, written.above.strip()) == (["small", "value"], "#[test]")
    assert TEXT[written.body : written.end].split() == [
        "{",
        "put(text,",
        '"fn',
        "}",
        '{",',
        "'}')",
        "}",
    ]
    assert (sizes.is_public, sizes.is_empty, sizes.block) == (True, False, None)
    line = TEXT[: written.begin].count("\n") + 1
    assert (written.line, OF.body_line(written), OF.last_line(written)) == (
        line,
        line + 4,
        line + 6,
    )
    assert OF.at_line(line + 5) == written and OF.at_line(2) is None


def test_types_modules_and_uses_are_read() -> None:
    assert OF.items == [("mod", "inner", False), ("trait", "Stored", True), ("enum", "Side", True)]
    assert OF.uses == [rattle.Use(["crate", "inner"], {"Left": "Left", "Best": "Right"}, True)]
    assert [(it.trait, it.type, it.is_trait) for it in OF.blocks] == [
        ("Stored", "", True),
        ("Stored", "(A, B)", False),
    ]
    assert OF.literals.keys() == {TEXT.index("'{'"), TEXT.index('"fn }'), TEXT.index("'}'")}


def test_a_crate_above_sees_no_body_behind_a_contract() -> None:
    seen = OF.seen_above()
    assert "put(text" not in seen and "text.new ≡ '{'" in seen and "[1, 2]" in seen


@pytest.mark.parametrize(
    "head, name",
    (
        ("impl<S: Alter> LineStore<S> ", "LineStore"),
        ("impl Stored for u64 ", "U64Stored"),
        ("impl<A: Stored, B: Stored> Stored for (A, B) ", "Tuple2Stored"),
        ("impl<'a> Row for (&'a (u64, Id), &'a Mount) ", "Tuple2RefTuple2U64IdRefMountRow"),
        ("impl From<sqlite::Error> for Fault ", "FaultFromSqliteError"),
    ),
)
def test_the_functions_of_an_impl_have_the_names_that_a_check_prints(head: str, name: str) -> None:
    assert rattle.name_of_impl(head) == name


def test_crates_stand_behind_those_below_them(tmp_path: pathlib.Path) -> None:
    (tmp_path / "crates.txt").write_text("# a comment\ntop: low itoa\nhigh: top\nlow: itoa\n")
    assert [*rattle.crates(tmp_path)] == ["low", "top", "high"]
    assert rattle.below("high", tmp_path) == ["low", "top"] and rattle.below("low", tmp_path) == []


def test_no_function_of_the_repository_is_missed() -> None:
    for crate in rattle.crates():
        for of in rattle.sources(ROOT / "crates" / crate):
            heads = re.findall(r"\bfn (\w+)", of.code)
            assert [it.name for it in of.functions] == heads, f"{crate}/{of.path}"
            assert len({*(it.full_name for it in of.functions)}) == len(heads) or "cfg" in of.text
