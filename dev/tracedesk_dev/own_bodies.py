"""Which public functions have a wrong body: an edit that changes their own code."""
import os
import pathlib
from typing import Iterable

from tracedesk_dev import rattle
from tracedesk_dev.edits import Edit, NotApplied, edits_below, edits_of_gate, find_functions, read

HEADS = f"{'crate':16} functions have one must-fail"


def code_of(folder: str) -> list[rattle.Source]:
    """The sources of a crate that are no tests."""
    return [it for it in rattle.sources(pathlib.Path(folder)) if not rattle.is_test(it.path)]


def own_traits(folders: Iterable[str]) -> set[str]:
    blocks = (block for folder in folders for it in code_of(folder) for block in it.blocks)
    return {it.trait for it in blocks if it.is_trait and it.is_public}


def has_code(it: rattle.Function, traits: set[str]) -> bool:
    """Whether a function has code, and is public or a method of one of our traits: no law, and no
    head in a trait."""
    if it.is_empty or it.block and it.block.is_trait:
        return False
    trait = it.block.trait if it.block else ""
    return trait in traits if trait else it.is_public


def functions_of(folder: str, traits: set[str]) -> list[str]:
    """The public functions of a crate that have code, as a check names them."""
    functions = (function for it in code_of(folder) for function in it.functions)
    return [it.full_name for it in functions if has_code(it, traits)]


def with_a_body(edits: Iterable[Edit], folder: str) -> set[str]:
    """Returns the functions that these edits of a crate change, where they change functions
    alone.
    """
    found: set[str] = set()
    for edit in edits:
        try:
            find_functions(edit, folder)
        except NotApplied:
            continue
        found |= edit.functions
    return found


def table(top: str, crates: Iterable[str], excused: dict[str, str]) -> tuple[list[str], list[str]]:
    """Returns the table by crate, and what is wrong: a function with neither a wrong body nor an
    excuse, and an excuse of a function that has one or isn't there."""
    folders = {it: f"{top}/crates/{it}" for it in crates}
    folders = {it: folder for it, folder in folders.items() if not it.endswith("_tests")}
    traits = own_traits(folders.values())
    rows, faults, sums = [], [], [0, 0, 0]
    seen: set[str] = set()
    for crate, folder in folders.items():
        functions = {*functions_of(folder, traits)}
        gate = edits_of_gate(crate, folder)
        edits = gate + edits_below(crate, f"{folder}/wrong-bodies")
        own = with_a_body(edits, folder)
        lacking = [f"{crate} {it}" for it in sorted(functions - own)]
        faults += [f"{it} has no wrong body" for it in lacking if it not in excused]
        seen |= {*lacking}
        kinds = (functions, own, with_a_body(gate, folder))
        counts = [len(functions & it) for it in kinds]
        sums = [a + b for a, b in zip(sums, counts)]
        if functions:
            rows.append(line_of(crate, counts))
    faults += [f"{it} has a wrong body, or isn't there" for it in excused if it not in seen]
    return [HEADS, *rows, line_of("all", sums)], faults


def line_of(crate: str, counts: list[int]) -> str:
    return f"{crate:16} {counts[0]:9} {counts[1]:8} {counts[2]:9}"


def excuses(path: str) -> dict[str, str]:
    """Returns the functions that can have no wrong body, each with the reason: `CRATE FUNCTION:
    REASON`.
    """
    if not os.path.exists(path):
        return {}
    lines = [it for it in read(path).split("\n") if it and not it.startswith("#")]
    return {name: why for name, _, why in (it.partition(": ") for it in lines)}
