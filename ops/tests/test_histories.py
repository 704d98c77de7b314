"""A line's folder through histories at random: what is found in it is exact, or says what is
missing. Faults that were planted are noticed.
"""
from __future__ import annotations

from collections.abc import Sequence

import pytest

from tracedesk_dev import packages
from tracedesk_ops import around, lineage, sealed
from tracedesk_ops.sealed import Sealed

if why := packages.lacking("python:hypothesis"):
    pytest.skip(why, allow_module_level=True)

from hypothesis.stateful import run_state_machine_as_test  # noqa: E402
from lab import histories  # noqa: E402

IN_GATE, WHOLE, PLANTED = 20, 3_000, 300  # sequences
LAST = "SELECT uid, source, own, command FROM accepted WHERE number = ?"


def tried(sequences: int) -> None:
    run_state_machine_as_test(  # type: ignore[no-untyped-call]  # Debian's hypothesis has no type
        histories.Histories, settings=histories.settings_of(sequences)
    )


def test_each_step_leaves_the_files_exact_or_with_a_fault() -> None:
    tried(IN_GATE)


@pytest.mark.whole
def test_three_thousand_histories() -> None:
    tried(WHOLE)


def last_row_is_there(newer: Sealed, older: Sealed) -> bool:
    with sealed.opened(newer.path) as one, sealed.opened(older.path) as other:
        rows = [database.execute(LAST, [older.commands]).fetchall() for database in (one, other)]
    return newer.commands >= older.commands and rows[0] == rows[1]


def read_by_name(path: sealed.Path) -> Sealed:
    with sealed.opened(path) as database:
        commands, entries = (sealed.size(database, its) for its in sealed.LISTS)
        return Sealed(path, path.stem, sealed.begun_from(database), commands, entries)


read_all, lacking = lineage.read_all, lineage.lacking


def read_sealed(
    folder: sealed.Path, faults: list[str], read: around.Read | None = None
) -> list[Sealed]:
    return [] if folder.name == "lost" else read_all(folder, faults, read)


def lacking_of_samples(members: Sequence[Sealed], others: Sequence[Sealed]) -> list[lineage.Lacked]:
    """Believes that a file whose last row is there has nothing else."""
    odd = [file for file in others if not any(last_row_is_there(it, file) for it in members)]
    return lacking(members, odd)


def continued(files: Sequence[Sealed], lost: Sequence[Sealed] = ()) -> list[Sealed]:
    """All but the newest that another file continues, also in a fork, or where one was begun."""
    return [file for file in files if file not in lineage.tops(files, lost)][: -lineage.KEPT + 1]


def newest(desk: Sealed | None, there: list[Sealed], lost: list[Sealed]) -> list[Sealed]:
    """A recall takes the newest sealed file for the desk that is there."""
    files = lineage.chain(there, lost) if there or lost else []
    return [*files, desk] if desk else files


def noticed(monkeypatch: pytest.MonkeyPatch, module: object, name: str, fault: object) -> None:
    monkeypatch.setattr(module, name, fault)
    with pytest.raises(AssertionError):
        tried(PLANTED)


@pytest.mark.parametrize(
    "module, name, fault",
    [
        (sealed, "continues", last_row_is_there),
        (sealed, "read", read_by_name),
        (lineage, "read_all", read_sealed),
        (around, "history", newest),
    ],
    ids=["the last row alone", "a name is believed", "lost is not looked at", "not the desk's"],
)
def test_a_planted_fault_is_noticed(
    monkeypatch: pytest.MonkeyPatch, module: object, name: str, fault: object
) -> None:
    noticed(monkeypatch, module, name, fault)


@pytest.mark.whole
@pytest.mark.parametrize(
    "module, name, fault",
    [
        (sealed, "LISTS", (sealed.HISTORY, sealed.HISTORY)),
        (lineage, "lacking", lacking_of_samples),
        (lineage, "superfluous", continued),
    ],
    ids=["the book is not compared", "lacking by samples", "superfluous in a fork"],
)
def test_a_rarer_planted_fault_is_noticed(
    monkeypatch: pytest.MonkeyPatch, module: object, name: str, fault: object
) -> None:
    noticed(monkeypatch, module, name, fault)
