"""What has not passed has failed: a step that ends otherwise than it says, and, where none is
allowed, a skip.
"""
import pathlib
import re

import pytest
from tracedesk_dev import ROOT, gate, packages
from tracedesk_dev.gate import Count, Step


def counted(folder: pathlib.Path, line: str, status: int) -> gate.Gate:
    """The gate with one step, whose command prints this line, and ends with this status."""
    file = folder / "step"
    file.write_text(f"#!/bin/sh\ncat << 'END'\n{line}\nEND\nexit {status}\n")
    file.chmod(0o755)
    run = gate.Gate()
    run.run(Step("planted", (str(file),)))
    return run


@pytest.mark.parametrize(
    "line, status, count",
    [
        ("3 passed, 2 failed", 1, Count(3, 2)),
        ("3 passed, 0 failed", 1, Count(0, 1)),
        ("3 passed, 1 failed", 0, Count(0, 1)),
        ("all is well", 0, Count(0, 1)),
        ("", 2, Count(0, 1)),
    ],
)
def test_a_step_that_ends_otherwise_than_it_says_has_failed(
    line: str, status: int, count: Count, tmp_path: pathlib.Path
) -> None:
    assert counted(tmp_path, line, status).total() == count


@pytest.mark.parametrize("forbidden, status", [("", 0), ("1", 1)])
def test_a_skip_fails_where_none_is_allowed(
    forbidden: str, status: int, tmp_path: pathlib.Path, monkeypatch: pytest.MonkeyPatch
) -> None:
    monkeypatch.setenv(gate.NO_SKIP, forbidden)
    assert gate.ended(counted(tmp_path, "2 passed, 0 failed, 1 skipped", 0)) == status


def test_a_folder_without_tests_has_failed(tmp_path: pathlib.Path) -> None:
    run = gate.Gate()
    run.run(Step("planted", ("pytest", str(tmp_path))))
    assert run.total() == Count(0, 1, 0)


def test_each_command_that_a_test_wants_has_a_package() -> None:
    tests = (file for file in ROOT.rglob("test_*.py") if "out" not in file.parts)
    marked = (
        it for file in tests for it in re.findall(r"mark\.needs\(([^)]*)\)", file.read_text())
    )
    wanted = {name for names in marked for name in re.findall(r'"([^"]+)"', names)}
    assert wanted and wanted <= packages.by_command().keys()
