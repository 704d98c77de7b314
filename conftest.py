"""The options, markers and programs of all tests by pytest.

    /usr/bin/python3 -m pytest ops/tests/test_backup.py::test_sums_are_cut --program
    /usr/bin/tracedesk /usr/bin/python3 -m pytest ops/tests -m gate -n 2

The program under test is that of --program, else PROGRAM in the environment, else the repository's
own. tracedesk-chain is that of CHAIN in the environment, else the one next to the program. So is
tracedesk-line, with LINE.

A test has the marker `gate`, unless it has `whole` (it takes minutes), `root` or `browser`; one of
these may have `gate` too. `needs` names commands of dev/packages.txt: without one of them a test is
skipped.
"""
import os
import pathlib

import pytest
from tracedesk_dev import packages
from tracedesk_dev import program as programs
from tracedesk_ops import plant

MARKERS = {
    "gate": "runs in the gate; each test has it that has none of the next three",
    "whole": "takes minutes",
    "root": "is left out where root doesn't call it",
    "browser": "wants a browser",
    "xdist_group(name)": "runs in one process with the others of this name",
    "needs(*commands)": "is left out where one of these commands is not there",
}
APART = ("whole", "root", "browser")
NO_CHAIN = "there is no tracedesk-chain next to {}: dev/build --chain, or CHAIN=FILE"
NO_LINE = "there is no tracedesk-line next to {}: dev/build --line, or LINE=FILE"


def pytest_addoption(parser: pytest.Parser) -> None:
    parser.addoption(
        "--program",
        metavar="FILE",
        help="the program under test; else PROGRAM in the environment, else the repository's own",
    )
    parser.addoption("--seed", type=int, default=1, metavar="N", help="of random tests (1)")


def pytest_configure(config: pytest.Config) -> None:
    for name, about in MARKERS.items():
        config.addinivalue_line("markers", f"{name}: {about}")
    named = config.getoption("--program")
    if named or os.environ.get("PROGRAM"):
        os.environ["PROGRAM"] = programs.to_use(named)  # for the tools too


def pytest_collection_modifyitems(items: list[pytest.Item]) -> None:
    for item in items:
        if not any(item.get_closest_marker(name) for name in APART):
            item.add_marker("gate")


def pytest_runtest_setup(item: pytest.Item) -> None:
    if item.get_closest_marker("root") and os.geteuid():
        pytest.skip("it wants root: call it by sudo")
    for marker in item.iter_markers("needs"):
        if why := packages.lacking(*marker.args):
            pytest.skip(why)


@pytest.fixture(scope="session")
def program() -> pathlib.Path:
    """The program under test, with tracedesk-chain and tracedesk-line."""
    if not os.environ.get("PROGRAM"):
        if not programs.is_built():
            pytest.skip("there is no program: make build, or PROGRAM=FILE")
        os.environ["PROGRAM"] = programs.own()
    file = pathlib.Path(os.environ["PROGRAM"])
    if not plant.chain_of(str(file)):
        pytest.skip(NO_CHAIN.format(file))
    if not plant.line_of(str(file)):
        pytest.skip(NO_LINE.format(file))
    return file


@pytest.fixture(scope="session")
def chain(program: pathlib.Path) -> pathlib.Path:
    """tracedesk-chain."""
    return pathlib.Path(plant.chain_of(str(program)) or pytest.skip(NO_CHAIN.format(program)))


@pytest.fixture(scope="session")
def line_program(program: pathlib.Path) -> pathlib.Path:
    """tracedesk-line."""
    found = plant.line_of(str(program))
    return pathlib.Path(found or pytest.skip(NO_LINE.format(program)))


@pytest.fixture(scope="session")
def seed(request: pytest.FixtureRequest) -> int:
    """That of --seed."""
    return int(request.config.getoption("--seed"))
