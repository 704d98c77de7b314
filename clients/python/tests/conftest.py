"""The paths and options of the tests of the package; the other options and the markers are those of
all tests.

    /usr/bin/python3 -m pytest clients/python/tests -m gate
    /usr/bin/python3 -m pytest clients/python/tests/test_interlock.py -k mended
    /usr/bin/python3 -m pytest clients/python/tests/test_line_world.py --walks 1000 --seed 7
    /usr/bin/python3 -m pytest clients/python/tests/test_command.py -k refusals --refusals 500 -s
"""
import pathlib
import sys
from typing import Iterator

import pytest

HERE = pathlib.Path(__file__).resolve().parent
sys.path[:0] = [str(it) for it in (HERE.parent, HERE)]

from line_lab import Line, Served  # noqa: E402


def pytest_addoption(parser: pytest.Parser) -> None:
    about = "so many walks of a machine that obeys the interlock (3)"
    parser.addoption("--walks", type=int, default=3, metavar="N", help=about)
    about = "so many refusals to a machine, and to a tablet, and kills of its sender (1)"
    parser.addoption("--refusals", type=int, default=1, metavar="N", help=about)


@pytest.fixture(scope="session")
def furnished(line_program: pathlib.Path, tmp_path_factory: pytest.TempPathFactory) -> pathlib.Path:
    """A line's file with parts, sheets and reels."""
    return Served(line_program, tmp_path_factory.mktemp("line")).furnished()


@pytest.fixture
def line(
    line_program: pathlib.Path, furnished: pathlib.Path, tmp_path: pathlib.Path
) -> Iterator[Line]:
    made = Line(line_program, tmp_path, furnished)
    yield made
    made.end()
