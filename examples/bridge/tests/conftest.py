"""The fixture of the bridge's tests: a folder with a spool and a filter, in which no bridge is left
running.
"""
import pathlib
from typing import Iterator

import pytest
from bridge_lab import Room


@pytest.fixture
def room(tmp_path: pathlib.Path) -> Iterator[Room]:
    made = Room(tmp_path)
    yield made
    made.end()


def pytest_collection_modifyitems(items: list[pytest.Item]) -> None:
    """The bridge's tests want jq."""
    here = pathlib.Path(__file__).parent
    for item in items:
        if here in item.path.parents:
            item.add_marker(pytest.mark.needs("jq"))
