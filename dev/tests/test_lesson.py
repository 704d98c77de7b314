"""Each edit of docs/lesson.md fits the sources: its line is in its file exactly once, and its
function exists.
"""
import re
from typing import NamedTuple

import pytest
from tracedesk_dev import ROOT

ROW = re.compile(
    r"^\| (\d+) \| `(\w+)`, `([\w/.]+)` \| `(.+?)` \| `(.+?)` \| `rt check --only (\S+)` \|$", re.M
)


class Edit(NamedTuple):
    number: str
    crate: str
    file: str
    line: str
    becomes: str
    function: str


EDITS = [Edit(*row) for row in ROW.findall((ROOT / "docs/lesson.md").read_text(encoding="utf-8"))]


def test_there_are_ten() -> None:
    assert [edit.number for edit in EDITS] == [str(number) for number in range(1, 11)]


@pytest.mark.parametrize("edit", EDITS, ids=[edit.function for edit in EDITS])
def test_the_line_of_an_edit_is_in_its_file_once(edit: Edit) -> None:
    source = (ROOT / "crates" / edit.crate / edit.file).read_text(encoding="utf-8")
    line = edit.line.replace("\\|", "|")
    assert (source.count(line), edit.becomes != edit.line) == (1, True)
    assert re.search(rf"\bfn {edit.function.rpartition('::')[2]}\b", source)
