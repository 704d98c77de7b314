"""Pairs of desk files, compared by tracedesk-chain: each prints the line that was worked out by
hand.

The pairs of alike-pairs.json have one or more for each way in which a new desk can be wrong, and
three that are alike.
"""
import json
import pathlib
import subprocess

import pytest
from tracedesk_ops import stored

CASES = json.loads(pathlib.Path(__file__).with_name("alike-pairs.json").read_text("utf-8"))


def make(program: pathlib.Path, file: pathlib.Path, lines: list[str]) -> None:
    """Makes a desk that accepted these commands: a minute and a command's stored text, with spaces
    for tabs.
    """
    messages = []
    for number, line in enumerate(lines):
        minute, text = line.replace(" ", "\t").split("\t", 1)
        messages.append(stored.message(f"u{number}", "S", int(minute), text) + "\n")
    words = [str(program), "feed", "--db", str(file)]
    subprocess.run(words, input="".join(messages), capture_output=True, text=True, check=True)


def compared(chain: pathlib.Path, old: pathlib.Path, new: pathlib.Path) -> tuple[int, str, str]:
    """The status and what is printed, on both outputs; no file is changed."""

    def contents() -> list[bytes | None]:
        return [file.read_bytes() if file.exists() else None for file in (old, new)]

    before = contents()
    done = subprocess.run([chain, "alike", old, new], capture_output=True, text=True)
    assert contents() == before
    return done.returncode, done.stdout, done.stderr


@pytest.mark.parametrize("number", range(len(CASES["pairs"])))
def test_a_pair_has_the_line_that_was_worked_out(
    number: int, program: pathlib.Path, chain: pathlib.Path, tmp_path: pathlib.Path
) -> None:
    pair = CASES["pairs"][number]
    for name in ("old", "new"):
        make(program, tmp_path / name, [*CASES["setup"], *pair[name]])
    status = 0 if pair["line"].startswith("alike") else 1
    assert compared(chain, tmp_path / "old", tmp_path / "new") == (status, pair["line"] + "\n", "")


@pytest.mark.parametrize(
    "old, new, line",
    [
        ("none", "new", "old NotADesk"),
        ("new", "none", "new NotADesk"),
        ("text", "new", "old Unavailable"),
    ],
)
def test_a_file_that_is_no_desk_is_refused(
    old: str,
    new: str,
    line: str,
    program: pathlib.Path,
    chain: pathlib.Path,
    tmp_path: pathlib.Path,
) -> None:
    make(program, tmp_path / "new", CASES["setup"])
    (tmp_path / "text").write_text("no database\n" * 1000)
    found = compared(chain, tmp_path / old, tmp_path / new)
    assert found == (3, "", f"tracedesk: {line}\n")
