"""Each example in the help text of a tool is a command that the tool takes. None of them is run."""
import argparse
import pathlib
import runpy
import sys
from typing import Any, NoReturn, Optional, Sequence
from unittest import mock

import pytest
from lab.examples import TOOLS, Example, all_examples, calls_in, place_of
from lab.tools import run


class Parsed(BaseException):
    """The command line was understood."""


def parse_args(
    reader: argparse.ArgumentParser, words: Optional[Sequence[str]] = None, its: Any = None
) -> NoReturn:
    _, more = reader.parse_known_args(words, its)
    if more:
        reader.error(f"unrecognized arguments: {' '.join(more)}")
    raise Parsed


def test_each_tool_has_examples() -> None:
    found = all_examples()
    assert {it.tool for it in found} == set(TOOLS) and len(found) > 2 * len(TOOLS)


@pytest.mark.parametrize("example", all_examples(), ids=[it.text[:60] for it in all_examples()])
def test_an_example_is_a_command_that_its_tool_takes(example: Example) -> None:
    calls = list(calls_in(example))
    assert calls, f"no tool is called: {example.text}"
    for call in calls:
        with mock.patch.object(argparse.ArgumentParser, "parse_args", parse_args):
            with mock.patch.object(sys, "argv", [str(place_of(call[0])), *call[1:]]):
                with pytest.raises(Parsed):
                    runpy.run_path(str(place_of(call[0])), run_name="__main__")


NO_DESKS = 3  # the command line is taken, and the files are refused


def test_the_examples_of_the_second_program_are_commands_that_it_takes(
    chain: pathlib.Path, folder: pathlib.Path
) -> None:
    """Each is run in a folder where no file is a desk."""
    found = run([chain, "--help"]).expect().out.partition("\nExamples:\n")[2].splitlines()
    assert len(found) > 3 and all(line.startswith("  tracedesk-chain ") for line in found)
    for line in found:
        words = line.strip().replace("tracedesk-chain", str(chain), 1)
        run(["sh", "-c", words], cwd=folder).expect(NO_DESKS)
