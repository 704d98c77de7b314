"""The examples in the help texts of the tools, and the commands in each of them."""
import functools
import pathlib
import re
import shlex
import subprocess
from typing import Iterator, NamedTuple

from lab import OPS, ROOT
from lab.tools import SENDER
from tracedesk_ops import cli

BRIDGE = ROOT / "examples/bridge/tracedesk-bridge"
TOOLS = {path.name: path for path in (*sorted(OPS.glob("tracedesk-*")), SENDER, BRIDGE)}
OF_LINES = "tracedesk-ops"
OPERATORS = re.compile(r"[|&;]+")
SETTING = re.compile(r"[A-Z_]+=")


class Example(NamedTuple):
    """An example of a tool's help: a command of the shell on one line."""

    tool: str
    text: str


def help_of(tool: str, *subcommand: str) -> str:
    done = subprocess.run(
        [TOOLS[tool], *subcommand, "--help"], capture_output=True, text=True, check=True
    )
    return done.stdout


def examples_in(tool: str, text: str) -> Iterator[Example]:
    """The examples of a help text. A command begins behind two spaces, and ends where more than two
    spaces follow; `\\` at the end of a line goes on in the next one.
    """
    block = text.partition("\nexamples:\n")[2].partition("\n\n")[0]
    command = ""
    for line in block.splitlines():
        if not command and not re.match(r"  \S", line):
            continue  # of the words beside a command
        command += re.split(r" {3,}", line.strip())[0]
        if command.endswith("\\"):
            command = command[:-1]
            continue
        yield Example(tool, command)
        command = ""


def calls_in(example: Example) -> Iterator[list[str]]:
    """The calls of tools in an example, without what redirects them, or is set before them in the
    environment.
    """
    lexer = shlex.shlex(example.text, posix=True, punctuation_chars=True)
    lexer.whitespace_split = True
    call: list[str] = []
    for word in [*lexer, ";"]:
        if OPERATORS.fullmatch(word):
            if call[:1] and call[0] in TOOLS:
                ends = [number for number, word in enumerate(call) if word in ("<", ">")]
                yield call[: ends[0]] if ends else call
            call = []
        elif call or not SETTING.match(word):
            call.append(word)


@functools.cache
def all_examples() -> list[Example]:
    texts = [(tool, help_of(tool)) for tool in TOOLS]
    texts += [(OF_LINES, help_of(OF_LINES, it)) for it in cli.APART]
    return [it for its in texts for it in examples_in(*its)]


def place_of(tool: str) -> pathlib.Path:
    return TOOLS[tool]
