"""Programs that fail on purpose: scripts around the real ones."""
import pathlib

from tracedesk_ops import plant


def wrapped(folder: pathlib.Path, program: pathlib.Path, word: str, act: str) -> pathlib.Path:
    """The programs as scripts in a folder, which do something of their own when they are asked for
    a word. Returns the first one's file; `alike` is a word of tracedesk-chain, and `audit` and
    `serve` are of tracedesk-line too."""
    others = [(f"tracedesk-{it}", plant.next_to(str(program), it)) for it in ("chain", "line")]
    for name, its in (*others, ("program", program)):
        file = folder / name
        text = f'#!/bin/sh\nif [ "$1" = {word} ]; then\n{act}\nfi\nexec "{its}" "$@"\n'
        file.write_text(text, encoding="utf-8")
        file.chmod(0o755)
    return folder / "program"


def others_of(program: pathlib.Path) -> dict[str, str]:
    """The environment that names the programs next to one of `wrapped`."""
    return {it.upper(): str(program.with_name(f"tracedesk-{it}")) for it in ("chain", "line")}


def auditor(program: pathlib.Path, file: pathlib.Path) -> plant.Program:
    """tracedesk-line, for an audit of a file."""
    return plant.Program(str(plant.line_of(str(program))), file)
