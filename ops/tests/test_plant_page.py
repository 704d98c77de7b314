"""The commands of docs/plant.md, as they are written, on a plant of three lines.

Lines L1 and L2 work on one day, and L3 on the next, also on the first boards of L1. In the middle
of its shift each is rolled over, and it is sealed at its end. The page's blocks are run in a folder
that has a mirror, by the rules of dev/try-pages.
"""
import dataclasses
import os
import pathlib
import shutil
import subprocess
import tempfile
from typing import Any, Iterator

import pytest
from lab import databases, messages
from lab.databases import Database
from lab.plants import WorkedLine
from lab.tools import tool
from tracedesk_dev import postgres, shift, trial

pytestmark = [pytest.mark.xdist_group("plant_page")]

PAGE, INSTALLED = "docs/plant.md", "/usr/share/tracedesk/plant"  # where the package has the queries
BOARDS, SHARED = 120, 46
pages = trial.loaded("dev/try-pages")


@dataclasses.dataclass(frozen=True)
class Printed:
    """What a block of the page prints here, and its status."""

    block: Any  # of dev/try-pages
    text: str
    status: int


def shifts() -> dict[str, shift.Shift]:
    first = shift.Shift(1, BOARDS, "L1")
    both = [f"L3-{number:06}" for number in range(SHARED + 1, BOARDS + 1)]
    return {
        "L1": first,
        "L2": shift.Shift(2, BOARDS, "L2"),
        "L3": shift.Shift(3, BOARDS, "L3", first.serials[:SHARED] + both, "2026-03-04"),
    }


def make_lines(program: pathlib.Path, room: pathlib.Path) -> Iterator[WorkedLine]:
    """The three lines. The folder `mirror` has their sealed files, and damaged ones of L1."""
    (room / "mirror").mkdir()
    for name, its in shifts().items():
        line = WorkedLine(program, room / name, name)
        yield line
        line.serve()
        line.work(messages.parts_of(its.lines, 2, lambda message: message))
        shutil.copytree(line.kept()[-1], room / "mirror" / name, copy_function=shutil.copy2)
        if name == "L1":
            copy = shutil.copytree(line.kept()[-1], room / "mirror/damaged/L1")
            archive = copy / "sealed" / line.archived[0].name
            content = archive.read_bytes()[:-1] + b"x"
            archive.unlink()
            archive.write_bytes(content)


def run_page(room: pathlib.Path, server: postgres.Server) -> Iterator[Printed]:
    """Runs the page's blocks by one bash, as a reader would."""
    blocks, odd = pages.blocks_of(PAGE)
    assert not odd, f"{PAGE} has commands in blocks that are not `sh`, at {odd}"
    (room / "bin").mkdir()
    (room / "bin/tracedesk-plant-load").symlink_to(tool("plant-load"))
    script = "".join(
        f"{{ {block.script} }} > out{number} 2>&1\necho $? > status{number}\n"
        for number, block in enumerate(blocks)
    )
    folders = (
        room / "bin",
        pathlib.Path(str(postgres.found("createdb"))).parent,
        os.environ["PATH"],
    )
    environment = Database(server, "postgres").environment
    subprocess.run(
        ["bash", "-c", script.replace(INSTALLED, str(databases.SQL))],
        cwd=room,
        env={**os.environ, **environment, "PATH": ":".join(map(str, folders))},
        stdin=subprocess.DEVNULL,
    )
    for number, block in enumerate(blocks):
        text = (room / f"out{number}").read_text().replace(str(databases.SQL), INSTALLED)
        lines = [line.rstrip() for line in text.splitlines()]
        yield Printed(block, "\n".join(lines), int((room / f"status{number}").read_text()))


def test_each_block_prints_what_the_page_says(program: pathlib.Path) -> None:
    databases.skip_without()
    lines: list[WorkedLine] = []
    with tempfile.TemporaryDirectory(prefix="ops-") as name, databases.server() as server:
        try:
            for line in make_lines(program, pathlib.Path(name)):
                lines.append(line)
            printed = [*run_page(pathlib.Path(name), server)]
        finally:
            for line in lines:
                line.end()
    wrong = [
        f"{PAGE}:{its.block.line}: {failure}"
        for its in printed
        if (failure := pages.failure(its.block, its.text, its.status))
    ]
    assert not wrong, "\n".join(wrong)
