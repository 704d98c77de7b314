"""A served line that is a folder: its roll-overs, and recalls over its files."""
from __future__ import annotations

import pathlib
import shutil
from typing import Any

from lab import ROOT, messages
from lab.desk import log_into_file
from lab.line import Line
from lab.programs import auditor
from lab.tools import Ended, Word, run, run_tool, tool
from tracedesk_dev import begun
from tracedesk_ops import sealed, sealing
from tracedesk_ops.line import LineFolder

Path = pathlib.Path


def board(name: str, minute: int = 0) -> list[bytes]:
    """A board with two pieces of the reel on slot 1."""
    at = f"1970-01-01T00:{minute:02}:00Z"
    bodies: dict[str, dict[str, Any]] = {
        "WorkStarted": {},
        "MaterialsInstalled": {"Designators": ["R1", "R2"]},
        "WorkCompleted": {},
    }
    return [
        messages.message(word, f"{name}-{word}", at, Machine="M", Board=name, **body)
        for word, body in bodies.items()
    ]


# --- Recalls


def recalled(line: Line, status: int = 0) -> set[str]:
    done = line.recall("--show", "pieces").expect(status)
    return {row.split(",")[0] for row in done.out.splitlines()[1:]}


def test_a_recall_reads_the_folder_and_what_is_lost(line: Line) -> None:
    line.accept(*board("B1"))
    line.rollover().expect()
    line.accept(*board("B2", 1))
    line.seal().expect()
    line.accept(*board("B3", 2))
    assert recalled(line) == {"B1", "B2", "B3"}
    line.end()
    planned = line.call(line.ops("restore", "--dry-run"))
    planned.expect(4, "3 commands of t have to be sent again")
    assert line.call(line.ops("restore")).expect(4).out == planned.out
    line.serve()
    assert recalled(line, 3) == {"B1", "B2"}
    line.seal().expect(4, "once its senders have sent again what it lacks")
    line.accept(*board("B3", 2))
    line.seal().expect(0)
    assert recalled(line) == {"B1", "B2", "B3"}


def test_a_mirror_is_asked_up_to_its_newest_file(line: Line, folder: Path) -> None:
    line.accept(*board("B1"))
    line.rollover().expect()
    line.accept(*board("B2", 1))
    line.seal().expect()
    mirror = folder / "mirror"
    shutil.copytree(line.archive, mirror / "sealed")
    words: list[Word] = ["lot", "L1", "--line", "L1", mirror, "--show", "pieces"]
    done = run_tool("recall", *words).expect(3, f"{mirror} has no desk", line.newest().name)
    assert done.out.count("\nB1,") == done.out.count("\nB2,") == 2


def older_release(line: Line, folder: Path) -> Path:
    """A line of 1.0.0: its desk, and an archive whose name has times and digits."""
    for name in ("archive", "untraced"):
        folder.joinpath(name).mkdir(parents=True)
    archive = folder / f"archive/L1-19700101T0000Z-19700101T0000Z-{digits_of(line)}"
    line.file.rename(archive)
    line.feed(begun.messages_of(archive), statuses=(0,))
    line.serve()
    return archive


def digits_of(line: Line) -> str:
    line.end()
    log_into_file(line.file)
    return sealed.digits_of(line.file)


def taken_over(home: Path, program: Path) -> Ended:
    """What the commands of docs/operations-install.md, "From 1.0.0", say in a folder of 1.0.0."""
    page = (ROOT / "docs/operations-install.md").read_text(encoding="utf-8")
    block = page.partition("### From 1.0.0")[2].partition("```sh\n")[2].partition("```")[0]
    script = block.replace("/var/lib/tracedesk", str(home)).replace(" L1 ", f" {home} ")
    apart = "systemctl() { :; }; chown() { :; }"  # there is no unit here, and no user tracedesk
    ops = f'tracedesk-ops() {{ {tool("ops")} "$@" --program {program}; }}'
    return run(["bash", "-euc", f"{apart}\n{ops}\n{script}"])


def test_a_line_of_an_older_release_is_taken_over(line: Line, folder: Path) -> None:
    """By the commands of the page, in place."""
    line.accept(*board("B1"))
    home = older_release(line, folder / "home").parent.parent
    line.accept(*board("B2", 1))
    line.end()
    lawful = line.lawful()
    for path in line.paths():
        shutil.copy(path, home / path.name)
    taken_over(home, line.program).expect(0, "with 1 archives")
    assert [*home.glob("1.0.0/archive/L1-*")] and not home.joinpath("archive").exists()
    words: list[Word] = ["--program", line.program]
    run_tool("ops", "check", home, *words).expect(0, "sound, 2 files")
    audit = auditor(line.program, home).audit
    assert sealing.seal(LineFolder(home), audit).commands == lawful
