"""The program that the tools use: the file that PROGRAM in the environment names (so `make day
PROGRAM=FILE`); without that, crates/tracedesk/out/tracedesk, where no file that it is built of is
newer. Tools ask `to_use`, which proves nothing: dev/build does.
"""
import argparse
import os
import pathlib
import shutil
import subprocess
import sys
import time
from typing import Iterator, NoReturn

from tracedesk_dev import ROOT as ROOT  # the tools ask for it here
from tracedesk_dev import building, rattle
from tracedesk_dev.building import tell

CRATES = ROOT / "crates"
CRATE = "tracedesk"
BUILT = CRATES / CRATE / "out" / CRATE
# The other programs, tracedesk-WORD: over the desk files of a line, and over both lists of one.
OTHERS = {"chain": "tracedesk_chain", "line": "tracedesk_line"}
NAME = os.path.relpath(os.path.realpath(sys.argv[0]), ROOT)
NONE = (
    "{}. `make build` proves and builds it, in some 35 minutes on four cores. To prove nothing,"
    " name a program that is there, as that of a package: PROGRAM=/usr/bin/tracedesk; or call `make"
    " demo`, which runs it before its proof"
)
NO_KIT = (
    "there is no rt, the command of Rattle's kit, which proves and builds. All but make build, test"
    " and wrong-bodies work without it on a program that is built: make day PROGRAM=FILE"
)


def stop(why: str) -> NoReturn:
    """Ends the tool with a line on standard error: something that it needs is not there."""
    print(f"{NAME}: {why}", file=sys.stderr)
    sys.exit(2)


def want(command: str, package: str) -> None:
    """Stops where a command is not there that a package of Debian brings."""
    if shutil.which(command) is None:
        stop(f"there is no {command}: apt-get install {package}")


def can_compile() -> bool:
    """Whether there is a C compiler, with the C library's headers."""
    if shutil.which("cc") is None:
        return False
    return (
        subprocess.run(
            ["cc", "-E", "-x", "c", "-"], input=b"#include <stdio.h>", capture_output=True
        ).returncode
        == 0
    )


def seed_of_commit() -> int:
    """The first digits of the commit's hash, as a number; 1 where there is no repository."""
    done = subprocess.run(["git", "-C", ROOT, "rev-parse", "HEAD"], capture_output=True, text=True)
    return int(done.stdout[:10], 16) if done.returncode == 0 else 1


def want_kit() -> None:
    if shutil.which("rt") is None:
        older = (
            f"{BUILT.relative_to(ROOT)} is older than {newest().relative_to(ROOT)}, and "
            if can_run(BUILT)
            else ""
        )
        stop(older + NO_KIT)


# --- What the program is built of


def built(crate: str) -> pathlib.Path:
    """Where a program is once it is built."""
    return CRATES / crate / "out" / crate


def sources(program: str = CRATE) -> Iterator[pathlib.Path]:
    """The files that the program is built of, and their folders, whose times tell of files that are
    gone.
    """
    yield CRATES.with_suffix(".txt")
    yield ROOT / "HANDLES"
    for crate in [*rattle.below(program), program]:
        for part in ("src", "specs", "proofs"):
            yield from (
                it
                for it in (CRATES / crate / part, *(CRATES / crate / part).rglob("*"))
                if it.exists()
            )


def newest(crate: str = CRATE) -> pathlib.Path:
    """The source that was written last."""
    return max(sources(crate), key=lambda it: it.stat().st_mtime_ns)


def is_built(crate: str = CRATE) -> bool:
    """Whether a program is there that no source is newer than."""
    return (
        can_run(built(crate))
        and built(crate).stat().st_mtime_ns >= newest(crate).stat().st_mtime_ns
    )


def can_run(file: str | pathlib.Path) -> bool:
    return os.path.isfile(file) and os.access(file, os.X_OK)


# --- The build


def build(crate: str) -> None:
    """Proves and builds the program; where that fails, all that rt said is told, and the tool ends
    with its status.
    """
    tell(
        f"{NAME}: proving and building the program, up to 35 minutes on four cores; `make demo`"
        " shows it at work before that"
    )
    began = time.time_ns()
    try:
        building.build(crate)
    except building.NotProved as why:
        tell(f"{why.said}{NAME}: the program was not built: {why}")
        sys.exit(why.status if why.status == 1 else 2)
    # rt goes by what the files say: a source written anew with the same text leaves the program as
    # old as it was
    if built(crate).stat().st_mtime_ns < newest(crate).stat().st_mtime_ns < began:
        os.utime(built(crate))


def own(crate: str = CRATE) -> str:
    """The repository's own program, built where that is wanting."""
    if not is_built(crate):
        want_kit()
        build(crate)
    return str(built(crate))


# --- For the tools


def to_use(named: str | None = None) -> str:
    """The path of the program: the named one, that of PROGRAM, or the repository's own."""
    named = named or os.environ.get("PROGRAM")
    if not named:
        if not is_built():
            there = BUILT.relative_to(ROOT)
            stop(
                NONE.format(
                    f"{there} is older than {newest().relative_to(ROOT)}"
                    if can_run(BUILT)
                    else f"there is no {there}"
                )
            )
        return own()
    if not can_run(named):
        stop(
            f"{named} is {'not executable' if os.path.isfile(named) else 'not there'}: PROGRAM and"
            " --program name a program that is built"
        )
    return os.path.abspath(named)


def offer(reader: argparse.ArgumentParser) -> None:
    """Adds --program to a tool's words; what is then asked for goes to `to_use`."""
    reader.add_argument(
        "--program",
        metavar="FILE",
        help=(
            "the program; else PROGRAM in the environment, else the repository's own, which make"
            " build proves and builds"
        ),
    )


class Ticks:
    """Tells on standard error how far a long step is, each 20 seconds."""

    SECONDS = 20

    def __init__(self) -> None:
        self.due = time.monotonic() + self.SECONDS

    def tell(self, text: str) -> None:
        if time.monotonic() >= self.due:
            tell(f"  {text}")
            self.due = time.monotonic() + self.SECONDS
