"""The packages of Debian that bring the commands and modules of Python that tests want."""
import functools
import importlib.util
import os
import re
import shutil

from tracedesk_dev import ROOT

LIST = ROOT / "dev/packages.txt"
MODULE = "python:"
PATH = os.pathsep.join(
    (os.environ.get("PATH", os.defpath), "/usr/sbin", "/usr/lib/postgresql/15/bin")
)


@functools.cache
def by_command() -> dict[str, str]:
    """The packages that bring a command, or a module of Python."""
    lines = LIST.read_text(encoding="utf-8").splitlines()
    rows = [re.split(r" {2,}", line) for line in lines if line and not line.startswith("#")]
    return {row[0]: row[1] for row in rows}


def is_here(command: str) -> bool:
    if command.startswith(MODULE):
        return importlib.util.find_spec(command.removeprefix(MODULE)) is not None
    return shutil.which(command, path=PATH) is not None


def lacking(*commands: str) -> str | None:
    """Why something can't be done here that wants these commands, and what installs them; none if
    all are here.
    """
    absent = [command for command in commands if not is_here(command)]
    if not absent:
        return None
    names = " and no ".join(command.removeprefix(MODULE) for command in absent)
    wanted = sorted({name for command in absent for name in by_command()[command].split()})
    return f"there is no {names}: apt-get install {' '.join(wanted)}"
