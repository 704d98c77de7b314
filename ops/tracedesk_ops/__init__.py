"""What the tools of a plant share: desks' files, their copies, archives and services."""
from __future__ import annotations

import argparse
import pathlib
import sys

# In the repository the package of clients has a folder of its own; installed below a prefix it lies
# in that of Debian's Python.
HERE = pathlib.Path(__file__).resolve()
for clients in (HERE.parents[2] / "clients/python", HERE.parents[2] / "python3/dist-packages"):
    if clients.exists():
        sys.path.append(str(clients))
        break

__version__ = "1.0.0"


def reader_of(text: str | None) -> argparse.ArgumentParser:
    """A reader of the command line of a tool whose help is this text; with --version."""
    reader = argparse.ArgumentParser(
        description=text,
        formatter_class=argparse.RawDescriptionHelpFormatter,
        usage=argparse.SUPPRESS,
    )
    reader.add_argument(
        "--version",
        action="version",
        version=f"%(prog)s {__version__}",
        help="print the version, and end",
    )
    return reader
