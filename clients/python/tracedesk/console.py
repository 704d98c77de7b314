"""How a program reports: news on standard error, results on standard output, and its status. A
reader that is gone ends no program.
"""
from __future__ import annotations

import os
import pathlib
import sys
import time
import traceback
from typing import Callable, Mapping, Type, TypeVar

NAME = pathlib.Path(sys.argv[0]).name
# seconds between two tries, and between two reports of them
PAUSE_OF_A_FAULT, NEWS_OF_A_FAULT = (5.0, 60.0)
Found = TypeVar("Found")


def tell(line: object) -> None:
    """Writes a line of news. Once standard error is closed, or takes no more, what follows goes
    nowhere.
    """
    try:
        print(f"{NAME}: {line}", file=sys.stderr, flush=True)
    except (OSError, ValueError):
        silence(2)


def say(line: str) -> None:
    """Writes a line of results. Once standard output is closed, or takes no more, what follows goes
    nowhere.
    """
    try:
        print(line, flush=True)
    except OSError as fault:
        tell(f"standard output: {fault}. Nothing more is printed there; the work goes on")
        silence(1)


def silence(number: int) -> None:
    """Lets nothing come of what a stream still holds: else the end of the program fails as it
    writes that, with status 120.
    """
    nowhere = os.open(os.devnull, os.O_WRONLY)
    os.dup2(nowhere, number)
    os.close(nowhere)


def ended(call: Callable[[], int], statuses: Mapping[Type[Exception], int]) -> int:
    """Runs a program, and returns its status: of a fault the one given for its kind, else 5 with
    the place in the program.
    """
    try:
        return call()
    except KeyboardInterrupt:
        return 130
    except Exception as fault:
        found = next((it for kind, it in statuses.items() if isinstance(fault, kind)), 5)
        tell(traceback.format_exc() if found == 5 else fault)
        return found


def patiently(call: Callable[[], Found], news: Callable[[str], None] = tell) -> Found:
    """Repeats a call until it succeeds. A full disk, a file that can't be read and the like are
    reported and waited out.
    """
    since = None
    while True:
        try:
            return call()
        except Exception as fault:
            if since is None or time.monotonic() - since >= NEWS_OF_A_FAULT:
                since = time.monotonic()
                news(
                    f"{fault or repr(fault)}. It is tried again every"
                    f" {PAUSE_OF_A_FAULT:.0f} seconds until that is mended"
                )
            time.sleep(PAUSE_OF_A_FAULT)
