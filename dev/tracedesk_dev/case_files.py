"""The files of a case of cases/, and how its texts stand for bytes."""
import contextlib
import json
import os
import pathlib
import subprocess
import sys
import tempfile
from typing import Any, Callable, Iterable, Iterator

from tracedesk_dev import ROOT
from tracedesk_dev.trial import Difference

CASES = ROOT / "cases"
Step = dict[str, Any]
BytesOf = Callable[["str | None"], bytes]  # of a file of the case, by its name; of none, none


def object_line(members: object) -> bytes:
    """A JSON object as a line, compact, its members in the order of the case."""
    return (json.dumps(members, separators=(",", ":")) + "\n").encode()


def bytes_of_text(text: str) -> bytes:
    """The bytes of a text; the characters U+DC80 to U+DCFF stand for the single bytes 80 to FF."""
    return text.encode("utf-8", "surrogateescape")


def make(folder: pathlib.Path, made: pathlib.Path) -> None:
    """Lets the case's script write its files, if it has one."""
    if not (folder / "make.py").exists():
        return
    environment = {**os.environ, "PYTHONPATH": str(CASES), "PYTHONDONTWRITEBYTECODE": "1"}
    done = subprocess.run(
        [sys.executable, str(folder / "make.py")],
        cwd=made,
        env=environment,
        stdin=subprocess.DEVNULL,
        stdout=subprocess.PIPE,
        stderr=subprocess.STDOUT,
    )
    if done.returncode:
        said = done.stdout.decode("utf-8", "replace").rstrip()
        raise Difference(f"make.py: {said.rpartition(chr(10))[2]}")


@contextlib.contextmanager
def opened(folder: pathlib.Path) -> Iterator[tuple[dict[str, Any], BytesOf]]:
    """A case, and a call that gives the bytes of a file of it, which its script may have made."""
    with tempfile.TemporaryDirectory(prefix="case-") as room:
        made = pathlib.Path(room)
        make(folder, made)

        def bytes_of(name: str | None) -> bytes:
            if name is None:
                return b""
            file = made / name
            return (file if file.exists() else folder / name).read_bytes()

        yield json.loads((folder / "case.json").read_text(encoding="utf-8")), bytes_of


def folders(names: Iterable[str] = ()) -> list[pathlib.Path]:
    """The folders of all cases, or of these."""
    found = sorted(file.parent for file in CASES.glob("*/case.json"))
    return [folder for folder in found if not names or folder.name in names]
