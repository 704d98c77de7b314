"""What tests and measurements share: tools as modules, subcommands, a run of `serve`, and the rows
of a file.
"""
import argparse
import contextlib
import http.client
import importlib.machinery
import os
import pathlib
import shutil
import socket
import sqlite3
import subprocess
import sys
import time
import types
from typing import Any, Iterator, Sequence

from tracedesk_dev.ports import lent

ROOT = pathlib.Path(__file__).resolve().parents[2]
MEMORY = "/dev/shm"


class Difference(Exception):
    """What is not as it has to be."""


def wanting(wanted: dict[str, str]) -> list[str]:
    """The packages of Debian that are not here, of those that bring these commands."""
    path = os.environ["PATH"] + ":/usr/sbin"
    return [
        package for command, package in wanted.items() if shutil.which(command, path=path) is None
    ]


def loaded(path: str) -> types.ModuleType:
    """A tool of the repository as a module, by its path from the top."""
    name = pathlib.Path(path).name.replace("-", "_")
    loader = importlib.machinery.SourceFileLoader(name, str(ROOT / path))
    module = types.ModuleType(name)
    module.__file__ = str(ROOT / path)
    loader.exec_module(module)
    return module


def reader_of(about: str | None) -> argparse.ArgumentParser:
    """Reads the arguments of a tool whose docstring is its help."""
    return argparse.ArgumentParser(
        description=about,
        formatter_class=argparse.RawDescriptionHelpFormatter,
        usage=argparse.SUPPRESS,
    )


def subcommand(about: str | None, names: Sequence[str]) -> int:
    """Runs the module of that name in the tool's folder: its `words` adds arguments, its `main`
    gets them and returns the status.
    """
    reader = reader_of(about)
    if sys.argv[1:2] and sys.argv[1] in names:
        module = importlib.import_module(sys.argv[1])
        reader = reader_of(module.__doc__)
        module.words(reader)
        return int(module.main(reader.parse_args(sys.argv[2:]), reader) or 0)
    reader.add_argument("what", choices=names, help=argparse.SUPPRESS)
    reader.parse_args(sys.argv[1:2])
    return 2


def in_memory() -> str | None:
    """A folder in memory, where it has a GiB of room: a disk would keep each of a million
    writes.
    """
    has_room = os.access(MEMORY, os.W_OK) and shutil.disk_usage(MEMORY).free > 2**30
    return MEMORY if has_room else None


def remove(file: object) -> None:
    """Removes a desk's file with all that may lie next to it."""
    for more in ("", "-wal", "-shm", "-journal", ".copy"):
        pathlib.Path(f"{file}{more}").unlink(missing_ok=True)


def rows_in(database: sqlite3.Connection) -> dict[str, list[Any]]:
    """All rows of all tables."""
    names = [
        name
        for (name,) in database.execute(
            "SELECT name FROM sqlite_schema WHERE type = 'table' AND name NOT LIKE 'sqlite\\_%'"
            " ESCAPE '\\'"
        )
    ]
    return {name: sorted(database.execute(f"SELECT * FROM {name}")) for name in names}


@contextlib.contextmanager
def served(
    program: str, file: object, patience: float = 300
) -> Iterator[tuple[subprocess.Popen[bytes], http.client.HTTPConnection]]:
    """A run of `serve` for one connection, and that connection; the caller closes it, and then the
    run ends.
    """
    with lent() as port:
        process = subprocess.Popen(
            [program, "serve", "--db", str(file), "--port", str(port), "--connections", "1"],
            stdin=subprocess.DEVNULL,
            stdout=subprocess.DEVNULL,
        )
        connection = http.client.HTTPConnection("127.0.0.1", port, timeout=patience)
        try:
            while connection.sock is None:
                if process.poll() is not None:
                    sys.exit(f"serve ended with status {process.returncode}")
                with contextlib.suppress(ConnectionRefusedError):
                    connection.connect()
                time.sleep(0.0005)
            connection.sock.setsockopt(socket.IPPROTO_TCP, socket.TCP_NODELAY, 1)
            yield process, connection
            connection.close()
            process.wait(patience)
        finally:
            process.kill()
            process.wait()


def memory_of(process: subprocess.Popen[bytes], name: str) -> int:
    """The memory of a run in bytes: VmRSS, what it has, or VmHWM, the most that it had."""
    status = pathlib.Path(f"/proc/{process.pid}/status").read_text()
    return 1_024 * next(
        int(line.split()[1]) for line in status.splitlines() if line.startswith(f"{name}:")
    )
