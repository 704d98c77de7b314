"""A PostgreSQL of its own folder, for the tests of the plant's tables, and what psql prints.

    with postgres.Server(folder):
        postgres.asked("-f", "ops/plant/schema.sql")

It is reached by a socket in the folder and by no port. As root it runs as the user postgres, which
Debian's package postgresql makes.
"""
import os
import pathlib
import shutil
import subprocess
from typing import Any

from tracedesk_dev import program

PLACE, VERSION = pathlib.Path("/usr/lib/postgresql"), "15"
SQL = program.ROOT / "ops/plant"
PATIENCE = "600"  # seconds that a start or a stop may take on a busy machine


class Fault(Exception):
    """What PostgreSQL said."""


def found(name: str) -> str | None:
    """A command of PostgreSQL, or none: of Debian's, for which dev/packages.txt has an extension,
    and else of another one that is here.
    """
    its = sorted(PLACE.glob(f"*/bin/{name}"), key=lambda it: (it.parts[4] == VERSION, it))
    return str(its[-1]) if its else shutil.which(name)


def is_here() -> bool:
    return bool(found("initdb")) and shutil.which("psql") is not None


class Server:
    """`options` are settings of the server, as {"fsync": "off"}."""

    def __init__(self, folder: pathlib.Path, **options: str) -> None:
        self.folder, self.data = folder, folder / "data"
        self.user = ["runuser", "-u", "postgres", "--"] if os.geteuid() == 0 else []
        folder.chmod(0o755)
        if self.user:
            shutil.chown(folder, "postgres")
        self.options = {"listen_addresses": "''", "unix_socket_directories": f"'{folder}'"}
        self.options |= {"fsync": "off", **options}
        names = {"PGHOST": str(folder), "PGDATABASE": "postgres", "PGUSER": "plant"}
        os.environ.update(names, PGCLIENTENCODING="UTF8")

    def run(self, name: str, *words: str) -> None:
        command = found(name)
        if command is None:
            program.stop(f"there is no {name}: apt-get install postgresql")
        done = subprocess.run(
            [*self.user, command, *words], cwd=self.folder, capture_output=True, text=True
        )
        if done.returncode:
            raise Fault(f"{name}: {done.stdout}{done.stderr}")

    def start(self) -> None:
        options = " ".join(f"-c {name}={value}" for name, value in self.options.items())
        where = ("-D", str(self.data), "-l", str(self.folder / "log"))
        self.run("pg_ctl", *where, "-w", "-t", PATIENCE, "-o", options, "start")

    def stop(self) -> None:
        self.run("pg_ctl", "-D", str(self.data), "-m", "fast", "-w", "-t", PATIENCE, "stop")

    def copy(self, name: str, to: str) -> None:
        """Copies the folder of the data, or back, with its owner; the server has stopped."""
        subprocess.run(["rm", "-rf", self.folder / to], check=True)
        subprocess.run(["cp", "-a", self.folder / name, self.folder / to], check=True)

    def __enter__(self) -> "Server":
        self.run("initdb", "-D", str(self.data), *"-U plant -A trust -E UTF8 --locale=C".split())
        self.start()
        return self

    def __exit__(self, *_: object) -> None:
        self.stop()


def asked(*words: object, status: int = 0) -> Any:
    """What psql prints, on standard output and on standard error; it has to end with this
    status.
    """
    called = ["psql", "-X", "-q", "-v", "ON_ERROR_STOP=1", *map(str, words)]
    done = subprocess.run(called, capture_output=True, text=True)
    if done.returncode != status:
        raise Fault(f"{' '.join(called)} ended with status {done.returncode}: {done.stderr}")
    return done.stdout if status == 0 else (done.stdout, done.stderr)
