"""Servers of PostgreSQL in folders of their own, and databases of them that are asked by psql."""
from __future__ import annotations

import contextlib
import dataclasses
import pathlib
import tempfile
from typing import Iterator, NamedTuple

import pytest
from lab.line import table
from lab.tools import Ended, Word, run, run_tool
from tracedesk_dev import packages, postgres

SQL = postgres.SQL
PASSWORD = "of a plant"


def skip_without() -> None:
    """Skips the test if there is no PostgreSQL."""
    if why := packages.lacking("initdb", "psql", "python:psycopg"):
        pytest.skip(why)


@contextlib.contextmanager
def server() -> Iterator[postgres.Server]:
    """A server that runs; it ends with its folder, also if it was stopped meanwhile."""
    with tempfile.TemporaryDirectory(prefix="plant-") as folder:
        with contextlib.ExitStack() as kept:
            its = postgres.Server(pathlib.Path(folder))
            its.__enter__()
            kept.callback(stop, its)
            yield its


def stop(its: postgres.Server) -> None:
    """Ends a server at once, unless it has ended."""
    if (its.data / "postmaster.pid").exists():
        its.run("pg_ctl", "-D", str(its.data), "-m", "immediate", "-w", "stop")


def variables(values: dict[str, object]) -> list[Word]:
    """The words by which psql gets these variables."""
    return [word for name, value in values.items() for word in ("-v", f"{name}={value}")]


class Queried(NamedTuple):
    """What a query prints, and what it says on standard error."""

    rows: list[dict[str, str]]
    said: str


@dataclasses.dataclass(frozen=True)
class Database:
    """A database of a server."""

    server: postgres.Server
    name: str

    @property
    def environment(self) -> dict[str, str]:
        """By which psql and the tools find it."""
        return {
            "PGHOST": str(self.server.folder),
            "PGDATABASE": self.name,
            "PGUSER": "plant",
            "PGCLIENTENCODING": "UTF8",
            "PLANT_PASSWORD": PASSWORD,
            "ROLE_PASSWORD": PASSWORD,
        }

    def psql(self, *words: Word, status: int = 0) -> Ended:
        """Calls psql, which has to end with this status."""
        its: list[Word] = ["psql", "-X", "-q", "-v", "ON_ERROR_STOP=1", *words]
        return run(its, env=self.environment).expect(status)

    def told(self, statement: str) -> str:
        """What psql prints of a statement, without a header."""
        return self.psql("-At", "-c", statement).out

    def change(self, statement: str) -> None:
        self.psql("-c", f"SET search_path TO plant; {statement}")

    def rows(self, query: str) -> list[tuple[str, ...]]:
        told = self.psql("--csv", "-c", f"SET search_path TO plant; {query}").out
        return [tuple(row.values()) for row in table(told)]

    def query(self, name: str, status: int = 0, /, **values: object) -> Queried:
        """Runs a query of the package as a reader does."""
        words = ["psql", "-X", "--csv", *variables(values), "-f", SQL / f"{name}.sql"]
        done = run(words, env=self.environment).expect(status)
        return Queried(table(done.out), done.err)

    def make_role(self, name: str) -> None:
        """Makes a role that reads the tables, with PASSWORD."""
        self.psql("-v", f"role={name}", "-f", SQL / "reader.sql")

    def add(self, plant: Database) -> None:
        """Adds a plant to those that this database asks, by the role `recall`."""
        its = {"host": plant.server.folder, "dbname": plant.name, "user": "recall"}
        self.psql(*variables(its), "-f", SQL / "add.sql")

    def load(self, *words: Word, status: int = 0, **environment: str) -> str:
        """Calls tracedesk-plant-load, and returns what it says."""
        env = {**self.environment, **environment}
        return run_tool("plant-load", *words, env=env).expect(status).said

    def refuse(self, said: str, *words: Word) -> str:
        """Calls it with what it doesn't take."""
        told = self.load(*words, status=1)
        assert said in told
        return told


def create(server: postgres.Server, name: str, schema: str = "schema", more: str = "") -> Database:
    """A new database, with the tables of the plant or none."""
    Database(server, "postgres").psql("-c", f"CREATE DATABASE {name} {more}")
    made = Database(server, name)
    if schema:  # files of tests are of other days
        made.psql("-f", SQL / f"{schema}.sql")
        made.change("ALTER TABLE line ALTER oldest SET DEFAULT '100 years'")
    return made
