"""The fixtures of the tests of ops/. The conftest.py at the top has the options, markers and
programs."""
import pathlib
import tempfile
from typing import Iterator

import pytest

pytest.register_assert_rewrite("lab")

from lab import databases, installed as installations, line as lines  # noqa: E402
from lab import messages, small, world as worlds  # noqa: E402
from lab.checked import Checked  # noqa: E402
from lab.databases import Database  # noqa: E402
from lab.desk import Desk  # noqa: E402
from lab.installed import Installed  # noqa: E402
from lab.line import Line, NewLine  # noqa: E402
from lab.machine import Machine  # noqa: E402
from lab.shifted import Shifted  # noqa: E402
from lab.world import World  # noqa: E402
from tracedesk_dev import postgres  # noqa: E402


@pytest.fixture
def folder() -> Iterator[pathlib.Path]:
    """A folder of the test's own, which root's tools and other users can reach, and whose name is
    short."""
    with tempfile.TemporaryDirectory(prefix="ops-") as name:
        pathlib.Path(name).chmod(0o755)
        yield pathlib.Path(name)


@pytest.fixture
def desk(program: pathlib.Path, folder: pathlib.Path) -> Iterator[Desk]:
    """A desk that has nothing and isn't served yet; it is ended afterwards."""
    made = Desk(program, folder / "desk")
    try:
        yield made
    finally:
        made.end()


@pytest.fixture
def checked(program: pathlib.Path, folder: pathlib.Path) -> Checked:
    """A desk's file with a row in each table, to which something may be done."""
    return Checked(program, folder)


@pytest.fixture
def new_line(program: pathlib.Path, folder: pathlib.Path) -> Iterator[NewLine]:
    """Makes lines that are served, and ended afterwards: `new_line(folder, name, desk, messages)`.
    Without a folder it is the test's; without messages they are those of the first line, with
    UniqueIDs of the line's own."""
    made: list[Line] = []

    def new(
        at: "pathlib.Path | None" = None,
        name: str = "L1",
        desk: str = "desk",
        said: "list[bytes] | None" = None,
    ) -> Line:
        line = Line(program, at or folder / "line", name, desk)
        made.append(line)
        return lines.begin(line, messages.first_line(name) if said is None else said)

    try:
        yield new
    finally:
        for line in made:
            line.end()


@pytest.fixture
def line(new_line: NewLine) -> Line:
    """Line L1, served, whose reel K1 of lot L1 is on slot 1 of machine M."""
    return new_line()


@pytest.fixture(scope="module")
def small_line(program: pathlib.Path, tmp_path_factory: pytest.TempPathFactory) -> Iterator[Line]:
    """The small line of lab/small.py, served. Tests of a module leave it as it is."""
    made = Line(program, tmp_path_factory.mktemp("small") / "line")
    made.feed([])
    made.serve()
    try:
        small.begin(made)
        yield made
    finally:
        made.end()


@pytest.fixture(scope="session")
def shifted(program: pathlib.Path) -> Iterator[Shifted]:
    """The messages of a shift, and what one desk makes of them."""
    with tempfile.TemporaryDirectory(prefix="ops-") as name:
        yield Shifted(program, pathlib.Path(name))


@pytest.fixture
def half(shifted: Shifted, folder: pathlib.Path) -> Iterator[Line]:
    """Line L1, served, which has taken the first half of a shift; no board is in work."""
    line = shifted.copy(folder / "half")
    line.serve()
    try:
        yield line
    finally:
        line.end()


@pytest.fixture(scope="session")
def world(program: pathlib.Path) -> Iterator[World]:
    """Two lines with archives, both served. Tests leave them as they are."""
    with tempfile.TemporaryDirectory(prefix="ops-") as name:
        made = worlds.World(program, pathlib.Path(name))
        try:
            yield made
        finally:
            made.end()


@pytest.fixture(scope="module")
def server() -> Iterator[postgres.Server]:
    databases.skip_without()
    with databases.server() as made:
        yield made


@pytest.fixture
def database(server: postgres.Server) -> Iterator[Database]:
    """A new one, with the tables of a plant."""
    made = databases.create(server, "plant_of_a_test")
    yield made
    drop = f"DROP DATABASE {made.name} WITH (FORCE)"
    Database(server, "postgres").psql("-c", drop)


@pytest.fixture
def site(program: pathlib.Path) -> "Iterator[object]":
    """A desk behind the packaged nginx, with a folder of the watch: a lab.site.Site."""
    from lab.site import Site

    with Site(str(program)) as made:
        yield made


@pytest.fixture(scope="session")
def installed(program: pathlib.Path) -> Iterator[Installed]:
    """The packages on a fresh Debian 12, on which all commands of docs/operations-*.md were run."""
    with installations.installed(program) as made:
        yield made


@pytest.fixture(scope="session")
def machine(installed: Installed) -> Machine:
    """That Debian, and a client beside it."""
    return installed.machine
