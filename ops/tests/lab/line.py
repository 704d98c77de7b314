"""A line: a desk that is served, with its sealed files, and the tools' words for it."""
import collections
import csv
import io
import pathlib
from typing import Any, Callable, Iterable, Mapping, Optional

from lab import messages
from lab.desk import Desk, rows_of
from lab.programs import others_of
from lab.tools import Ended, Word, run, run_tool, tool
from tracedesk_ops import around, catalogue, lineage, sealed
from tracedesk_ops.line import LineFolder

OWN_COMMANDS = """SELECT uid FROM accepted WHERE source <> 'tracedesk' AND number >
    (SELECT coalesce(max(number), 0) FROM accepted WHERE uid LIKE 'begin-%')"""


class Line(Desk):
    """A line in a folder, which may be that of other lines; `desk` is the name of its file."""

    def __init__(
        self,
        program: pathlib.Path,
        folder: pathlib.Path,
        name: str = "L1",
        desk: str = "desk",
        port: int = 0,
    ) -> None:
        super().__init__(program, folder / desk, port)
        self.folder, self.name = folder, name
        self.archive = folder / "sealed"

    # --- The tools

    def service(self, program: Optional[pathlib.Path] = None) -> list[Word]:
        """The words of a tool that stops and starts the service."""
        return [
            *("--program", program or self.program, "--port", self.port),
            *("--stop", self.stop_command, "--start", self.start_script),
        ]

    def ops(self, name: str, *more: Word) -> list[Word]:
        return [tool("ops"), name, self.folder, "--program", self.program, *more]

    def rollover_words(self, *more: Word, program: Optional[pathlib.Path] = None) -> list[Word]:
        return [tool("ops"), "rollover", self.folder, *self.service(program), *more]

    def rollover(self, *more: Word, program: Optional[pathlib.Path] = None, **how: Any) -> Ended:
        """Calls tracedesk-ops rollover; `how` are the last arguments of `call`."""
        return self.call(self.rollover_words(*more, program=program), program, **how)

    def seal(self, **how: Any) -> Ended:
        return self.call(self.ops("seal"), **how)

    def restore(self, *more: Word, **how: Any) -> Ended:
        """Restores a sealed file while the service is stopped."""
        with self.stopped():
            return self.call(self.ops("restore", *more), **how)

    def call(
        self,
        words: list[Word],
        program: Optional[pathlib.Path] = None,
        env: Optional[Mapping[str, str]] = None,
    ) -> Ended:
        """Calls a tool."""
        return run(words, env={**(others_of(program) if program else {}), **(env or {})})

    def recall_words(self) -> list[Word]:
        return ["--line", self.name, self.folder]

    def recall(self, *more: Word, lot: str = "L1") -> Ended:
        """Recalls a lot over the archives and the running desk."""
        return run_tool("recall", "lot", lot, *self.recall_words(), *more)

    # --- What is there

    def archives(self) -> list[catalogue.Archive]:
        """The archives, the oldest first."""
        return around.survey(LineFolder(self.folder), sealed.named).archives

    def newest(self) -> pathlib.Path:
        """The newest sealed file."""
        return lineage.of(LineFolder(self.folder)).chain[-1].path

    def files(self) -> list[pathlib.Path]:
        """The files of all archives, and of the running desk."""
        return [*(it.path for it in self.archives()), self.file]

    def uids(self) -> "collections.Counter[str]":
        """The UniqueIDs of all commands that no roll-over made, and how many desks have each."""
        return sum(map(self.uids_of, self.files()), collections.Counter())

    def uids_of(self, file: pathlib.Path) -> "collections.Counter[str]":
        return collections.Counter(uid for (uid,) in rows_of(file, OWN_COMMANDS))

    def lawful_now(self) -> int:
        """How many commands the desk has that is served."""
        with self.stopped():
            return self.lawful()

    def expect_tidy(self, *also: str, answers: bool = True) -> None:
        """Whenever no tool is on its way nothing else lies in the folder, and the desk answers."""
        own = {self.archive.name, "lost", *also}
        own |= {f"{self.file.name}{tail}" for tail in ("", "-wal", "-start", "-pid")}
        others = {path.name for path in self.folder.iterdir()} - own
        assert not others, f"there are also {others}"
        assert not answers or self.answers(), "the desk does not answer"

    def more(self, *names: str) -> None:
        """Says a command of each of these names, which the desk accepts."""
        self.accept(*(messages.part(name, self.time) for name in names))


NewLine = Callable[..., Line]  # the fixture `new_line`


def begin(line: Line, lines: Iterable[bytes]) -> Line:
    """Makes a line's desk of these messages, and serves it."""
    line.feed(lines)
    line.serve()
    return line


def table(text: str) -> list[dict[str, str]]:
    """The rows of a CSV text, by the names of its columns."""
    return list(csv.DictReader(io.StringIO(text)))
