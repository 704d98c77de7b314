"""A desk's file to which something was done, and what a check says of that."""
import os
import pathlib
import shutil
from typing import Callable

from lab import ROOT
from lab.desk import Desk, change
from lab.programs import auditor
from tracedesk_ops import check, plant

MESSAGES = ROOT / "cases/tables_that_were_altered/messages.jsonl"  # each table has a row


class Checked:
    """A desk's file in a folder of its own. `whole` is the same file, to which nothing was done."""

    def __init__(self, program: pathlib.Path, folder: pathlib.Path) -> None:
        self.program, self.folder = program, folder
        self.file = folder / "case/desk"
        desk = Desk(program, folder / "whole")
        desk.feed(MESSAGES.read_bytes().splitlines())
        self.whole = desk.file.read_bytes()
        self.new()

    @property
    def log(self) -> pathlib.Path:
        return self.file.with_name(f"{self.file.name}-wal")

    def new(self, content: "bytes | None" = None) -> None:
        """Makes the file anew, of these bytes if any."""
        shutil.rmtree(self.file.parent, ignore_errors=True)
        self.file.parent.mkdir()
        self.file.write_bytes(self.whole if content is None else content)

    def do(self, sql: str) -> None:
        """Does these statements to the desk."""
        self.new()
        change(self.file, sql)

    def held(self) -> dict[pathlib.Path, tuple[int, bytes]]:
        """All that lies next to the file, and its bytes."""
        return {
            path: (os.lstat(path).st_mode, path.read_bytes() if path.is_file() else b"")
            for path in self.file.parent.rglob("*")
        }

    def check(self) -> list[str]:
        """Why the program can't run over the file; the tool works as the owner of its folder."""

        def asked() -> list[str]:
            with plant.as_owner(self.file):
                return check.hindrances(self.file, auditor(self.program, self.file).audit)

        return self.unchanged(asked)

    def unchanged(self, call: Callable[[], list[str]]) -> list[str]:
        """What a check says; nothing in the file's folder may be another afterwards."""
        was = self.held()
        said = call()
        assert self.held() == was, f"the file, its log or its folder was changed: {said}"
        return said

    def expect(self, *texts: str) -> None:
        """A check that says these texts, or nothing."""
        said = self.check()
        assert bool(said) == bool(texts), said
        for text in texts:
            assert text in "\n".join(said), said
