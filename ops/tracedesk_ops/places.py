"""The lines of this machine, each by its set-up file /etc/tracedesk/LINE.conf:

    line = L1
    port = 8081

A line is the folder of its desk, and all of its places are in it: /var/lib/tracedesk/LINE, or
/var/lib/tracedesk itself for the package's own service, or that of the desk that `db` names. Of a
line on another computer a file may name a mirror:

    line = L2
    mirror = /srv/mirror/L2
"""
from __future__ import annotations

import configparser
import dataclasses
import functools
import os
import pathlib

Path = pathlib.Path

FOLDER = Path(os.environ.get("TRACEDESK_SET_UP", "/etc/tracedesk"))
PROXYS = "certificates.conf"  # it is there too: packaging/nginx.conf
HOME = Path("/var/lib/tracedesk")
DESK, PORT = HOME / "desk", 8080
WORDS = "line db port stop start key mirror".split()
PATHS = ("db", "key", "mirror")
SECTION = "line"  # configparser wants one, and set-up files have none


class NotSetUp(Exception):
    """What is wrong with the set-up files; the text says what to do."""


@dataclasses.dataclass(frozen=True)
class Places:
    """Where a line is. `stop`, `start` and `key` are empty if the set-up file doesn't name them."""

    line: str
    db: Path
    port: int
    stop: str = ""
    start: str = ""
    key: str = ""  # the private key of ssh-keygen by which the evidence of a recall is signed

    @property
    def url(self) -> str:
        return f"http://127.0.0.1:{self.port}"

    def words(self) -> dict[str, str]:
        """The words of the set-up file, and what follows from them."""
        names = [*(its.name for its in dataclasses.fields(self)), "url"]
        words = {name: str(getattr(self, name)) for name in names}
        return {name: value for name, value in words.items() if value}


def of_words(words: dict[str, str]) -> Places:
    """The places that a set-up file of these words names."""
    return Places(
        line=words.get("line", ""),
        db=Path(words.get("db", desk_of(words))),
        port=int(words.get("port", PORT)),
        stop=words.get("stop", ""),
        start=words.get("start", ""),
        key=words.get("key", ""),
    )


def desk_of(words: dict[str, str]) -> Path:
    """The desk of a line, if nobody says: in the line's folder, or the package's one. For a user
    who may not look there, a line is a folder if it has a port: each folder of a line has its own.
    """
    folder = HOME / words.get("line", "")
    is_line = folder != HOME and is_folder(folder, "port" in words)
    return folder / DESK.name if is_line else DESK


def is_folder(path: Path, unseen: bool = True) -> bool:
    """Whether a folder is there; `unseen` says it for a user who may not look."""
    try:
        return path.is_dir()
    except PermissionError:
        return unseen


def lines() -> list[Places]:
    """The lines that are set up on this machine; a NotSetUp if a file is wrong, or two name one
    desk or one port. Port 8080 is that of the package's own desk.
    """
    those = [words for words in files() if "mirror" not in words]
    found = [of_words(words) for words in those]
    want_no_two("db", [str(its.db) for its in found])
    want_no_two("port", [str(its.port) for its in found])
    for its, words in zip(found, those):
        if "port" not in words and its.db != DESK:
            raise NotSetUp(
                f"{FOLDER}: {its.line} names no port, and {PORT} is that of {DESK}: write port = N"
                " into its file"
            )
    return found


def mirrors() -> list[tuple[str, Path]]:
    """The lines on other computers that have a mirror here, and its folder."""
    return [(words["line"], Path(words["mirror"])) for words in files() if "mirror" in words]


def folders() -> list[tuple[str, Path]]:
    """The lines of this machine and those on others, each with its folder."""
    return [*((its.line, its.db.parent) for its in lines()), *mirrors()]


@functools.cache
def files() -> list[dict[str, str]]:
    """The words of each set-up file, in the order of their names. They are read once: a tool that
    works as the desk's owner may not read them any more.
    """
    paths = sorted(path for path in FOLDER.glob("*.conf") if path.name != PROXYS)
    found = [words_in(path) for path in paths]
    want_no_two("line", [words["line"] for words in found])
    return found


def want_no_two(name: str, values: list[str]) -> None:
    if twice := sorted({value for value in values if values.count(value) > 1}):
        raise NotSetUp(
            f"two files of {FOLDER} have {name} = {', '.join(twice)}: take one of them away, "
            "or name another place in it"
        )


def words_in(path: Path) -> dict[str, str]:
    """The words of a set-up file."""
    reader = configparser.RawConfigParser(delimiters="=", comment_prefixes="#")
    try:
        rows = [row.strip() for row in path.read_text(encoding="utf-8-sig").splitlines()]
        reader.read_string("\n".join([f"[{SECTION}]", *rows]))
    except (OSError, UnicodeDecodeError) as fault:
        raise NotSetUp(f"{path} can't be read: {fault}") from fault
    except configparser.DuplicateOptionError as fault:
        raise NotSetUp(f"{path}: {fault.option} is there twice: keep one of them") from fault
    except configparser.Error as fault:
        raise NotSetUp(f"{path}: each row is WORD = VALUE, or begins with #: {fault}") from fault
    if reader.sections() != [SECTION]:
        raise NotSetUp(
            f"{path}: {reader.sections()[-1]} is in brackets: a set-up file has no parts"
        )
    words = dict(reader[SECTION])
    if wrong := [name for name in words if not is_word(name, words[name])]:
        raise NotSetUp(
            f"{path}: {', '.join(wrong)} is none of {', '.join(WORDS)}, has no value, is no whole "
            "path, or is a db other than /FOLDER/desk in a folder of the line's own"
        )
    if "mirror" in words and words.keys() - {"line", "mirror"}:
        raise NotSetUp(f"{path}: of a line on another computer it names the mirror, and no more")
    if "line" not in words:
        raise NotSetUp(f"{path} names no line: write line = LINE into it, or take it away")
    return words


def is_word(name: str, value: str) -> bool:
    if name == "port" and not value.isdecimal():
        return False
    if name == "db" and not is_in_a_folder(Path(value)):
        return False
    return name in WORDS and value != "" and (name not in PATHS or value.startswith("/"))


def is_in_a_folder(db: Path) -> bool:
    """Whether a desk has a folder that can be its line's."""
    return db.name == DESK.name and db.parent.name != ""
