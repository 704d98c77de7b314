"""The places of a line: each is named once, and every tool has it from there."""
from __future__ import annotations

import pathlib
from collections.abc import Callable, Iterator

import pytest

from tracedesk_ops import places

SetUp = Callable[..., None]


@pytest.fixture
def set_up(tmp_path: pathlib.Path, monkeypatch: pytest.MonkeyPatch) -> Iterator[SetUp]:
    """Writes a set-up file of these words, which no later test finds."""
    monkeypatch.setattr(places, "FOLDER", tmp_path)
    places.files.cache_clear()

    def write(name: str, **words: object) -> None:
        text = "".join(f"{word} = {value}\n" for word, value in words.items())
        (tmp_path / f"{name}.conf").write_text(text, encoding="utf-8")

    yield write
    places.files.cache_clear()


def test_a_line_alone_has_the_places_of_the_package(set_up: SetUp) -> None:
    set_up("L1", line="L1")
    set_up("certificates", subject="sender")
    (its,) = places.lines()
    home = pathlib.Path("/var/lib/tracedesk")
    assert its.db == home / "desk" and its.url == "http://127.0.0.1:8080"


def test_all_places_are_next_to_the_desk(set_up: SetUp) -> None:
    set_up("L2", line="L2", db="/srv/l2/desk", port=8090)
    (its,) = places.lines()
    assert its.url == "http://127.0.0.1:8090"


def test_a_line_that_is_a_folder_has_its_places_there(
    set_up: SetUp, tmp_path: pathlib.Path, monkeypatch: pytest.MonkeyPatch
) -> None:
    monkeypatch.setattr(places, "HOME", tmp_path / "home")
    for name, port in (("L1", 8081), ("L2", 8082)):
        (tmp_path / "home" / name / "sealed").mkdir(parents=True)
        set_up(name, line=name, port=port)
    for its in places.lines():
        folder = tmp_path / "home" / its.line
        assert its.db == folder / "desk"


def test_a_line_that_this_user_may_not_look_into_stops_no_other(
    set_up: SetUp, tmp_path: pathlib.Path, monkeypatch: pytest.MonkeyPatch
) -> None:
    home, is_dir = tmp_path / "home", pathlib.Path.is_dir

    def refused(path: pathlib.Path) -> bool:
        if home in path.parents:
            raise PermissionError(13, "Permission denied", str(path))
        return is_dir(path)

    monkeypatch.setattr(places, "HOME", home)
    monkeypatch.setattr(pathlib.Path, "is_dir", refused)
    set_up("L1", line="L1", port=8081)
    set_up("L2", line="L2", db="/srv/l2/desk", port=8082)
    set_up("L3", line="L3")
    first, other, packages = places.lines()
    assert (first.db, other.db) == (home / "L1" / "desk", pathlib.Path("/srv/l2/desk"))
    assert (packages.db, packages.port) == (places.DESK, 8080)


@pytest.mark.parametrize(
    "text, wrong",
    [
        (b"line = L2\ninbx = /srv/x\n", "inbx is none of"),
        (b"line = L2\ninbox = /srv/x\n", "inbox is none of"),
        (b"line = L2\nurl = http://x\n", "url is none of"),
        (b"line = L2\nport = http\n", "port is none of"),
        (b"line = L2\ndb = x/desk\n", "db is none of .* no whole path"),
        (b"line = L2\ndb = /desk\n", "in a folder of the line's own"),
        (b"line = L2\ndb = /srv/l2\n", "in a folder of the line's own"),
        (b"", "names no line"),
        (b"port = 8082\n", "names no line"),
        (b"line = L\xff\n", "can't be read"),
        (b"line = L2\nline = L3\n", "is there twice"),
        (b"line = L1\ndb = /srv/desk\n", "have line = L1"),
        (b"line = L2\n", "have db = /var/lib/tracedesk/desk"),
        (b"line = L2\nmirror = /srv/l2\nport = 8082\n", "names the mirror, and no more"),
        (b"line = L1\nmirror = /srv/l1\n", "have line = L1"),
        # else what is told one of them would be told the other
        (b"line = L2\ndb = /srv/desk\nport = 8080\n", "have port = 8080"),
    ],
)
def test_a_wrong_file_is_named_and_what_is_wrong(
    set_up: SetUp, tmp_path: pathlib.Path, text: bytes, wrong: str
) -> None:
    set_up("L1", line="L1")
    (tmp_path / "L2.conf").write_bytes(text)
    with pytest.raises(places.NotSetUp, match=wrong):
        places.lines()


def test_a_mirror_is_no_line_of_this_machine(set_up: SetUp) -> None:
    set_up("L1", line="L1")
    set_up("L2", line="L2", mirror="/srv/l2")
    assert [its.line for its in places.lines()] == ["L1"]
    assert places.folders() == [("L1", places.HOME), ("L2", pathlib.Path("/srv/l2"))]


def test_the_port_of_the_packages_desk_is_no_other_lines(set_up: SetUp) -> None:
    """That desk may have no set-up file."""
    set_up("L2", line="L2", db="/srv/desk")
    with pytest.raises(places.NotSetUp, match="L2 names no port"):
        places.lines()
