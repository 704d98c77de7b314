"""A file is replaced whole, also if calls of several tools meet; and a copy is made equal to it."""
from __future__ import annotations

import os
import pathlib
import random
import time

import pytest

from tracedesk_ops import files


def test_two_writers_of_one_file_do_not_disturb_each_other(
    tmp_path: pathlib.Path, monkeypatch: pytest.MonkeyPatch
) -> None:
    """The second writer does all its work just before the first one renames its file."""
    path, replace = tmp_path / "untraced.json", os.replace

    def replace_late(unfinished: pathlib.Path, to: pathlib.Path) -> None:
        monkeypatch.setattr(os, "replace", replace)
        files.put(path, "second\n")
        assert path.read_text() == "second\n"
        replace(unfinished, to)

    monkeypatch.setattr(os, "replace", replace_late)
    files.put(path, "first\n")
    assert path.read_text() == "first\n"
    assert list(tmp_path.iterdir()) == [path]


@pytest.mark.parametrize("fault", [OSError, KeyboardInterrupt])
def test_a_file_stays_as_it_was_if_its_replacement_fails(
    tmp_path: pathlib.Path, monkeypatch: pytest.MonkeyPatch, fault: type[BaseException]
) -> None:
    path = tmp_path / "file"
    path.write_text("before\n")

    def fails(_: int) -> None:
        raise fault

    monkeypatch.setattr(os, "fsync", fails)
    with pytest.raises(fault):
        files.put(path, "after\n")
    assert path.read_text() == "before\n"
    assert list(tmp_path.iterdir()) == [path]


def test_what_a_killed_call_left_goes_and_what_another_call_writes_stays(
    tmp_path: pathlib.Path,
) -> None:
    path, other = tmp_path / "file", tmp_path / "file.00.new"
    abandoned = tmp_path / "file.01.new"
    other.write_text("")
    abandoned.write_text("")
    then = time.time() - 2 * files.ABANDONED
    os.utime(abandoned, (then, then))
    files.put(path, "text\n")
    assert sorted(tmp_path.iterdir()) == [path, other]


def test_nothing_is_written_through_a_link(tmp_path: pathlib.Path) -> None:
    target, path = tmp_path / "target", tmp_path / "file"
    target.write_text("kept\n")
    path.symlink_to(target)
    files.put(path, "text\n", 0o640)
    assert target.read_text() == "kept\n"
    assert path.read_text() == "text\n" and not path.is_symlink()
    assert path.stat().st_mode & 0o777 == 0o640


# --- A copy is made equal to a file

SIZES = (0, 1, files.PAGE, files.CHUNK - 1, files.CHUNK, 2 * files.CHUNK + 3 * files.PAGE + 7)


@pytest.mark.parametrize("before", SIZES)
@pytest.mark.parametrize("size", SIZES)
def test_a_copy_becomes_equal_whatever_it_was(
    tmp_path: pathlib.Path, size: int, before: int
) -> None:
    path, to = tmp_path / "file", tmp_path / "copy"
    chance = random.Random(size * 31 + before)
    content, older = bytearray(chance.randbytes(size)), chance.randbytes(before)
    path.write_bytes(content)
    to.write_bytes(older)
    assert bool(files.make_equal(path, to)) == bool(size)
    assert to.read_bytes() == content
    assert not files.make_equal(path, to, is_gentle=True)
    for place in {0, size // 2, size - 1} if size else ():
        content[place] ^= 1
        path.write_bytes(content)
        assert files.make_equal(path, to, is_gentle=True) == 1
        assert to.read_bytes() == content


def test_only_pages_that_differ_are_written(
    tmp_path: pathlib.Path, monkeypatch: pytest.MonkeyPatch
) -> None:
    path, to = tmp_path / "file", tmp_path / "copy"
    content = bytearray(random.Random(1).randbytes(3 * files.CHUNK))
    to.write_bytes(content)
    content[files.CHUNK + files.PAGE] ^= 1
    path.write_bytes(content)
    written: list[tuple[int, int]] = []
    whole = files.write_at

    def write(number: int, page: bytearray, at: int) -> None:
        written.append((at, len(page)))
        whole(number, page, at)

    monkeypatch.setattr(files, "write_at", write)
    assert files.make_equal(path, to) == 1
    assert written == [(files.CHUNK + files.PAGE, files.PAGE)]
