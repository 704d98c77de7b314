"""What a recall can't ask: it is named, all else is asked, and the status says so."""
import pathlib
import shutil
from typing import Callable

import pytest
from lab.line import table
from lab.recalls import copied, files_of, lot_of, recall, recalled
from lab.tools import Word
from lab.world import RUNNING, ArchivedLine, World
from tracedesk_ops import sealed

pytestmark = [pytest.mark.xdist_group("recall_faults")]

Change = Callable[[pathlib.Path], object]


# --- An archive is altered


def another_byte(file: pathlib.Path) -> None:
    content = bytearray(file.read_bytes())
    content[len(content) // 2] ^= 1
    file.unlink()
    file.write_bytes(content)


# what is altered: how, and what is said
FAULTS: dict[str, tuple[Change, str]] = {
    "another byte": (another_byte, "was changed, or has another file's name"),
    "missing": (lambda file: file.unlink(), "is missing, from which"),
}


@pytest.fixture(scope="module")
def files(world: World) -> set[str]:
    """The files of the first line that have pieces of its lot."""
    words = ["lot", lot_of(world), *world.first.recall_words(), "--show", "pieces"]
    found = files_of(recalled(*words))
    assert world.first.archived[0].name in found
    return found


@pytest.mark.parametrize("name", FAULTS)
def test_what_is_altered_is_named(
    world: World, folder: pathlib.Path, files: set[str], name: str
) -> None:
    """All else is asked."""
    change, said = FAULTS[name]
    line, first = world.first, world.first.archived[0].name
    words = ["lot", lot_of(world), *copied(line, folder / "L1"), "--show", "pieces"]
    link_desk(line, folder / "L1")
    change(folder / "L1/sealed" / first)
    done = recall(*words).expect(3, said, "NOT COMPLETE: ")
    assert files_of(table(done.out)) == files - {first}


def test_a_mirror_without_one_file_has_the_others(
    world: World, folder: pathlib.Path, files: set[str]
) -> None:
    line, first = world.first, world.first.archived[0].name
    words = ["lot", lot_of(world), *copied(line, folder / "L1"), "--show", "pieces"]
    (folder / "L1/sealed" / first).unlink()
    done = recall(*words).expect(3, "is missing, from which", "has no desk")
    assert files_of(table(done.out)) == files - {first, RUNNING}


# --- A gap in the chain

# the archives that are there, and which one is missing; `o` is the second one before its last
# commands
GAPS = {
    "the oldest is missing": ("234", 1),
    "one in the middle is missing": ("134", 2),
    "the newest is missing": ("123", 4),
    "an older copy of one": ("1o34", 2),
    "an idle one is missing": ("124", 3),
}


def link_desk(line: ArchivedLine, folder: pathlib.Path) -> None:
    """Puts the running desk's file into a folder, as far as a recall sees."""
    for path in line.paths():
        (folder / path.name).symlink_to(path)


def archives_of(line: ArchivedLine, folder: pathlib.Path, order: str) -> list[Word]:
    """A line's folder with these archives, and the words of a recall over it."""
    (folder / "sealed").mkdir(parents=True)
    link_desk(line, folder)
    assert line.older
    for number in order:
        file = line.older if number == "o" else line.archived[int(number) - 1]
        shutil.copy(file, folder / "sealed" / sealed.name_of(sealed.digits_of(file)))
    return ["--line", line.name, folder]


@pytest.mark.parametrize("name", GAPS)
def test_a_gap_in_the_chain_is_named(
    world: World, folder: pathlib.Path, files: set[str], name: str
) -> None:
    """All files are asked that are there, also those before it."""
    order, missing = GAPS[name]
    words = [*archives_of(world.first, folder / "L1", order), "--show", "pieces"]
    before = sorted((folder / "L1/sealed").iterdir())
    lacking = world.first.archived[missing - 1].name
    done = recall("lot", lot_of(world), *words)
    done.expect(3, f"{lacking} is missing, from which", "NOT COMPLETE")
    assert files_of(table(done.out)) >= files - {lacking}
    assert sorted((folder / "L1/sealed").iterdir()) == before


def test_a_folder_with_a_line_end_in_its_name_has_no_gap(
    world: World, folder: pathlib.Path
) -> None:
    words = archives_of(world.first, folder / "a\nline" / "L1", "1234")
    recall("lot", lot_of(world), *words).expect(0, ": differs minute")


# --- What is swapped or doubled


def test_a_desk_that_does_not_run_is_named(world: World, folder: pathlib.Path) -> None:
    """Also if nothing but its archive lacks: it was begun from one."""
    (folder / "L1").mkdir()
    for path in world.first.paths():
        shutil.copy(path, folder / "L1" / path.name)
    words: list[Word] = ["--line", "L1", folder / "L1"]
    said = (f"no desk of this machine has {folder / 'L1/desk'} open", "is missing, from which")
    recall("lot", lot_of(world), *words).expect(3, *said)


def test_a_folder_of_two_lines_is_refused(world: World) -> None:
    one, two = (line.recall_words() for line in world.lines)
    two[2] = one[2]
    recall("lot", lot_of(world), *one, *two).expect(2, "have the same name or folder")


def test_an_archive_on_two_lines_is_named(world: World, folder: pathlib.Path) -> None:
    first, second = world.lines
    words = copied(second, folder / "L2")
    shutil.copy(first.archived[0], folder / "L2/sealed" / first.archived[0].name)
    done = recall("lot", lot_of(world), *first.recall_words(), *words)
    done.expect(3, "two histories of this line")
