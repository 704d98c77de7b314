"""What keeps the program from files that are damaged, in use or no desk."""
import os
import pathlib
import random
import shutil
import subprocess
import sys

import pytest

from lab import OPS
from lab.checked import MESSAGES, Checked
from lab.tools import Word, run
from tracedesk_ops import outside, plant

RESTORE = "restore the newest sealed file"
HOLD = """import sqlite3, sys
desk = sqlite3.connect(sys.argv[1])
desk.execute("BEGIN EXCLUSIVE")
print(flush=True)
sys.stdin.read()"""


# --- Lawful and damaged files


def test_desk_whose_commands_are_in_its_log(checked: Checked) -> None:
    checked.expect()
    checked.file.unlink()
    words = [str(checked.program), "feed", "--db", str(checked.file)]
    with subprocess.Popen(words, stdin=subprocess.PIPE, stdout=subprocess.PIPE) as feed:
        assert feed.stdin and feed.stdout
        for line in MESSAGES.read_bytes().splitlines():
            feed.stdin.write(line + b"\n")
            feed.stdin.flush()
            feed.stdout.readline()
        feed.kill()
    assert checked.file.stat().st_size < checked.log.stat().st_size
    checked.expect()


@pytest.mark.parametrize(
    "sql, audit",
    [
        ("DELETE FROM accepted WHERE number = 5", "NotLawful 5"),
        ("UPDATE reel SET scrapped = 1, remaining = 9", "TableDiffers reel"),
        ("DROP TABLE found", "NotADesk"),
        ("PRAGMA ignore_check_constraints = ON; UPDATE found SET pieces = 0", "Unavailable"),
    ],
)
def test_a_file_that_the_audit_refuses_is_to_be_restored(
    checked: Checked, sql: str, audit: str
) -> None:
    checked.do(sql)
    checked.expect("not lawful: the audit of a copy of ", f"tracedesk: {audit};", RESTORE)


def test_a_table_of_others_in_a_file_without_a_book_is_to_be_dropped(checked: Checked) -> None:
    """A desk of tracedesk may have some, and tracedesk-line makes its book in front of them."""
    checked.do("CREATE TABLE shift(name TEXT)")
    (said,) = checked.check()
    assert "book OthersFirst" in said and said.endswith(
        ": drop the tables and views that somebody added"
    )
    assert RESTORE not in said


@pytest.mark.parametrize("number", range(8))
def test_damaged_bytes_never_end_otherwise_than_by_a_verdict(checked: Checked, number: int) -> None:
    chance, content = random.Random(number), bytearray(checked.whole)
    place = chance.randrange(len(content))
    content[place : place + 4096] = bytes(4096)
    checked.new(bytes(content[: len(checked.whole) - number % 2]))
    checked.expect(RESTORE)


# --- Files that are no desk


def test_what_is_no_desk(checked: Checked) -> None:
    for content in (b"This is no database.\n", checked.whole[:100], b""):
        checked.new(content)
        checked.expect("not lawful: ", RESTORE)
    checked.log.write_bytes(bytes(5000))
    checked.expect("not lawful: ", RESTORE)
    checked.file.unlink()
    checked.expect("no file: there is no ")
    checked.file.mkdir()
    checked.expect("no file: ", "is a folder, a pipe, a socket or a device")


def test_another_program_that_has_the_file_open(checked: Checked) -> None:
    words = [sys.executable, "-c", HOLD, str(checked.file)]
    with subprocess.Popen(words, stdin=subprocess.PIPE, stdout=subprocess.PIPE) as process:
        assert process.stdin and process.stdout
        process.stdout.readline()
        checked.expect(f"in use: process {process.pid} (", "end it")
        process.stdin.close()
    checked.expect()


# --- Names


def test_file_of_two_names(checked: Checked) -> None:
    os.link(checked.file, checked.file.parent / "second")
    checked.expect("another name: ", "has 2 names (hard links)")


def test_journal_of_another_program(checked: Checked) -> None:
    checked.file.with_name("desk-journal").write_bytes(bytes(512))
    journal = "desk-journal holds what another program, as sqlite3, was about to change"
    checked.expect("half written: ", journal, "delete neither of both")


def test_log_that_is_a_link_or_a_folder(checked: Checked, folder: pathlib.Path) -> None:
    checked.log.symlink_to(folder / "whole-wal")
    checked.expect("another name: ", "desk-wal is a link or no file")
    checked.log.unlink()
    checked.log.mkdir()
    checked.expect("another name: ", "desk-wal is a link or no file")


# --- Rights and disks


@pytest.fixture
def users(checked: Checked, folder: pathlib.Path, monkeypatch: pytest.MonkeyPatch) -> Checked:
    """A file of root's in a folder of the service's user, who can run the program, too: that of a
    repository may lie in a folder that is root's alone.
    """
    line = plant.line_of(str(checked.program))
    assert line
    shutil.copy(line, folder / "tracedesk-line")
    monkeypatch.delenv("LINE", raising=False)  # the one in the folder, which anybody can run
    checked.program = pathlib.Path(shutil.copy(checked.program, folder / "tracedesk"))
    shutil.chown(checked.file.parent, "nobody")
    checked.file.chmod(0o600)
    return checked


@pytest.mark.root
@pytest.mark.gate
def test_rights_of_the_services_user(users: Checked) -> None:
    file, folder = users.file, users.file.parent
    users.expect("no permission: nobody may not read ")
    shutil.chown(file, "nobody")
    folder.chmod(0o555)
    users.expect("no permission: nobody may not make the log in ")
    shutil.chown(folder, "root")
    users.expect("no permission: nobody may not make the log in ")
    shutil.chown(folder, "nobody")
    folder.chmod(0o755)
    users.expect()
    users.log.touch(mode=0o644)
    said = "desk-wal, which belongs to user root"
    users.expect("no permission: nobody may not write ", said)


CHECK = """
import pathlib, sys
from tracedesk_ops import check, plant
file = pathlib.Path(sys.argv[1])
print(*check.hindrances(file, plant.Program(sys.argv[2], file).audit))
"""
FILL = 'head -c 1000000 /dev/zero > "$0/fill" 2> /dev/null || true'
READ_ONLY = 'mount -o remount,ro "$0"'
WITH_DISK = 'mount -t tmpfs -o size={}k disk "$0"; cp "$1" "$0/desk"; {}; shift; exec "$@"'


@pytest.mark.root
@pytest.mark.gate
@pytest.mark.parametrize(
    "done, text", [(FILL, "no room: the disk of "), (READ_ONLY, "is mounted read only")]
)
def test_disk_of_a_file(checked: Checked, done: str, text: str) -> None:
    size = len(checked.whole) * 3 // 2 + outside.ROOM_OF_AN_OPENING
    at, whole = checked.file.parent, checked.folder / "whole"
    words: list[Word] = ["unshare", "--mount", "sh", "-ec", WITH_DISK.format(size // 1024, done)]
    words += [
        at,
        whole,
        sys.executable,
        "-c",
        CHECK,
        at / "desk",
        plant.line_of(str(checked.program)) or "",
    ]
    run(words, env={"PYTHONPATH": str(OPS)}).expect(0, text)
    assert whole.read_bytes() == checked.whole


def test_no_room_for_the_copy(checked: Checked, monkeypatch: pytest.MonkeyPatch) -> None:
    usage = shutil.disk_usage(checked.folder)
    monkeypatch.setattr(shutil, "disk_usage", lambda _: usage._replace(free=10))
    with pytest.raises(plant.Fault, match="10 bytes are free .* are wanted for a copy of "):
        checked.check()
