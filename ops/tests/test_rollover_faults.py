"""Roll-overs that fail, are stopped or are killed: the old desk is as it was, and what is not the
tool's stays."""
import os
import pathlib
import subprocess
from typing import Iterator

import pytest

from lab.line import Line
from lab.programs import others_of, wrapped
from lab.shifted import Shifted
from lab.tools import run, started
from lab.waits import PATIENCE, wait_for
from tracedesk_ops.line import LineFolder

AS_IT_WAS = "the old desk is as it was"
FAULTS = {
    "an audit that fails": ("audit", "echo tracedesk: NotLawful 3 >&2; exit 3"),
    "a feed that fails": ("feed", "echo tracedesk: Unavailable >&2; exit 3"),
    "a comparison that fails": ("alike", "echo tracedesk: new Unavailable >&2; exit 3"),
    "a comparison that says nothing": ("alike", "exit 0"),
    "a new desk with a piece more": (
        "feed",
        """sed '0,/"Quantity":\\([0-9]*\\)/s//"Quantity":1\\1/' > "$3.given"\n"""
        """exec "$PROGRAM" "$@" < "$3.given" """,
    ),
}


@pytest.mark.parametrize("fault", FAULTS)
def test_program_that_fails(half: Line, shifted: Shifted, folder: pathlib.Path, fault: str) -> None:
    word, act = FAULTS[fault]
    half.rollover(program=wrapped(folder, half.program, word, act)).expect(3, AS_IT_WAS)
    shifted.expect_unchanged(half)


@pytest.fixture
def disk(shifted: Shifted, folder: pathlib.Path) -> Iterator[pathlib.Path]:
    """A disk of its own, twelve times as large as a desk."""
    made = folder / "disk"
    made.mkdir()
    size = sum(path.stat().st_size for path in shifted.half.paths())
    run(["mount", "-t", "tmpfs", "-o", f"size={12 * size}", "small", made]).expect()
    try:
        yield made
    finally:
        run(["umount", "--lazy", made]).expect()


@pytest.mark.root
@pytest.mark.gate
@pytest.mark.parametrize("word", ["", "audit", "feed", "alike"])
def test_disk_that_gets_full(
    shifted: Shifted, folder: pathlib.Path, disk: pathlib.Path, word: str
) -> None:
    """Before, or when the program is asked for a word; with room again it is done."""
    line = shifted.copy(disk)
    line.serve()
    try:
        filler = disk / "filler"
        fill = f'cat /dev/zero > "{filler}" 2> /dev/null'
        if not word:
            subprocess.run(["sh", "-c", fill], check=False)
            os.truncate(filler, int(filler.stat().st_size * 0.9))
        program = wrapped(folder, line.program, word or "none", fill)
        line.rollover(program=program).expect(3, AS_IT_WAS)
        filler.unlink()
        line.expect_tidy()
        line.rollover().expect()
        shifted.expect_rolled_over(line)
    finally:
        line.end()


# --- Signals


def test_sigterm_puts_all_back(half: Line, shifted: Shifted, folder: pathlib.Path) -> None:
    """It comes while the new desk is made, which has no end here."""
    program = wrapped(folder, half.program, "feed", "while true; do sleep 0.1; done")
    tool = started(half.rollover_words(program=program), env=others_of(program))
    messages = LineFolder(half.folder).work / "messages"
    wait_for("the new desk is begun", lambda: messages.exists() or tool.poll() is not None)
    tool.terminate()
    _, said = tool.communicate(timeout=PATIENCE)
    assert tool.returncode == 3 and "it was stopped by SIGTERM" in said
    shifted.expect_unchanged(half)


def test_what_a_killed_call_runs_ends_with_it(
    half: Line, shifted: Shifted, folder: pathlib.Path
) -> None:
    """Else a run of the program had a file open that the next call wants."""
    child = folder / "child"
    act = f'echo $$ > "{child}.new"; mv "{child}.new" "{child}"; while true; do sleep 0.1; done'
    program = wrapped(folder, half.program, "feed", act)
    tool = started(half.rollover_words(program=program), env=others_of(program))
    wait_for("the new desk is begun", lambda: child.exists() or tool.poll() is not None)
    tool.kill()
    tool.communicate()
    running = pathlib.Path("/proc", child.read_text().strip())
    wait_for("the program's run has ended", lambda: not running.exists())
    half.rollover().expect()
    shifted.expect_rolled_over(half)


# --- Another user


USER = 61_000  # of the service


@pytest.fixture
def users(shifted: Shifted, folder: pathlib.Path) -> Iterator[Line]:
    """A line as `half`, whose service runs as another user."""
    line = shifted.copy(folder / "its")
    user = f"setsid setpriv --reuid={USER} --regid={USER} --clear-groups"
    text = line.start_script.read_text().replace("setsid", user)
    line.start_script.write_text(text, encoding="utf-8")
    for path in (line.folder, *line.folder.iterdir()):
        os.chown(path, USER, USER)
    line.serve()
    try:
        yield line
    finally:
        line.end()


@pytest.mark.root
@pytest.mark.gate
@pytest.mark.parametrize("name", ["work", "sealed", "lost"])
def test_links_of_the_services_user_lead_root_to_nothing(
    users: Line, folder: pathlib.Path, name: str
) -> None:
    secret = folder / "secret"
    secret.mkdir()
    (secret / "plan.json").write_text("root's", encoding="utf-8")
    link = users.folder / name
    link.symlink_to(secret)
    os.lchown(link, USER, USER)
    done = users.rollover()
    assert [path.name for path in secret.iterdir()] == ["plan.json"]
    assert (secret / "plan.json").read_text() == "root's"
    assert {path.stat().st_uid for path in (secret, secret / "plan.json")} == {0}
    assert users.answers(), done.said
    if done.status == 0:
        own = ("desk-pid", "desk-start")
        foreign = [
            path
            for path in users.folder.rglob("*")
            if path.lstat().st_uid != USER and path.name not in own
        ]
        assert not foreign
        users.more("A")
