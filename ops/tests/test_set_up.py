"""The set-up files of the lines that a machine serves: with one the tools need no words, with two
the line's name alone."""
import pathlib


import pytest

from lab.line import Line, NewLine
from lab.tools import Word, run_tool


def set_up(folder: pathlib.Path, line: Line, **more: object) -> None:
    """Writes the set-up file of a line."""
    words = {"line": line.name, "db": line.file, "port": line.port, **more}
    text = "".join(f"{name} = {value}\n" for name, value in words.items())
    (folder / f"{line.name}.conf").write_text(f"# a line\n{text}")


@pytest.fixture
def etc(folder: pathlib.Path, monkeypatch: pytest.MonkeyPatch) -> pathlib.Path:
    """The folder of set-up files, which also has the proxy's certificates."""
    made = folder / "etc"
    made.mkdir()
    (made / "certificates.conf").write_text('"CN=m2" sender;\n')
    monkeypatch.setenv("TRACEDESK_SET_UP", str(made))
    return made


@pytest.fixture
def one(new_line: NewLine, folder: pathlib.Path, etc: pathlib.Path) -> Line:
    return set_up_whole(new_line(folder / "one"), etc)


@pytest.fixture
def two(new_line: NewLine, folder: pathlib.Path, etc: pathlib.Path) -> Line:
    return set_up_whole(new_line(folder / "two", "L2"), etc)


def set_up_whole(line: Line, etc: pathlib.Path) -> Line:
    set_up(etc, line, stop=line.stop_command, start=line.start_script)
    return line


def test_tool_of_one_of_two_lines(one: Line, two: Line) -> None:
    """Its folder, port and commands are those of its set-up file."""
    for line in (one, two):
        run_tool("ops", "seal", line.name, "--program", line.program).expect()
        run_tool("ops", "rollover", line.name, "--program", line.program).expect()
        assert len(line.archives()) == 1
    run_tool("ops", "seal", "L3").expect(2, "there is no folder")


def test_watch_and_clock_of_one_of_two_lines(one: Line, two: Line) -> None:
    run_tool("watch", "--to", "-").expect(2, "say by --line")
    run_tool("watch", "--line", "L2", "--to", "-").expect(0, "\ntracedesk_up 1\n")
    words: list[Word] = ["--synced", "echo yes", "--answer", "-"]
    run_tool("clock", *words).expect(2, "say by --line")
    run_tool("clock", "--line", "L2", *words).expect(0, '"Answer":"Accepted"')


def test_recall_asks_all_lines(one: Line, two: Line) -> None:
    done = run_tool("recall", "lot", "L1")
    done.expect(0, "L1: no archives yet", "L2: no archives yet", "the lines are L1, L2: ")


@pytest.mark.parametrize("words", [["ops", "seal", "L1"], ["recall", "lot", "L1"], ["watch"]])
def test_each_tool_names_a_wrong_file(etc: pathlib.Path, words: list[str]) -> None:
    (etc / "L2.conf").write_text("line = L2\nports = 8080\n")
    run_tool(*words).expect(2, f"{etc}/L2.conf: ports is none of")
