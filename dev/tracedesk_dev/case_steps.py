"""The kinds of steps of a case that run the program on files, or look at a file.

Each is called with the program, the step, a call that gives the bytes of a file of the case, and
the folder that the program works in. It raises Difference where something else comes out. `look`
and `change` open a copy of the desk's file, and the file itself, by sqlite3.
"""
import contextlib
import fcntl
import io
import json
import os
import pathlib
import resource
import select
import sqlite3
import subprocess
import tempfile
import time
from typing import IO, Any, Callable, Iterator

from tracedesk_dev import ROOT, ports, processes
from tracedesk_dev.case_files import BytesOf, Step, bytes_of_text, object_line
from tracedesk_dev.trial import Difference

# limits that no machine meets that has much to do: what is over one of them hangs
SECONDS_FOR_A_RUN = 600
SECONDS_FOR_A_TOOL = 900  # it runs the program many times
SECONDS_FOR_AN_ANSWER = 300
STATE_TABLES = "part alternate sheet_row selected reel mount board placement found".split()


def shown(line: bytes | None, place: int) -> str:
    """A line as text, of a long one what stands around the place."""
    if line is None:
        return "no such line"
    begin = max(0, place - 80) if len(line) > 240 else 0
    text = repr(line[begin : begin + 240].decode("utf-8", "backslashreplace"))
    return f"{'..' if begin else ''}{text}{'..' if begin + 240 < len(line) else ''}"


def compare(stream: str, wanted: bytes, got: bytes) -> None:
    if wanted == got:
        return
    ours, theirs = io.BytesIO(wanted).readlines(), io.BytesIO(got).readlines()
    number = next(
        (n for n, (a, b) in enumerate(zip(ours, theirs)) if a != b), min(len(ours), len(theirs))
    )
    a, b = ((lines[number] if number < len(lines) else None) for lines in (ours, theirs))
    place = len(os.path.commonprefix([a or b"", b or b""]))
    raise Difference(
        f"{stream}, line {number + 1}: wanted {shown(a, place)}, got {shown(b, place)}"
    )


def wanted_of(step: Step, bytes_of: BytesOf) -> bytes:
    """The wanted standard output: a file of the case, a short text, or one object."""
    if "prints" in step:
        return bytes_of_text(step["prints"])
    return object_line(step["answer"]) if "answer" in step else bytes_of(step.get("output"))


def compare_end(step: Step, errors: bytes, status: int) -> None:
    compare("standard error", step.get("errors", "").encode(), errors)
    if status != step["status"]:
        raise Difference(f"exit status: wanted {step['status']}, got {status}")


def words_of(program: str, words: list[str]) -> list[str | bytes]:
    """The words of a command line, as bytes."""
    return [program, *map(bytes_of_text, words)]


@contextlib.contextmanager
def opened(path: pathlib.Path, flags: int) -> Iterator[int]:
    """A path as a file of the system, a folder too."""
    handle = os.open(path, flags)
    try:
        yield handle
    finally:
        os.close(handle)


def limited(step: Step) -> Callable[[], None] | None:
    """What limits the memory of a program that is started, if the step has a limit."""
    limit = step.get("memory", 0) * 1024
    return (lambda: resource.setrlimit(resource.RLIMIT_DATA, (limit, limit))) if limit else None


def run(program: str, step: Step, bytes_of: BytesOf, work: pathlib.Path) -> None:
    """One run of the program, its whole input given at once."""
    given: dict[str, Any] = {"input": bytes_of(step.get("input"))}
    taken = subprocess.PIPE
    for name in step.get("files", []):
        (work / name).write_bytes(bytes_of(name))
    before = {name: (work / name).read_bytes() for name in step.get("keeps", [])}
    with contextlib.ExitStack() as files:
        if "read_from" in step:
            given = {"stdin": files.enter_context(opened(work / step["read_from"], os.O_RDONLY))}
        if "write_to" in step:
            taken = files.enter_context(opened(work / step["write_to"], os.O_WRONLY))
        if "held" in step:
            held = files.enter_context(opened(work / step["held"], os.O_RDWR))
            fcntl.lockf(held, fcntl.LOCK_EX, 512, 1 << 30)
        try:
            done = subprocess.run(
                words_of(program, step["run"]),
                cwd=work,
                stdout=taken,
                stderr=subprocess.PIPE,
                timeout=SECONDS_FOR_A_RUN,
                preexec_fn=limited(step),
                **given,
            )
        except subprocess.TimeoutExpired:
            raise Difference(f"the program had not ended after {SECONDS_FOR_A_RUN} seconds")
    compare("standard output", wanted_of(step, bytes_of), done.stdout or b"")
    compare_end(step, done.stderr, done.returncode)
    for name, kept in before.items():
        if not (work / name).exists() or (work / name).read_bytes() != kept:
            raise Difference(f"file {name} is not as it was")


def tool(program: str, step: Step, bytes_of: BytesOf, work: pathlib.Path) -> None:
    """One run of a tool of this repository. It finds the program in PROGRAM, and a port for a
    service in PORT. What it started ends with it.
    """
    with ports.lent() as port, tempfile.TemporaryFile() as out, tempfile.TemporaryFile() as errors:
        own = {"PROGRAM": program, "PORT": str(port), "PYTHONPATH": str(ROOT / "dev")}
        process = subprocess.Popen(
            [str(ROOT / "ops" / step["tool"][0]), *step["tool"][1:]],
            cwd=work,
            env={**os.environ, **own},
            stdin=subprocess.DEVNULL,
            stdout=out,
            stderr=errors,
            start_new_session=True,
        )
        late = ""
        try:
            process.wait(SECONDS_FOR_A_TOOL)
        except subprocess.TimeoutExpired:
            late = (
                f"the tool had not ended after {SECONDS_FOR_A_TOOL} seconds; there run:"
                f" {processes.told_of(process.pid)}"
            )
        finally:
            processes.end_session(process.pid)
            process.wait()
        said = [(file.seek(0), file.read())[1] for file in (out, errors)]
    if late:
        for name, text in zip(("it", "standard error", "the desk"), [*said, served(work)]):
            late += f"; {name} said {text[-2000:].decode('utf-8', 'backslashreplace')!r}"
        raise Difference(late)
    compare("standard output", wanted_of(step, bytes_of), said[0])
    compare_end(step, said[1], process.returncode)


def served(work: pathlib.Path) -> bytes:
    """What the desk of cases/served.sh said."""
    file = work / "served.txt"
    return file.read_bytes() if file.exists() else b""


def next_line(pipe: IO[bytes]) -> bytes | None:
    """What comes until a line feed or the end, or none at the end of patience."""
    line, end = b"", time.monotonic() + SECONDS_FOR_AN_ANSWER
    while not line.endswith(b"\n"):
        if not select.select([pipe], [], [], max(0, end - time.monotonic()))[0]:
            return None
        byte = os.read(pipe.fileno(), 1)
        if not byte:
            break
        line += byte
    return line


def talk(program: str, step: Step, bytes_of: BytesOf, work: pathlib.Path) -> None:
    """One run, in which each line is sent once the line before it is answered, as a machine
    does.
    """
    sent, wanted = (io.BytesIO(bytes_of(step[name])).readlines() for name in ("input", "output"))
    if len(sent) != len(wanted):
        raise Difference(
            f"{len(sent)} lines are sent one by one, and {len(wanted)} answers are wanted"
        )
    got = b""
    with tempfile.TemporaryFile() as errors:
        process = subprocess.Popen(
            words_of(program, step["talk"]),
            cwd=work,
            stdin=subprocess.PIPE,
            stdout=subprocess.PIPE,
            stderr=errors,
            bufsize=0,
        )
        assert process.stdin and process.stdout
        try:
            for number, line in enumerate(sent, 1):
                process.stdin.write(line)
                answer = next_line(process.stdout)
                if answer is None:
                    raise Difference(
                        f"line {number} had no answer after {SECONDS_FOR_AN_ANSWER} seconds; line"
                        f" {number + 1} waits for it"
                    )
                got += answer
                compare("standard output", b"".join(wanted[:number]), got)
            if step.get("killed"):
                return
            rest, _ = process.communicate(timeout=SECONDS_FOR_A_RUN)
        except BrokenPipeError:
            raise Difference(f"the program had ended when line {number} was sent")
        except subprocess.TimeoutExpired:
            raise Difference("the program did not end with its input")
        finally:
            process.kill()
            process.wait()
        compare("standard output", b"".join(wanted), got + rest)
        errors.seek(0)
        compare_end(step, errors.read(), process.returncode)


def tables_in(file: pathlib.Path) -> dict[str, list[Any]]:
    """The rows of all tables, read from a copy of a database that is whole without its log."""
    if not file.exists():
        raise Difference(f"there is no file {file.name}")
    with tempfile.TemporaryDirectory() as room:
        copy = pathlib.Path(room, "copy")
        copy.write_bytes(file.read_bytes())
        with contextlib.closing(sqlite3.connect(copy)) as database:
            sound = {"PRAGMA integrity_check": [("ok",)], "PRAGMA foreign_key_check": []}
            for query, wanted in sound.items():
                if (got := database.execute(query).fetchall()) != wanted:
                    raise Difference(f"{query}: got {got}")
            names = database.execute("SELECT name FROM sqlite_schema WHERE type = 'table'")
            return {
                name: sorted(map(list, database.execute(f"SELECT * FROM {name}")))
                for (name,) in names.fetchall()
            }


def compare_tables(wanted: dict[str, list[Any]], got: dict[str, list[Any]], when: str) -> None:
    """The tables that are wanted; `version` and `accepted` are left out where they are not
    named.
    """
    for name in sorted({*wanted, *got} - ({"version", "accepted"} - set(wanted))):
        if wanted.get(name) != got.get(name):
            raise Difference(f"table {name}{when}: wanted {wanted.get(name)}, got {got.get(name)}")


def take_one(
    program: str, words: list[str], line: bytes, answer: bytes, name: str, work: pathlib.Path
) -> None:
    """A run with one answer: its exit status is 0 where Accepted is wanted, else 1."""
    try:
        done = subprocess.run(
            words_of(program, words),
            input=line,
            cwd=work,
            capture_output=True,
            timeout=SECONDS_FOR_A_RUN,
        )
    except subprocess.TimeoutExpired:
        raise Difference(f"{name}: the program had not ended after {SECONDS_FOR_A_RUN} seconds")
    compare(name, answer, done.stdout)
    status = 0 if json.loads(answer)["Answer"] == "Accepted" else 1
    compare_end({"status": status}, done.stderr, done.returncode)


def each(program: str, step: Step, bytes_of: BytesOf, work: pathlib.Path) -> None:
    """A run for each line of the input. After each the tables are those before it, but for what is
    said to go and to come. `version` and `accepted` are compared from the line on that first names
    them."""
    lines, wanted, changes = (
        io.BytesIO(bytes_of(step[name])).readlines() for name in ("input", "output", "tables")
    )
    if not len(lines) == len(wanted) == len(changes):
        raise Difference(
            f"there are {len(lines)} lines, {len(wanted)} answers and {len(changes)} changes"
        )
    held: dict[str, list[Any]] = dict.fromkeys(STATE_TABLES, [])
    for number, (line, answer, change) in enumerate(zip(lines, wanted, changes), 1):
        take_one(program, step["each"], line, answer, f"answer {number}", work)
        for name, rows in json.loads(change).items():
            stay = [row for row in held.get(name, []) if row not in rows.get("out", [])]
            held[name] = sorted(stay + rows.get("in", []))
        compare_tables(held, tables_in(work / step["file"]), f" after line {number}")


def texts(program: str, step: Step, bytes_of: BytesOf, work: pathlib.Path) -> None:
    """A run for each text of a file, which has it in the place of the text before."""
    for number, (text, answer) in enumerate(step["cases"], 1):
        (work / step["file"]).write_bytes(bytes_of_text(text))
        take_one(program, step["texts"], b"", object_line(answer), f"answer {number}", work)


def holds(program: str, step: Step, bytes_of: BytesOf, work: pathlib.Path) -> None:
    """All rows of all tables, those of `version` and `accepted` where they are named. A table that
    is not named has none.
    """
    wanted: dict[str, list[Any]] = dict.fromkeys(STATE_TABLES, [])
    wanted.update({name: sorted(rows) for name, rows in step["tables"].items()})
    compare_tables(wanted, tables_in(work / step["holds"]), "")


def write(program: str, step: Step, bytes_of: BytesOf, work: pathlib.Path) -> None:
    """Makes a file of this text."""
    (work / step["write"]).write_bytes(bytes_of_text(step["text"]))


def change(program: str, step: Step, bytes_of: BytesOf, work: pathlib.Path) -> None:
    """Runs statements on a database, which is made where it is missing; or has them refused, where
    that is said.
    """
    with contextlib.closing(
        sqlite3.connect(work / step["change"], isolation_level=None)
    ) as database:
        try:
            database.executescript(step["sql"])
            got = None
        except sqlite3.IntegrityError as refusal:
            got = str(refusal)
        if got != step.get("refused"):
            raise Difference(f"wanted {step.get('refused') or 'no refusal'}, got {got or 'none'}")


def look(program: str, step: Step, bytes_of: BytesOf, work: pathlib.Path) -> None:
    """A database that is whole without its log, and what a query finds in it."""
    if not (work / step["look"]).exists():
        raise Difference(f"there is no file {step['look']}")
    with tempfile.TemporaryDirectory() as room:
        copy = pathlib.Path(room, "copy")
        copy.write_bytes((work / step["look"]).read_bytes())
        wanted_of_each = {"PRAGMA integrity_check": [["ok"]], step["sql"]: step["rows"]}
        with contextlib.closing(sqlite3.connect(copy)) as database:
            for query, wanted in wanted_of_each.items():
                got = [list(row) for row in database.execute(query)]
                if got != wanted:
                    raise Difference(f"{query}: wanted {wanted}, got {got}")


def missing(program: str, step: Step, bytes_of: BytesOf, work: pathlib.Path) -> None:
    """No file of this name is there."""
    if os.path.lexists(work / step["missing"]):
        raise Difference(f"{step['missing']} is there")
