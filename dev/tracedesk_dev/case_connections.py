"""The kinds of steps of a case that serve a desk to a client on the loopback.

Requests and answers are spelled here, apart from the program.
"""
import contextlib
import json
import os
import pathlib
import shutil
import socket
import subprocess
import threading
import time
from typing import Any, Iterator, Sequence

from tracedesk_dev.case_files import CASES, BytesOf, Step, bytes_of_text, object_line
from tracedesk_dev.case_steps import SECONDS_FOR_A_RUN, SECONDS_FOR_AN_ANSWER
from tracedesk_dev.case_steps import compare, compare_end, limited, next_line, wanted_of, words_of
from tracedesk_dev.ports import lent
from tracedesk_dev.trial import Difference
from tracedesk_ops import plant

Connection = tuple[Sequence[bytes], Sequence[bytes], bool]  # pieces, answers, and whether by turns

PHRASES = {  # as RFC 9110 and 6585 have them
    **{200: "OK", 202: "Accepted", 400: "Bad Request", 404: "Not Found", 405: "Method Not Allowed"},
    **{409: "Conflict", 411: "Length Required", 413: "Payload Too Large"},
    **{422: "Unprocessable Entity", 431: "Request Header Fields Too Large"},
    503: "Service Unavailable",
}
REFUSED_REPORTS: dict[str, dict[str, Any]] = {
    "NotFound": {"status": 404},
    "BadQuery": {"status": 400},
    "BadMethod": {"status": 405, "allow": "POST"},
}


def spelled_request(request: Any, bytes_of: BytesOf) -> bytes:
    """The bytes of a request: as given, of a file of the case, or of a GET or a POST with its
    length.
    """
    if isinstance(request, str):
        return bytes_of_text(request)
    if "file" in request:
        return bytes_of(request["file"])
    if "GET" in request:
        return bytes_of_text(f"GET {request['GET']} HTTP/1.1\r\n\r\n")
    text = request["body"]
    body = bytes_of_text(text if isinstance(text, str) else json.dumps(text, separators=(",", ":")))
    head = f"POST {request['POST']} HTTP/1.1\r\nContent-Length: {len(body)}\r\n\r\n"
    return bytes_of_text(head) + body


def spelled_answer(answer: Any) -> bytes:
    """The bytes of an answer: as they stand, or of a status, a body, and what stands beside
    them.
    """
    if isinstance(answer, str):
        return bytes_of_text(answer)
    status, kind = answer.get("status", 200), "text/csv" if "csv" in answer else "application/json"
    body = bytes_of_text(answer["csv"]) if "csv" in answer else object_line(answer["json"])[:-1]
    lines = [f"HTTP/1.1 {status} {PHRASES[status]}", f"Content-Type: {kind}"]
    lines += [f"Content-Length: {len(body)}"]
    lines += [f"Allow: {answer['allow']}"] if "allow" in answer else []
    lines += ["Connection: close"] if answer.get("close") else []
    head = "".join(line + "\r\n" for line in [*lines, ""]).encode()
    return head if answer.get("no_body") else head + body


def connected(port: int, process: subprocess.Popen[bytes]) -> socket.socket | None:
    """The one connection that is taken, once the desk is opened; a refused try is none. None where
    the program has ended.
    """
    end = time.monotonic() + SECONDS_FOR_A_RUN
    while time.monotonic() < end:
        link = socket.socket()
        try:
            link.connect(("127.0.0.1", port))
            link.setsockopt(socket.IPPROTO_TCP, socket.TCP_NODELAY, 1)
            link.settimeout(SECONDS_FOR_AN_ANSWER)
            return link
        except OSError:
            link.close()
        if process.poll() is not None:
            return None
        time.sleep(0.01)
    raise Difference("no connection was taken")


def exchanged(
    link: socket.socket, pieces: Sequence[bytes], wanted: Sequence[bytes] | None
) -> bytes:
    """What comes back for these pieces. With `wanted`, a piece is sent once the answer to the one
    before it is there.
    """
    got = bytearray()

    def listen() -> None:
        with contextlib.suppress(OSError):
            while data := link.recv(65536):
                got.extend(data)

    listener = threading.Thread(target=listen, daemon=True)
    listener.start()
    with contextlib.suppress(OSError):  # the program may end the connection before it has all
        for number, piece in enumerate(pieces):
            if wanted is None:
                time.sleep(0.001 if number else 0)
            else:
                end = time.monotonic() + SECONDS_FOR_AN_ANSWER
                while len(got) < sum(map(len, wanted[:number])) and time.monotonic() < end:
                    time.sleep(0.001)
            link.sendall(piece)
        link.shutdown(socket.SHUT_WR)
    listener.join(SECONDS_FOR_AN_ANSWER)
    link.close()
    if listener.is_alive():
        raise Difference("the answers have no end")
    return bytes(got)


@contextlib.contextmanager
def serving(
    program: str, words: list[str], connections: int, work: pathlib.Path, step: Step
) -> Iterator[tuple[subprocess.Popen[bytes], int]]:
    """A run of `serve` for so many connections, and its port."""
    with lent() as port:
        ends = ["--port", str(port), "--connections", str(connections)]
        process = subprocess.Popen(
            words_of(program, [*words, *ends]),
            cwd=work,
            stdin=subprocess.DEVNULL,
            stdout=subprocess.PIPE,
            stderr=subprocess.PIPE,
            preexec_fn=limited(step),
        )
        try:
            yield process, port
        finally:
            process.kill()
            process.wait()


def compare_line(process: subprocess.Popen[bytes], number: int, answered: int) -> None:
    """The line of a connection that has ended: it is told before the next one is made."""
    assert process.stdout
    line = next_line(process.stdout)
    if line is None:
        raise Difference(
            f"connection {number} had no line after {SECONDS_FOR_AN_ANSWER} seconds; the next one"
            " waits for it"
        )
    compare(f"line of connection {number}", f"{number} {answered}\n".encode(), line)


def take_connections(
    program: str,
    step: Step,
    words: list[str],
    connections: Sequence[Connection],
    work: pathlib.Path,
) -> None:
    """One run with these connections, one after the other: of each the pieces, the answers, and how
    the pieces are sent.
    """
    with serving(program, words, len(connections), work, step) as (process, port):
        try:
            for number, (pieces, answers, by_turns) in enumerate(connections, 1):
                link = connected(port, process)
                if link is None:
                    break
                compare(
                    f"answer of connection {number}",
                    b"".join(answers),
                    exchanged(link, pieces, answers if by_turns else None),
                )
                compare_line(process, number, len(answers))
            rest, errors = process.communicate(timeout=SECONDS_FOR_A_RUN)
        except subprocess.TimeoutExpired:
            raise Difference("the program did not end with its connections")
    compare("standard output behind the connections' lines", b"", rest)
    compare_end(step, errors, process.returncode)
    if link is None:
        raise Difference(f"the program had ended when connection {number} was made")


def clients(program: str, step: Step, bytes_of: BytesOf, work: pathlib.Path) -> None:
    """One run, and a client of the case's own, which gets the port and makes its own
    connections.
    """
    for name in step.get("files", []):
        (work / name).write_bytes(bytes_of(name))
    with serving(program, step["clients"], len(step["answered"]), work, step) as (process, port):
        try:
            asked = subprocess.run(
                [*step["by"], str(port)],
                cwd=work,
                env={**os.environ, "PYTHONPATH": str(CASES), "PYTHONDONTWRITEBYTECODE": "1"},
                stdin=subprocess.DEVNULL,
                capture_output=True,
                timeout=SECONDS_FOR_A_RUN,
            )
            compare("standard error of the client", b"", asked.stderr)
            compare("standard output of the client", wanted_of(step, bytes_of), asked.stdout)
            out, errors = process.communicate(timeout=SECONDS_FOR_AN_ANSWER)
        except subprocess.TimeoutExpired as late:
            said = (late.output or b"")[-1000:].decode(errors="replace")
            raise Difference(f"the client or the program did not end; the last it said: {said!r}")
    told = "".join(f"{number} {told}\n" for number, told in enumerate(step["answered"], 1))
    compare("standard output", told.encode(), out)
    compare_end(step, errors, process.returncode)


def cuts_of(data: bytes, cut: object) -> list[list[list[bytes]]]:
    """The ways in which bytes are sent: for each run of the program a list of its connections, each
    a list of pieces.
    """
    if cut == "everywhere":
        return [
            [[data[n : n + 1] for n in range(len(data))]],
            [[data[:n], data[n:]] for n in range(1, len(data))],
        ]
    if isinstance(cut, int):
        return [[[data[n : n + cut] for n in range(0, len(data), cut)]]]
    return []


def serve(program: str, step: Step, bytes_of: BytesOf, work: pathlib.Path) -> None:
    """A client's connections, `times` over. With `cut` its one connection is also cut, each time on
    a copy of the desk.
    """
    connections = [
        ([spelled_request(it, bytes_of) for it in sent], [spelled_answer(it) for it in told])
        for sent, told in step["connections"]
    ]
    connections *= step.get("times", 1)
    words, file = step["serve"], step["serve"][step["serve"].index("--db") + 1]
    if "cut" in step:
        ((pieces, answers),) = connections
        for run in cuts_of(b"".join(pieces), step["cut"]):
            for copied in work.glob("cut*"):
                copied.unlink()
            if (work / file).exists():
                shutil.copyfile(work / file, work / "cut")
            try:
                its = [(cut, answers, False) for cut in run]
                of_copy = ["cut" if it == file else it for it in words]
                take_connections(program, step, of_copy, its, work)
            except Difference as difference:
                raise Difference(f"in {len(run)} ways to cut it: {difference}")
    by_turns = step.get("by_turns", False)
    whole = [
        (pieces if by_turns else [b"".join(pieces)], answers, by_turns)
        for pieces, answers in connections
    ]
    by_both_lists(program, step, words, whole, work)
    take_connections(program, step, words, whole, work)


def by_both_lists(
    program: str,
    step: Step,
    words: list[str],
    connections: Sequence[Connection],
    work: pathlib.Path,
) -> None:
    """The same connections to tracedesk-line, on a copy of the desk: each answer has the same
    bytes. It makes desks up to the greatest number alone, and takes no table of others before its
    book.
    """
    file, line = words[words.index("--db") + 1], plant.next_to(program, "line")
    if not line or "--greatest" in words or "others" in step:
        return
    for copied in work.glob("both*"):
        copied.unlink()
    if (work / file).exists():
        shutil.copyfile(work / file, work / "both")
    of_copy = ["both" if it == file else it for it in words]
    try:
        take_connections(line, step, of_copy, connections, work)
    except Difference as difference:
        raise Difference(f"of tracedesk-line: {difference}")


def reports(program: str, step: Step, bytes_of: BytesOf, work: pathlib.Path) -> None:
    """Reports of a desk, each by a run of `report`, and then all of them on one connection to
    `serve`.
    """
    answers = []
    for target, told in step["cases"]:
        done = subprocess.run(
            words_of(program, ["report", "--db", step["reports"], "--get", target]),
            cwd=work,
            stdin=subprocess.DEVNULL,
            capture_output=True,
            timeout=SECONDS_FOR_A_RUN,
        )
        is_csv = isinstance(told, str)
        compare(f"report {target}", told.encode() if is_csv else object_line(told), done.stdout)
        compare_end({"status": 0 if is_csv else 1}, done.stderr, done.returncode)
        refused = {} if is_csv else REFUSED_REPORTS[told.get("Fault", told["Answer"])]
        answers.append({"csv": told} if is_csv else {"json": told} | refused)
    connection = [[{"GET": target} for target, _ in step["cases"]], answers]
    status = 0 if all("csv" in it for it in answers) else 1
    words = ["serve", "--db", step["reports"]]
    served = {"serve": words, "connections": [connection], "status": status}
    served |= {"others": step["others"]} if "others" in step else {}
    serve(program, served, bytes_of, work)
