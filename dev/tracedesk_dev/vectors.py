"""The messages of cases/ with their answers, for dev/tests/test_api.py, and whole exchanges of
cases/ for other languages, for dev/api. They were worked out by hand, and no program is run for
them."""
import base64
import contextlib
import io
import json
from typing import Any, Iterable, Iterator, NamedTuple

from tracedesk_dev import case_connections, case_files
from tracedesk_dev.case_files import BytesOf, Step


class Vector(NamedTuple):
    """A message of a case and its answer; of an answer to something else the message is none. Over
    HTTP it has a status.
    """

    case: str
    message: bytes | None
    answer: dict[str, Any]
    status: int | None = None


def lines_of(data: bytes) -> list[bytes]:
    """The lines that have an answer, without what ends them."""
    found = [it.removesuffix(b"\n").removesuffix(b"\r") for it in io.BytesIO(data).readlines()]
    return [it for it in found if it]


def answers_in(data: bytes) -> list[dict[str, Any]]:
    """The answers among the lines of an output; none where it has other lines."""
    with contextlib.suppress(ValueError):
        told = [json.loads(it) for it in data.splitlines()]
        if all(isinstance(it, dict) and "Answer" in it for it in told):
            return told
    return []


def of_lines(case: str, asked: bytes, told: bytes) -> list[Vector]:
    """Vectors of an input and an output: each line of the one has one of the other."""
    messages, answers = lines_of(asked), answers_in(told)
    if len(messages) == len(answers):
        return [Vector(case, *it) for it in zip(messages, answers)]
    return [Vector(case, None, it) for it in answers]


def of_connection(
    case: str, sent: list[Any], told: list[Any], bytes_of: BytesOf
) -> Iterator[Vector]:
    """Vectors of the requests of a connection. A request that is spelled whole, and one of another
    route, has its answer alone.
    """
    for number, answer in enumerate(told):
        request = sent[number] if number < len(sent) else None
        body = None
        if isinstance(request, dict) and request.get("POST") == "/messages":
            body = case_connections.spelled_request(request, bytes_of).partition(b"\r\n\r\n")[2]
        if isinstance(answer, dict) and "json" in answer:
            yield Vector(case, body, answer["json"], answer.get("status", 200))
        elif isinstance(answer, str) and "application/json" in answer:
            head, _, text = answer.partition("\r\n\r\n")
            if text:
                yield Vector(case, None, json.loads(text), int(head.split()[1]))


def of_step(case: str, step: Step, bytes_of: BytesOf) -> Iterator[Vector]:
    if "serve" in step:
        for sent, told in step["connections"]:
            yield from of_connection(case, sent, told, bytes_of)
    elif "cases" in step:
        yield from (Vector(case, None, told) for _, told in step["cases"] if isinstance(told, dict))
    elif "answer" in step:
        yield from of_lines(
            case, bytes_of(step.get("input")), case_files.object_line(step["answer"])
        )
    elif "output" in step and {"run", "talk", "each"} & set(step):
        if "read_from" not in step and "write_to" not in step:
            yield from of_lines(case, bytes_of(step.get("input")), bytes_of(step["output"]))


def all_of(names: Iterable[str] = ()) -> Iterator[Vector]:
    """The vectors of all cases, or of these."""
    for folder in case_files.folders(names):
        with case_files.opened(folder) as (case, bytes_of):
            for step in case["steps"]:
                yield from of_step(folder.name, step, bytes_of)


# --- Exchanges with a fresh desk, whole


class Exchange(NamedTuple):
    """What goes to a fresh desk and what comes back, to the end of both: the lines of `feed`, or a
    connection of `serve`. `greatest` is how many commands it may take, none for the usual number;
    `status` the exit status of `feed`.
    """

    cases: tuple[str, ...]
    shows: str
    form: str
    greatest: int | None
    status: int | None
    request: bytes
    answer: bytes

    def line(self) -> bytes:
        """It as a line of the file that docs/api.md describes."""
        told: dict[str, Any] = {"Cases": list(self.cases), "Shows": self.shows, "Form": self.form}
        told |= {"Greatest": self.greatest, "Status": self.status}
        told |= dict([spelled("Request", self.request), spelled("Answer", self.answer)])
        told = {name: it for name, it in told.items() if it is not None}
        return json.dumps(told, separators=(",", ":")).encode() + b"\n"

    @classmethod
    def read(cls, line: bytes) -> "Exchange":
        told = json.loads(line)
        request, answer = (
            base64.b64decode(told[f"{it}Base64"]) if f"{it}Base64" in told else told[it].encode()
            for it in ("Request", "Answer")
        )
        numbers = told.get("Greatest"), told.get("Status")
        return cls(tuple(told["Cases"]), told["Shows"], told["Form"], *numbers, request, answer)


def spelled(name: str, data: bytes) -> tuple[str, str]:
    """Bytes as a member: as text where they are one."""
    try:
        return name, data.decode()
    except UnicodeDecodeError:
        return f"{name}Base64", base64.b64encode(data).decode()


def asked_of(words: list[str]) -> tuple[str, str | None, int | None] | None:
    """The command, the file and the greatest number that the words of a command line name; none of
    others.
    """
    options = dict(zip(words[1::2], words[2::2]))
    greatest = options.get("--greatest")
    is_known = words[:1] in (["feed"], ["serve"]) and set(options) <= {"--db", "--greatest"}
    if not is_known or len(words) % 2 == 0 or not (greatest or "1").isdecimal():
        return None
    return words[0], options.get("--db"), int(greatest) if greatest else None


def names_no_file(step: Step) -> bool:
    asked = asked_of(step.get("run") or step.get("talk") or [])
    return asked is not None and asked[1] is None


OTHERWISE = set("read_from write_to memory held errors files answer killed".split())


def of_fresh_desk(step: Step, is_fresh: bool, bytes_of: BytesOf) -> Iterator[tuple[Any, ...]]:
    """The exchanges of a step: form, greatest, status, request and answer, and what is put behind
    the step's number.
    """
    kind = next((it for it in ("run", "talk", "serve") if it in step), None)
    asked = asked_of(step[kind]) if kind else None
    if asked is None or OTHERWISE & set(step):
        return
    command, file, greatest = asked
    if command == "feed" and (is_fresh or file is None):
        given, told = bytes_of(step.get("input")), bytes_of(step.get("output"))
        yield "", "lines", greatest, step.get("status", 0), given, told
    for number, (sent, told) in enumerate(step.get("connections", ()), 1):
        answer = b"".join(map(case_connections.spelled_answer, told))
        if is_fresh:
            requests = (case_connections.spelled_request(it, bytes_of) for it in sent)
            yield f"/{number}", "http", greatest, None, b"".join(requests), answer
        is_fresh = is_fresh and b'"Answer":"Accepted"' not in answer


def exchanges(names: Iterable[str] = ()) -> list[Exchange]:
    """All exchanges of cases, or of these, with a fresh desk, each once, in the order of their
    first cases.
    """
    found: dict[tuple[Any, ...], tuple[list[str], str]] = {}
    for folder in case_files.folders(names):
        with case_files.opened(folder) as (case, bytes_of):
            is_fresh = True  # no step before has named a file of the case
            for number, step in enumerate(case["steps"], 1):
                for place, *exchange in of_fresh_desk(step, is_fresh, bytes_of):
                    found.setdefault(tuple(exchange), ([], case["shows"]))[0].append(
                        f"{folder.name}/{number}{place}"
                    )
                is_fresh = is_fresh and names_no_file(step)
    return [Exchange(tuple(them), shows, *exchange) for exchange, (them, shows) in found.items()]
