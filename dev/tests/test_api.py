"""The schemas of docs/api, tried on the messages and answers of cases/, and on faults that are made
up.

A schema looks at values alone, so it can't refuse a line that is too long or no JSON by the desk's
rules, a day that is in no calendar, or 1.0 in the place of 1.
"""
import collections
import copy
import gzip
import json
import pathlib
import re
import subprocess
from typing import Any

import pytest
from made_up import made_up
from tracedesk_dev import ROOT, case_connections, limits, schemas, vectors
from tracedesk_dev.ports import lent
from tracedesk_dev.vectors import Exchange, Vector

API = ROOT / "docs/api"
ALIKE = 3  # of exchanges that differ in numbers alone, so many are looked at


def read(name: str) -> Any:
    return json.loads((API / name).read_text(encoding="utf-8"))


@pytest.fixture(scope="module")
def of_cases() -> list[Vector]:
    """The messages and answers of all cases; of those that are alike, the first ones."""
    seen: collections.Counter[object] = collections.Counter()
    found = []
    for it in vectors.all_of():
        told = it.answer.get("Answer"), it.answer.get("Fault"), it.answer.get("Refusal")
        shape = (re.sub(rb"[0-9]+", b"0", it.message or b""), tuple(it.answer), told, it.status)
        seen[shape] += 1
        found += [it] if seen[shape] <= ALIKE else []
    return found


def is_good(answer: dict[str, Any]) -> bool:
    """Whether the answer is one to a message that is spelled right."""
    return answer["Answer"] in ("Accepted", "Refused")


def test_what_is_made_from_the_table_is_current() -> None:
    done = subprocess.run([ROOT / "dev/api", "--check"], capture_output=True, text=True)
    assert done.returncode == 0, done.stderr


# --- The cases


def beyond_a_schema(message: bytes, answer: dict[str, Any]) -> str | None:
    """Why a schema can't refuse a message that is faulty, or none."""
    fault = answer.get("Fault")
    other_rules = {
        "LineTooLong": "too long",
        "BadTime": "a time in no calendar",
        "NotJson": "JSON by other rules",
    }
    if fault in other_rules:
        return other_rules[fault]
    if fault == "BodyMember" and (
        b".0" in message or b"e" in message.rpartition(b'"Quantity":')[2].lower()
    ):
        return "a number spelled as a fraction"
    return None


def test_the_schema_says_of_each_message_of_a_case_what_the_desk_says(
    of_cases: list[Vector],
) -> None:
    schema = schemas.Messages(read("message.schema.json"))
    taken = 0
    for vector in of_cases:
        if vector.message is None or vector.answer["Answer"] == "Unavailable":
            continue
        fault: str | None = "no JSON"
        try:
            fault = schema.fault(json.loads(vector.message))
        except (ValueError, RecursionError):
            pass
        if not is_good(vector.answer) and beyond_a_schema(vector.message, vector.answer):
            continue
        assert is_good(vector.answer) == (fault is None), (vector, fault)
        taken += fault is None
    assert taken > 1000


def test_each_answer_of_a_case_is_taken_and_each_example_is_one_of_them(
    of_cases: list[Vector],
) -> None:
    schema = schemas.Schema(read("answer.schema.json"))
    seen = {json.dumps(vector.answer): vector for vector in of_cases}
    for vector in seen.values():
        assert schema.fault(vector.answer) is None, vector
    examples = read("messages.json")["answer_examples"].values()
    assert [it for some in examples for it in some if json.dumps(it) not in seen] == []


def test_openapi_has_each_answer_of_a_case_with_its_status(of_cases: list[Vector]) -> None:
    """It isn't known which route a request asks that a case spells as a whole: some route has to
    have the answer.
    """
    document = read("openapi.json")
    calls: dict[tuple[str, int | None], schemas.Schema] = {}
    routes = [route for path in document["paths"].values() for route in path.values()]
    posted = document["paths"]["/messages"]["post"]

    def fault(route: dict[str, Any], vector: Vector) -> str | None:
        content = route["responses"].get(str(vector.status), {}).get("content", {})
        shape = content.get("application/json")
        if shape is None:
            return "no such status"
        key = route["operationId"], vector.status
        if key not in calls:
            calls[key] = schemas.Schema(shape["schema"], document)
        return calls[key].fault(vector.answer)

    for vector in of_cases:
        of_no_route = (
            vector.answer.get("Kind") == "Path" or vector.answer.get("Fault") == "BadMethod"
        )
        if vector.status is None or of_no_route:
            continue
        faults = [fault(it, vector) for it in (routes if vector.message is None else [posted])]
        assert None in faults, (vector, faults)


def test_examples_are_taken_and_each_shape_of_an_answer_has_one() -> None:
    document = read("message.schema.json")
    schema = schemas.Messages(document)
    examples = [one for it in document["$defs"].values() for one in it.get("examples", ())]
    assert len(examples) == 17 and [it for it in examples if schema.fault(it)] == []
    document = read("answer.schema.json")
    for name, examples in read("messages.json")["answer_examples"].items():
        shapes = document["$defs"][name].get("anyOf", [document["$defs"][name]])
        looks = [schemas.Schema(it, {"$defs": document["$defs"]}) for it in shapes]
        taken = [
            {number for number, it in enumerate(looks) if not it.fault(one)} for one in examples
        ]
        assert all(taken) and set().union(*taken) == set(range(len(shapes))), name


# --- Exchanges for other languages


def connection_of(program: pathlib.Path, exchange: Exchange, work: pathlib.Path) -> bytes:
    """What comes back on the one connection to a new desk."""
    limit = [] if exchange.greatest is None else ["--greatest", str(exchange.greatest)]
    for old in work.iterdir():
        old.unlink()
    with lent() as port:
        words = ["--db", str(work / "desk"), "--port", str(port), "--connections", "1", *limit]
        process = subprocess.Popen([program, "serve", *words], stdout=subprocess.DEVNULL)
        try:
            link = case_connections.connected(port, process)
            assert link, "the program has ended"
            return case_connections.exchanged(link, [exchange.request], None)
        finally:
            process.kill()
            process.wait()


def answered(
    program: pathlib.Path, exchange: Exchange, work: pathlib.Path
) -> tuple[bytes, int | None]:
    """The bytes that the program answers to an exchange, and the exit status of `feed`."""
    if exchange.form == "http":
        return connection_of(program, exchange, work), None
    limit = [] if exchange.greatest is None else ["--greatest", str(exchange.greatest)]
    done = subprocess.run(
        [program, "feed", *limit],
        input=exchange.request,
        capture_output=True,
        cwd=work,
        timeout=600,
    )
    return done.stdout, done.returncode


def test_the_exchanges_for_other_languages_are_those_of_the_program(
    program: pathlib.Path, tmp_path: pathlib.Path
) -> None:
    file, work = tmp_path / "vectors.jsonl.gz", tmp_path / "work"
    subprocess.run([ROOT / "dev/api", "--vectors", file], check=True)
    data = gzip.decompress(file.read_bytes())
    exchanges = [Exchange.read(line) for line in data.splitlines(keepends=True)]
    assert b"".join(it.line() for it in vectors.exchanges()) == data
    work.mkdir()
    for exchange in exchanges:
        assert answered(program, exchange, work) == (exchange.answer, exchange.status), exchange
    assert len(exchanges) > 100


# --- Faults that are made up, before the schema and the program


def test_the_schema_says_of_faults_that_are_made_up_what_the_program_says(
    program: pathlib.Path, tmp_path: pathlib.Path
) -> None:
    schema = schemas.Messages(read("message.schema.json"))
    messages = [copy.deepcopy(it) for it in made_up(limits.table())]
    given = b"".join(json.dumps(it).encode() + b"\n" for it in messages)
    done = subprocess.run(
        [program, "feed"], input=given, capture_output=True, cwd=tmp_path, timeout=600
    )
    answers = [json.loads(line) for line in done.stdout.splitlines()]
    assert len(answers) == len(messages), done.stderr
    for message, answer in zip(messages, answers):
        fault = schema.fault(message)
        assert is_good(answer) == (fault is None), (str(message)[:300], answer, fault)
        member = answer.get("Member", "MessageName")
        if member != "MessageName":
            # the way to the member, or its name if it is missing
            assert re.search(f"/{member}\\b|'{member}' is", str(fault)), (message, answer, fault)
