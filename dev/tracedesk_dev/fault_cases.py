"""The worked cases as runs for fault injection."""
import argparse
import contextlib
import json
import pathlib
import re
import sqlite3
import tempfile
from typing import Any, Callable, Iterator, Sequence
from tracedesk_dev import reports
from tracedesk_ops import copies
from tracedesk_dev.fault_stories import Command, Files, LineCommand, Served, ServedLine, Story


def steps_of(asked: argparse.Namespace, case: str) -> list[Any]:
    steps: list[Any] = json.loads((asked.cases / case / "case.json").read_text())["steps"]
    return steps


def lines_of(asked: argparse.Namespace, case: str, name: str) -> list[bytes]:
    file: pathlib.Path = asked.cases / case / name
    return file.read_bytes().splitlines()


def fed(asked: argparse.Namespace, case: str) -> Story:
    """`feed` of a case's messages into a file."""
    said = [line + b"\n" for line in lines_of(asked, case, "messages.jsonl")]
    wanted = lines_of(asked, case, "answers.jsonl")
    return Story(asked, f"feed {case}", ["feed", "--db", "desk"], said, wanted=wanted)


def in_memory(asked: argparse.Namespace, case: str) -> Story:
    it = fed(asked, case)
    it.words, it.has_desk = ["feed"], False
    return it


def fed_files(asked: argparse.Namespace, case: str) -> Files:
    """The desk's files after a case's messages."""
    story = fed(asked, case)
    files: Files = story.plainly(story.all, {})[2]
    return files


def imported(asked: argparse.Namespace, case: str) -> Story:
    """The first import of a case that is accepted, on the desk of its messages."""
    text = {}
    for step in steps_of(asked, case):
        if "write" in step:
            text = {step["write"]: step["text"].encode()}
        if step.get("answer", {}).get("Answer") == "Accepted":
            wanted = json.dumps(step["answer"], separators=(",", ":")).encode() + b"\n"
            name, files = f"{step['run'][0]} {case}", fed_files(asked, case)
            return Command(asked, name, step["run"], [b""], files, text, [wanted])
    raise ValueError(f"the case {case} has no import that is accepted")


def spelled(status: bytes, kind: bytes, body: bytes) -> bytes:
    form = b"HTTP/1.1 %s\r\nContent-Type: %s\r\nContent-Length: %d\r\n\r\n%s"
    return form % (status, kind, len(body), body)


def report_of(story: Story, count: int, target: str) -> bytes:
    """What a GET is answered after so many lines of `feed`, by the queries of dev/ask."""
    _answers, _status, files = story.plainly(story.all[:count], {})
    with tempfile.TemporaryDirectory(dir=story.asked.rooms.folder) as folder:
        file = pathlib.Path(folder, "desk")
        file.write_bytes(story.audit(files)[1]["desk"])
        with copies.opened(file) as database:
            text = reports.report(database, target).encode()
    if text.startswith(b"{"):
        return spelled(b"404 Not Found", b"application/json", text.removesuffix(b"\n"))
    return spelled(b"200 OK", b"text/csv", text)


def served(asked: argparse.Namespace, case: str, targets: Sequence[str]) -> Story:
    """A case's messages as requests, a report after each of them, and the first message once
    more.
    """
    feeding = fed(asked, case)
    posts = [
        b"POST /messages HTTP/1.1\r\nContent-Length: %d\r\n\r\n%s" % (len(line) - 1, line[:-1])
        for line in feeding.parts
    ]
    assert feeding.wanted
    told = [spelled(b"200 OK", b"application/json", answer) for answer in feeding.wanted]
    parts, wanted = [posts[0]], [told[0]]
    for number, post in enumerate(posts):
        target = targets[number % len(targets)]
        parts += [post, b"GET %s HTTP/1.1\r\n\r\n" % target.encode()]
        wanted += [told[number], report_of(feeding, number + 1, target)]
    return Served(asked, f"serve {case}", ["serve", "--db", "desk"], parts, wanted=wanted)


def asking(target: str, body: bytes | None = None) -> bytes:
    """A request."""
    if body is None:
        return b"GET %s HTTP/1.1\r\n\r\n" % target.encode()
    head = b"POST %s HTTP/1.1\r\nContent-Length: %d\r\n\r\n" % (target.encode(), len(body))
    return head + body


def heard(asked: argparse.Namespace, case: str) -> Story:
    """A case's messages to `tracedesk-line serve`. Before the last one, which loads a reel, come
    some that the desk doesn't accept, and a decision and a hold; then the line is asked.
    """
    feeding = fed(asked, case)
    assert feeding.wanted
    json_form = b"application/json"
    its = [
        (asking("/messages", line[:-1]), spelled(b"200 OK", json_form, told))
        for line, told in zip(feeding.parts, feeding.wanted)
    ]
    its[-1:-1] = [
        (asking(target, body), spelled(status, json_form, told))
        for target, body, status, told in BESIDE
    ]
    its += [
        (asking(target), spelled(b"200 OK", form, told))
        for target, form, told in ((STATE, json_form, STOPPED), (UNDECIDED, b"text/csv", WAITING))
    ]
    parts, wanted = map(list, zip(*its))
    words = ["serve", "--db", "desk"]
    story = ServedLine(asked, f"line serve {case}", words, parts, wanted=wanted)
    story.program = asked.line
    return story


def of_version_1(asked: argparse.Namespace, case: str) -> Files:
    """The file of version 1 that a case makes by SQL."""
    with tempfile.TemporaryDirectory(dir=asked.rooms.folder) as folder:
        file = pathlib.Path(folder, "desk")
        with contextlib.closing(sqlite3.connect(file)) as database:
            for step in steps_of(asked, case):
                if "change" in step:
                    database.executescript(step["sql"])
        return {"desk": file.read_bytes()}


def said(uid: str, word: str, **body: str) -> bytes:
    """A message at the machine of first_run."""
    envelope = {"MessageName": f"TraceDesk.{word}", "UniqueID": uid, "Source": "S"}
    its = envelope | {"TimeStamp": "1970-01-01T00:00:00Z", "MessageBody": {"Machine": "M", **body}}
    return json.dumps(its).encode()


def refused(uid: str, at: str, word: str) -> tuple[bytes, bytes]:
    """The status and the answer of such a message."""
    its = {"Answer": "Refused", "At": at, "Refusal": word, "UniqueID": uid}
    return b"409 Conflict", json.dumps(its, separators=(",", ":")).encode()


SAID = b'"By":"A. Person","Reason":"looked at"}'
UNREAD = b'{"Answer":"Faulty","Fault":"EnvelopeMember","Member":"MessageName"}'
# What is sent beside first_run, with its answers: entries 1, 2, none again, 3, 4 and 5
BESIDE = (
    ("/messages", said("v1", "MaterialsLoaded", Slot="1", Reel="K9"))
    + refused("v1", "K9", "UnknownReel"),
    ("/messages", said("v2", "WorkStarted", Board="B1")) + refused("v2", "1", "SlotEmpty"),
    ("/messages", said("v3", "WorkStarted", Board="B1")) + refused("v3", "1", "SlotEmpty"),
    ("/messages", b'{"MessageName":7}', b"400 Bad Request", UNREAD),
    (
        *("/line/decisions", b'{"Of":1,"Became":"gone",' + SAID),
        *(b"200 OK", b'{"Answer":"Decided","Entry":4}'),
    ),
    (
        *("/line/holds", b'{"Hold":"reel","Name":"K1",' + SAID),
        *(b"200 OK", b'{"Answer":"Held","Entry":5}'),
    ),
)
STATE, UNDECIDED = "/line/state?machine=M", "/line/undecided"
STOPPED = (
    b'{"Answer":"State","Board":null,"Causes":[{"Cause":"NoWork"},{"Cause":"Open","Entry":2,'
    b'"Kind":"work","Reel":null,"Refusal":"SlotEmpty","Slot":"1"},{"Cause":"Held","Entry":5,'
    b'"Reel":"K1","Slot":"1"}],"Machine":"M","Number":5,"State":"stop"}'
)
WAITING = b"n,after,kind,source,uid,machine,slot,board,reel,word,of,told,state\n" + b"".join(
    b'%d,4,%s,%s,"%s",%s\n' % (number, kind, fields, told.replace(b'"', b'""'), state)
    for number, kind, fields, told, state in (
        (2, b"work", b"S,v2,M,1,B1,,SlotEmpty,0", BESIDE[1][1], b"open"),
        (3, b"unread", b",,,,,,EnvelopeMember,0", BESIDE[3][1], b"undecided"),
    )
)
HOLDING = ("--kind", "hold", "--told", (b'{"Hold":"reel","Name":"K1",' + SAID).decode())
REPORTS = {
    "slots": (
        "/slots?machine=M",
        b"slot,position,reel,part,lot,remaining,minutes_left\n2,1,K2,P,L1,20,unlimited\n",
    ),
    "trace": (
        "/trace/board?board=B1&detail=4",
        b"designator,part,lot,reel,machine,slot,overdue\nR1,P,L1,K1,M,1,no\n",
    ),
}


def migrating(asked: argparse.Namespace, case: str) -> Story:
    words, files = ["migrate", "--db", "desk"], of_version_1(asked, case)
    return Command(asked, f"migrate {case}", words, [b""], files, wanted=[b"version 2\n"])


def lawful(asked: argparse.Namespace, case: str) -> bytes:
    """How many commands of a case are accepted, as an audit says it."""
    answers = lines_of(asked, case, "answers.jsonl")
    return b"lawful %d" % sum(it.startswith(b'{"Answer":"Accepted"') for it in answers)


def auditing(asked: argparse.Namespace, case: str) -> Story:
    told = lawful(asked, case) + b"\n"
    words, files = ["audit", "--db", "desk"], fed_files(asked, case)
    return Command(asked, f"audit {case}", words, [b""], files, wanted=[told])


def reporting(name: str) -> Callable[[argparse.Namespace, str], Story]:
    target, text = REPORTS[name]
    words, title = ["report", "--db", "desk", "--get", target], f"report {name}"
    return lambda asked, case: Command(
        asked, f"{title} {case}", words, [b""], fed_files(asked, case), wanted=[text]
    )


def line_command(
    asked: argparse.Namespace, files: Files, words: Sequence[str], told: bytes
) -> Story:
    """A command of `tracedesk-line` on these files, which nobody serves."""
    all_words, name = [words[0], "--db", "desk", *words[1:]], f"line {words[0]}"
    story = LineCommand(asked, name, all_words, [b""], files, wanted=[told])
    story.program = asked.line
    return story


def making(asked: argparse.Namespace, case: str) -> Story:
    """The book of a desk's file that has none. Once it is made it stays, whatever fails then."""
    told = lawful(asked, case) + b" book 0\n"
    story = line_command(asked, fed_files(asked, case), ["make"], told)
    story.may_be_done_unsaid = True
    return story


def of_book(*words: str, told: bytes) -> Callable[[argparse.Namespace, str], Story]:
    """A command on a case's file with an empty book."""

    def made(asked: argparse.Namespace, case: str) -> Story:
        files: Files = making(asked, case).plainly((0,), fed_files(asked, case))[2]
        return line_command(asked, files, words, told)

    return made


def serving(*targets: str) -> Callable[[argparse.Namespace, str], Story]:
    return lambda asked, case: served(asked, case, targets)


MOVED = "a_reel_moved_to_another_slot"
NEAR = (  # the splice of a_splice_in_mid_board
    b"number,place,board,designator,part,lot,reel,machine,slot,minute,reason,of\n"
    b"10,2,B1,R2,P,L1,K1,M,1,0,splice,0\n10,3,B1,R3,P,L1,K2,M,1,0,splice,0\n"
)
TARGETS = (
    *("/slots?machine=M", "/reel?reel=K2", "/kit?product=PR&machine=M&boards=1"),
    *("/trace/lot?lot=L1&detail=4", "/reel?reel=K1"),
)
STORIES = (
    ("feed", "first_run", fed),
    ("feed", "a_splice_in_mid_board", fed),
    ("feed", MOVED, fed),
    ("feed, in memory,", "first_run", in_memory),
    ("import-setup", "a_setup_file_is_one_sheet", imported),
    ("import-counts", "a_count_file_is_all_or_nothing", imported),
    ("migrate", "a_file_of_version_1_is_migrated", migrating),
    ("audit", MOVED, auditing),
    ("report slots", MOVED, reporting("slots")),
    ("report trace", MOVED, reporting("trace")),
    ("serve", "first_run", serving("/slots?machine=M")),
    ("serve", MOVED, serving(*TARGETS)),
    ("line serve", "first_run", heard),
    ("line make", "first_run", making),
    ("line note", "first_run", of_book("note", *HOLDING, told=b'{"Answer":"Held","Entry":1}\n')),
    ("line book", "first_run", of_book("book", told=WAITING[: WAITING.index(b"\n") + 1])),
    ("line doubt", "a_splice_in_mid_board", of_book("doubt", "--within", "1", told=NEAR)),
)


def stories(asked: argparse.Namespace) -> Iterator[Any]:
    """What is run."""
    for name, case, make in STORIES:
        is_command = re.sub("[^a-z-].*", "", name) in asked.commands
        if is_command and (asked.only or "") in f"{name} {case}":
            it = make(asked, case)
            it.name = f"{name} {case}"
            yield it
