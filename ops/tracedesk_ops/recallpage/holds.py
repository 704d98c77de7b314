"""Holds and releases of lots and reels: an entry in the book of each line of this machine, which is
the record of it. By `/line/state` a machine with a held reel in front may not work.
"""
from __future__ import annotations

import contextlib
import http.client
import json
import pathlib

from tracedesk_ops.places import Places
from tracedesk_ops.recallpage.jobs import Asked
from tracedesk_ops.recallpage.view import ShownAnswer

ROUTES = {"hold": ("/line/holds", "Held"), "release": ("/line/releases", "Released")}
SECONDS = 60.0  # for which a desk's answer is waited for
ELSEWHERE = "its desk is on another computer: say it on the page there too"
NO_BOOK = "its server keeps no book: serve it by tracedesk-line"


def posted(line: Places, route: str, told: dict[str, str]) -> bytes:
    """A desk's answer."""
    link = http.client.HTTPConnection("127.0.0.1", line.port, timeout=SECONDS)
    with contextlib.closing(link):
        link.request("POST", route, json.dumps(told))
        return link.getresponse().read()


def said_to(line: Places, asked: Asked, name: str) -> str:
    """Writes a hold or a release into a line's book; why that failed, or empty."""
    verb, what = asked.kind.split()
    route, done = ROUTES[verb]
    by = f"{asked.badge}, by the log-in {asked.reader}"
    told = {verb.capitalize(): what, "Name": name, "By": by, "Reason": asked.reason}
    try:
        body = posted(line, route, told)
        answer = json.loads(body)["Answer"]
        if answer == "NotFound":  # the route, as of `tracedesk serve`
            return NO_BOOK
        return "" if answer == done else f"its desk answers {body.decode():.200}"
    except (OSError, ValueError, LookupError, TypeError, http.client.HTTPException) as fault:
        return f"its desk can't be asked: {fault}"


def answer_to(
    asked: Asked, lines: "list[Places]", mirrors: "list[tuple[str, pathlib.Path]]"
) -> ShownAnswer:
    """Says it to each line, of each name. A mirror has no desk to which it could be said."""
    done = ROUTES[asked.kind.split()[0]][1]
    wrong = [f"{line}: {ELSEWHERE}" for line, _ in mirrors]
    well = list[str]()
    for line in lines:
        for name in asked.listed:
            fault = said_to(line, asked, name)
            (wrong if fault else well).append(f"{line.line}: {name}{f': {fault}' if fault else ''}")
    is_whole = well != [] and not wrong
    return ShownAnswer(
        title=asked.title,
        is_complete=is_whole,
        headline=f"{done}: {', '.join(asked.listed)}, on all lines of this machine."
        if is_whole
        else f"NOT {done.upper()} on each line. Say it again once the lines below are mended.",
        reasons=wrong or ["no line is set up on this machine"] * (not lines),
        notes=[f"{done} by {asked.badge}, in the book of {text}" for text in well],
    )
