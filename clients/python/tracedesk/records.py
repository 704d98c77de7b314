"""What can be read of a message, also of one that a desk can't read."""
from __future__ import annotations

import hashlib
import json
import re
import time
from typing import Any, Dict, Optional

from . import words

MOST_TOLD = 1_000  # letters of a member of what can't be read
MOST_DEEP = 32  # lists and objects in one another; those of a message are 5 at most
# a string of JSON, also one that is cut off, and what begins or ends a list or an object
TOKEN = re.compile(rb'"[^"\\]*(?:\\.[^"\\]*)*(?:"|\\?\Z)|[\[\]{}]', re.DOTALL)


def utc(seconds: Optional[float] = None) -> str:
    """A second of the clock: now, or another one."""
    return time.strftime("%Y-%m-%dT%H:%M:%SZ", time.gmtime(seconds))


def is_report(told: Dict[str, Any]) -> bool:
    """Whether a message says what was done, and not what somebody asks for. One that nobody can
    read may say so.
    """
    name = told.get("MessageName")
    return not isinstance(name, str) or name in words.REPORTS_OF_WORK


def may_be_kept(told: Dict[str, Any]) -> bool:
    """Whether the line's book has an entry of a message that isn't taken: of a report of work, and
    of a load, splice or unload.
    """
    return is_report(told) or told["MessageName"] in words.RECORDED


def shallow(text: bytes) -> bytes:
    """A text of JSON with null in the place of each list and object that is too deep: so whatever
    reads it ends alike, and doesn't end with what calls it.
    """
    kept, since, depth = [], 0, 0
    for found in TOKEN.finditer(text):
        if found[0] in b"[{":
            depth += 1
            if depth == MOST_DEEP + 1:
                kept += [text[since : found.start()], b"null"]
        elif found[0] in b"]}":
            if depth == MOST_DEEP + 1:
                since = found.end()
            depth -= 1
    return b"".join([*kept, text[since:] if depth <= MOST_DEEP else b""])


def number(digits: str) -> Any:
    """A whole number of JSON; one that is longer than any of a message is a text."""
    return int(digits) if len(digits) < 20 else digits


def as_read(text: bytes) -> Dict[str, Any]:
    """What can be read of a message, also of one that is no strict JSON: odd bytes, raw tabs, NaN
    and long numbers become texts.
    """
    try:
        told = json.loads(
            shallow(text).decode("utf-8", "replace"),
            strict=False,
            parse_constant=str,
            parse_int=number,
        )
    except ValueError:
        return {}
    return told if isinstance(told, dict) else {}


def is_unread(told: Dict[str, Any]) -> bool:
    """Whether a message says of another one that no desk can read it."""
    return "TimeStamp" not in told and {"Why", "Text", "Sha256"} <= told.keys()


def unread_id(text: bytes) -> str:
    """The UniqueID of the message about a text that no desk can read."""
    return f"unread-{hashlib.sha256(text).hexdigest()[:32]}"


def unread(text: bytes, told: Dict[str, Any], why: str) -> bytes:
    """A message that says of another one, or of a machine's record, that no desk can read it. It
    has no time, so it is faulty: by that the line's book has an entry of it, with its bytes unless
    they are too many.
    """
    body = told.get("MessageBody")
    its = body.items() if isinstance(body, dict) else ()
    message = {
        "UniqueID": unread_id(text),
        **{it: told[it] for it in ("MessageName", "Source") if isinstance(told.get(it), str)},
        "MessageBody": {it: value for it, value in its if len(json.dumps(value)) <= MOST_TOLD},
        "Why": why[:MOST_TOLD],
        "Text": text.decode("utf-8", "backslashreplace") if len(text) <= 100 * MOST_TOLD else None,
        "Sha256": hashlib.sha256(text).hexdigest(),
        "Size": len(text),
    }
    return json.dumps(message).encode()
