"""Entries of a line's book about messages that were refused, without a desk."""
from __future__ import annotations

import json

from tracedesk_ops import untraced
from tracedesk_ops.entries import BookEntry


def refused(said: bytes, refusal: str, heard: int | None = None, kind: str = "") -> untraced.Noted:
    """What the book has of a message that was refused when the desk was at this minute."""
    told = json.loads(said)
    body, word = told["MessageBody"], told["MessageName"].removeprefix("TraceDesk.")
    kind = kind or ("handling" if word in untraced.HANDLING else "work")
    names = [str(body.get(name, "")) for name in ("Machine", "Slot", "Board", "Reel")]
    its = BookEntry._make([1, 0, kind, "S", told["UniqueID"], *names, refusal, 0, said.decode()])
    done = untraced.minute_of(told["TimeStamp"])
    return untraced.Noted("entry 1 of f1", its, word, body, done, heard)
