"""What changes at a line, as its server says it: how each machine of the station's set-up is, and
which entries of the book wait for a decision. Each is an object with a topic of its own.
"""
from __future__ import annotations

import csv
import http.client
import json
import urllib.parse
from typing import Any

from tracedesk import Desk
from tracedesk_ops import entries

SETUP, STATE, UNDECIDED = "/station/setup.json", "/line/state?machine=", "/line/undecided"
OF_MACHINE = ("Board", "Causes", "Machine", "State")
OF_ENTRY = ("kind", "source", "uid", "machine", "slot", "board", "reel", "word")
ODD = (OSError, http.client.HTTPException, ValueError, LookupError, TypeError, csv.Error)
States = dict[str, dict[str, Any]]  # by their topics


class Away(Exception):
    """Why the line can't be read now."""


def topic(*names: str) -> str:
    """Names as the levels of a topic: no sign in them has a meaning there."""
    return "/".join(urllib.parse.quote(it, safe=" ") for it in names)


class News:
    """Reads a line through its proxy."""

    def __init__(self, proxy: Desk) -> None:
        self.proxy = proxy

    def read(self) -> States:
        try:
            return {**self.machines(), **self.undecided()}
        except ODD as fault:
            self.proxy.close()
            raise Away(str(fault) or repr(fault)) from None

    def got(self, target: str, *also: int) -> bytes:
        """The body of an answer of this status; of another one that may be it is empty."""
        code, body, _ = self.proxy.once("GET", target, None, {})
        if code not in (http.client.OK, *also):
            raise OSError(f"{target}: status {code}")
        return body if code == http.client.OK else b""

    def machines(self) -> States:
        """How each machine is; one that no sheet names is left out."""
        found: States = {}
        for its in json.loads(self.got(SETUP))["machines"]:
            target = STATE + urllib.parse.quote(its["machine"], safe="")
            if body := self.got(target, http.client.NOT_FOUND):
                told = json.loads(body)
                found[topic("machines", told["Machine"])] = {it: told[it] for it in OF_MACHINE}
        return found

    def undecided(self) -> States:
        """What waits for a decision, without the message."""
        rows, _ = entries.told(self.got(UNDECIDED).decode())
        return {
            topic("undecided", str(row.n)): {it: getattr(row, it) for it in OF_ENTRY}
            for row in rows
        }
