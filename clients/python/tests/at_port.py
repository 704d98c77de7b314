"""What tests of senders share: messages, and servers at a port that answer as a desk or a proxy."""
from __future__ import annotations

import contextlib
import http.server
import json
import pathlib
import sqlite3
import threading
import time
from typing import Any, Callable, Dict, List, Mapping, Tuple, TypeVar

PATIENCE = 120  # seconds for what must come: a machine may be busy
SENDER = pathlib.Path(__file__).resolve().parents[1] / "tracedesk-send"
MORNING = "2026-03-02T06:00:00Z"
Found = TypeVar("Found")


def until(call: Callable[[], Found], said: Callable[[], object] = lambda: "") -> Found:
    """What a call finds, once that is something; `said` is what a fault has."""
    end = time.monotonic() + PATIENCE
    while not (found := call()):
        assert time.monotonic() < end, said()
        time.sleep(0.02)
    return found


def told(word: str, uid: str, source: str = "S", at: str = MORNING, **body: Any) -> Dict[str, Any]:
    """A message of a desk."""
    name = f"TraceDesk.{word}"
    return {
        **{"MessageName": name, "UniqueID": uid, "Source": source, "TimeStamp": at},
        "MessageBody": body,
    }


def text(word: str, uid: str, source: str = "S", **body: Any) -> bytes:
    return json.dumps(told(word, uid, source, **body)).encode()


def rows_in(spool: pathlib.Path, query: str) -> List[Tuple[Any, ...]]:
    """What a spool has, while others write to it; nothing where it isn't there yet."""
    with contextlib.suppress(sqlite3.OperationalError):
        its = sqlite3.connect(f"file:{spool}?mode=rw", uri=True, timeout=PATIENCE)
        with contextlib.closing(its) as database:
            return database.execute(query).fetchall()
    return []


def texts_in(spool: pathlib.Path, state: str) -> Dict[str, bytes]:
    """The messages of a state by their names, in their order."""
    its = rows_in(spool, f"SELECT n, text FROM message WHERE state = '{state}' ORDER BY n")
    return {f"{n:012}": text for n, text in its}


class Answering(http.server.BaseHTTPRequestHandler):
    """A request that came."""

    protocol_version = "HTTP/1.1"

    def log_message(self, *_: Any) -> None:
        """Nothing is told."""

    def body(self) -> bytes:
        return self.rfile.read(int(self.headers["Content-Length"]))

    def reply(self, status: int, body: bytes, headers: Mapping[str, object] = {}) -> None:
        self.send_response(status)
        its: Dict[str, object] = {"Content-Length": len(body), **headers}
        for name, value in its.items():
            self.send_header(name, str(value))
        self.end_headers()
        self.wfile.write(body)


class Server(http.server.ThreadingHTTPServer):
    """A server at a port of its own."""

    daemon_threads = True

    def __init__(self, answering: type[Answering]) -> None:
        super().__init__(("127.0.0.1", 0), answering)
        threading.Thread(target=self.serve_forever, args=(0.02,), daemon=True).start()

    @property
    def url(self) -> str:
        return f"http://127.0.0.1:{self.server_address[1]}"

    def handle_error(self, *_: Any) -> None:
        """A connection that broke is no news here."""

    def end(self) -> None:
        self.shutdown()
        self.server_close()
