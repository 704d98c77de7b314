"""The queue of the packaged nginx: however many reports somebody asks for, messages go on. A server
that answers one request at a time, as the desk does, stands in the desk's place.
"""
from __future__ import annotations

import base64
import contextlib
import http.client
import http.server
import json
import pathlib
import ssl
import sys
import threading
import time
from typing import Any, Iterator

import pytest
from tracedesk_dev import ROOT

sys.path.append(str(ROOT / "station/tests"))
from station_site import PATIENCE, Site  # noqa: E402

pytestmark = [pytest.mark.needs("nginx", "openssl"), pytest.mark.xdist_group("proxy")]
TRACE = 0.1  # seconds of a long trace at the desk
TRACES, SECONDS = 60, 6.0  # that are asked for at the same time, beside the line, and for how long
IN_A_ROW = 500  # reports; every fifth by a new connection
WORKERS = 4  # of nginx: one of them frees a reader's place while another one takes the next report


class Answering(http.server.BaseHTTPRequestHandler):
    """A desk that takes long for a trace, and no time for all else."""

    protocol_version = "HTTP/1.1"
    server: Desk

    def log_message(self, *_: Any) -> None:
        """Nothing is told."""

    def reply(self, body: bytes) -> None:
        self.send_response(200)
        self.send_header("Content-Length", str(len(body)))
        self.send_header("Connection", "close")
        self.end_headers()
        self.wfile.write(body)

    def do_GET(self) -> None:
        with self.server.report():
            time.sleep(TRACE * self.path.startswith("/trace"))
        self.reply(self.path.encode())

    def do_POST(self) -> None:
        told = json.loads(self.rfile.read(int(self.headers["Content-Length"])))
        with self.server.one:
            self.reply(json.dumps({"Answer": "Accepted", "UniqueID": told["UniqueID"]}).encode())


class Desk(http.server.ThreadingHTTPServer):
    """It answers one request at a time, and counts the reports before which a message may come:
    those that it has, and those that wait for it.
    """

    request_queue_size, daemon_threads = 512, True

    def __init__(self, port: int) -> None:
        super().__init__(("127.0.0.1", port), Answering)
        self.one, self.counts = threading.Lock(), threading.Lock()
        self.reports = self.most = 0

    @contextlib.contextmanager
    def report(self) -> Iterator[None]:
        with self.counts:
            self.reports += 1
            self.most = max(self.most, self.reports)
        with self.one:
            yield
        with self.counts:
            self.reports -= 1


class Queue(Site):
    """The packaged nginx before such a desk."""

    def __init__(self, room: pathlib.Path) -> None:
        super().__init__("no-program", str(room))
        for name in ("readers", "senders"):  # whose passwords cost no time
            (self.room / "etc" / name).write_text("op:{PLAIN}op\noffice:{PLAIN}office\n")
        own = self.room / "nginx.conf"
        own.write_text(f"worker_processes {WORKERS}; {own.read_text()}")
        self.model = Desk(self.desk_port)
        threading.Thread(target=self.model.serve_forever, args=(0.02,), daemon=True).start()
        self.start_nginx()


@pytest.fixture
def site(tmp_path: pathlib.Path) -> Iterator[Queue]:
    made = Queue(tmp_path)
    yield made
    made.stop_nginx()
    made.model.shutdown()
    made.model.server_close()


class Client:
    """A log-in with a connection of its own."""

    def __init__(self, site: Queue, user: str) -> None:
        trust = ssl.create_default_context(cafile=site.room / "etc/server.crt")
        self.link = http.client.HTTPSConnection(
            "localhost", site.port, timeout=PATIENCE, context=trust
        )
        log_in = base64.b64encode(f"{user}:{user}".encode()).decode()
        self.headers = {"Authorization": f"Basic {log_in}", "Content-Type": "application/json"}

    def ask(self, method: str, path: str, body: Any = None) -> tuple[int, Any, bytes]:
        self.link.request(method, path, body, self.headers)
        answer = self.link.getresponse()
        return answer.status, answer.headers, answer.read()


def line(site: Queue) -> float:
    """The 99 % of the seconds of a line's messages, at full rate, one after the other."""
    client, took, end = Client(site, "op"), [], time.monotonic() + SECONDS
    while (now := time.monotonic()) < end:
        status, _, _ = client.ask("POST", "/messages", json.dumps({"UniqueID": f"u{now}"}))
        assert status == 200
        took.append(time.monotonic() - now)
    return sorted(took)[len(took) * 99 // 100]


def test_long_traces_hold_no_message_up(site: Queue) -> None:
    """60 of one reader beside a line at full rate: the desk has one of them at a time, and each
    that is turned away is told to come again.
    """
    alone, statuses, over = line(site), [], threading.Event()
    first = threading.Barrier(TRACES + 1, timeout=PATIENCE)

    def reader() -> None:
        client = Client(site, "op")
        client.ask("POST", "/messages", '{"UniqueID":"first"}')  # it has a connection then
        first.wait()
        while not over.is_set():
            status, headers, body = client.ask("GET", "/trace/lot?lot=A%2FB&detail=4")
            statuses.append(status)
            if status == 429:
                assert headers["Retry-After"] == "1"
                assert json.loads(body) == {"Answer": "Proxy", "Fault": "TooManyRequests"}
                over.wait(1)
            else:
                assert status == 200
                assert body == b"/trace/lot?lot=A%2FB&detail=4", "it comes to the desk as it was"

    readers = [threading.Thread(target=reader, daemon=True) for _ in range(TRACES)]
    for it in readers:
        it.start()
    first.wait()
    beside = line(site)
    over.set()
    for it in readers:
        it.join()
    print(f"99 %: {alone:.3f} s alone, {beside:.3f} s beside {TRACES} traces")
    assert set(statuses) == {200, 429}
    assert site.model.most == 1, "so a message waits for one report at most, on any machine"


def test_reports_one_after_the_other_are_each_answered(site: Queue) -> None:
    """Whatever part of nginx has not yet seen that the one before is over."""
    client, statuses = Client(site, "office"), []
    for number in range(IN_A_ROW):
        if number % 5 == 0:
            client.link.close()
        status, headers, _ = client.ask("GET", "/overdue")
        statuses.append(status)
        assert headers["WWW-Authenticate"] is None
    assert statuses == [200] * IN_A_ROW
    assert site.model.most == 1


def test_another_reader_and_the_station_have_their_own_place(site: Queue) -> None:
    """A report of somebody else, and a look of the station, are turned away by no long report."""
    got: list[int] = []

    def ask(user: str, path: str) -> None:
        got.append(Client(site, user).ask("GET", path)[0])

    path = "/trace/lot"
    asks = [("op", path), ("office", path), ("op", f"/station/desk{path}")]
    threads = [threading.Thread(target=ask, args=it) for it in asks]
    for it in threads:
        it.start()
    for it in threads:
        it.join()
    assert got == [200] * 3
    assert site.model.most <= 3
