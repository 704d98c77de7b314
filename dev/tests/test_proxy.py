"""The packaged nginx before a desk: what it answers by itself, whom it lets send, and the folders
of a line.

nginx and the desk run in a folder of their own, on free ports of this machine. The rules of
packaging/limits against connections that never finish a request are tried by root, in a network of
its own:

    unshare --net sh -c 'ip link set lo up && /usr/bin/python3 -m pytest dev/tests/test_proxy.py -m
    root'
"""
import base64
import contextlib
import csv
import json
import pathlib
import re
import socket
import ssl
import subprocess
import sys
import time
from typing import Iterator

import pytest
from tracedesk_dev import ROOT
from tracedesk_dev.trial import Difference

sys.path.append(str(ROOT / "station/tests"))
from station_site import PATIENCE, Site  # noqa: E402

pytestmark = [pytest.mark.needs("nginx", "openssl"), pytest.mark.xdist_group("proxy")]
LOGGED_IN = "Authorization: Basic b3A6b3A=\r\n"  # op:op
STATUS = "/line/status/op.json"


@pytest.fixture(scope="module")
def site(program: pathlib.Path) -> Iterator[Site]:
    with Site(str(program)) as made:
        yield made


def raw(site: Site, text: str) -> tuple[str, str, str]:
    """The status line, the headers and the body of what nginx answers to these bytes."""
    link = ssl.create_default_context(cafile=site.room / "etc/server.crt").wrap_socket(
        socket.create_connection(("127.0.0.1", site.port), PATIENCE), server_hostname="localhost"
    )
    with link:
        link.sendall(text.encode())
        got = b""
        with contextlib.suppress(TimeoutError, ssl.SSLError, ConnectionError):
            while data := link.recv(65536):
                got += data
    head, _, body = got.decode(errors="replace").partition("\r\n\r\n")
    return head.split("\r\n")[0], head, body


def agree(what: str, wanted: object, got: object) -> None:
    if wanted != got:
        raise Difference(f"{what}: wanted {wanted!r:.400}, got {got!r:.400}")


def test_own_answers_are_json(site: Site) -> None:
    """Requests that nginx refuses before the desk sees them, also those whose line it can't
    read.
    """

    def request(line: str, *headers: str, body: str = "") -> str:
        return (
            f"{line} HTTP/1.1\r\nHost: localhost\r\nConnection:"
            f" close\r\n{LOGGED_IN}{''.join(it + chr(13) + chr(10) for it in headers)}\r\n{body}"
        )

    message = ("Content-Type: application/json", "Content-Length: 2")
    worked = {
        "a NUL in the path": (request("GET /x%00"), 400),
        "a wrong escape": (request("GET /%zz"), 400),
        "a path above /": (request("GET /../../x"), 400),
        "a method in small letters": (request("get /overdue"), 400),
        "a path of 9,000 letters": (request(f"GET /{'a' * 9000}"), 414),
        "a header of 40,000": (request("GET /overdue", f"X: {'a' * 40000}"), 400),
        "TRACE": (request("TRACE /messages"), 405),
        "CONNECT": (request("CONNECT localhost:1"), 400),
        "HTTP/3.0": (f"GET /overdue HTTP/3.0\r\nHost: localhost\r\n{LOGGED_IN}\r\n", 505),
        "no Host": (f"GET /overdue HTTP/1.1\r\n{LOGGED_IN}\r\n", 400),
        "an unknown encoding": (
            request("POST /messages", "Content-Type: application/json", "Transfer-Encoding: gzip"),
            501,
        ),
        "a range behind the end": (request("GET /station/icon.svg", "Range: bytes=9999999-"), 416),
        "a condition that fails": (request("GET /station/icon.svg", "If-Match: x"), 412),
        "a body too long": (
            request("POST /messages", "Content-Type: application/json", "Content-Length: 9999999"),
            413,
        ),
        "no log-in": ("GET /overdue HTTP/1.1\r\nHost: localhost\r\nConnection: close\r\n\r\n", 401),
        "no file": (request("GET /station/none"), 404),
        "a POST to a page": (request("POST /station/", *message, body="{}"), 403),
        "POST to a file of the line": (
            request("POST /line/status/here.json", *message, body="{}"),
            403,
        ),
        "a text for a message": (
            request("POST /messages", "Content-Type: text/plain", "Content-Length: 2", body="{}"),
            415,
        ),
    }
    here = site.room / "line/status/here.json"
    here.write_text("{}")
    for what, (text, status) in worked.items():
        line, head, body = raw(site, text)
        if (
            not line.startswith(f"HTTP/1.1 {status} ")
            and line != f"HTTP/1.1 {status}"
            or "\r\nContent-Type: application/json" not in head
            or "Answer" not in json.loads(body)
        ):
            raise Difference(f"{what}: wanted {status} with JSON, got {head!r} {body[:200]!r}")
    here.unlink()
    link = socket.create_connection(("127.0.0.1", site.port), PATIENCE)
    with link:
        link.sendall(b"GET /overdue HTTP/1.1\r\nHost: localhost\r\nConnection: close\r\n\r\n")
        got = link.makefile("rb").read().decode()
    if not got.startswith("HTTP/1.1 400 ") or '"Answer":"Proxy"' not in got:
        raise Difference(f"a request without TLS: {got!r}")
    if "empty URI" in (said := (site.room / "log/error.log").read_text()):
        raise Difference(said[-500:])
    log = (site.room / "log/tracedesk.log").read_text()
    for it in (
        '/overdue HTTP/1.1" 401 ',
        '/station/none HTTP/1.1" 404 ',
        '/messages HTTP/1.1" 413 ',
    ):
        if it not in log:
            raise Difference(f"the log has no {it!r}: {log[-900:]}")


def test_certificates_are_compared_letter_by_letter(site: Site) -> None:
    message = json.dumps(
        {
            "MessageName": "TraceDesk.PartDefined",
            "UniqueID": "by-m2",
            "Source": "m2",
            "TimeStamp": "2026-03-02T06:00:00Z",
            "MessageBody": {"PartNumber": "P"},
        }
    )
    for name, subject in (
        ("capital", "M2"),
        ("longer", "m22"),
        ("before", "xm2"),
        ("more", "m2/O=x"),
    ):
        site.sign(name, subject, "clients")
    got = {
        name: site.asked("POST", "/messages", None, message, name)[0]
        for name in ("m2", "capital", "longer", "before", "more", "auditor")
    }
    agree("who may send", {name: 200 if name == "m2" else 401 for name in got}, got)


def test_a_refused_message_of_any_length_is_an_entry_whole(site: Site) -> None:
    """The proxy takes the longest one that the desk takes."""

    def noted(letters: int) -> str:
        said = {
            "MessageName": "TraceDesk.WorkStarted",
            "UniqueID": "long",
            "Source": "m2",
            "TimeStamp": "2026-03-02T06:00:00Z",
            "MessageBody": {"Machine": "M1", "Board": "B1", "Note": "x" * letters},
        }
        return json.dumps(said)

    text = noted((1 << 20) - len(noted(0)))
    agree("its status", 409, site.asked("POST", "/messages", "op", text)[0])
    csv.field_size_limit(1 << 22)
    *_, row = csv.DictReader(site.asked("GET", "/line/book?after=0", "office")[2].splitlines())
    agree("its entry", text, row["told"])


def test_nobody_logs_in_as_the_tools(site: Site) -> None:
    """A user and a certificate with the name of the tools' own source get JSON with 403, everybody
    else goes on.
    """
    for name in ("readers", "senders"):
        file = site.room / "etc" / name
        file.write_text(
            file.read_text()
            + re.findall("^op:.*\n", file.read_text(), re.M)[0].replace("op:", "tracedesk:", 1)
        )
    site.sign("tools", "tracedesk", "clients")
    password = "Basic " + base64.b64encode(b"tracedesk:op").decode()
    got = [
        site.asked("GET", "/overdue", Authorization=password),
        site.asked("GET", "/overdue", certificate="tools"),
        site.asked("GET", "/overdue", "op"),
        site.asked("GET", "/overdue", certificate="m2"),
    ]
    agree("statuses", [403, 403, 200, 200], [it[0] for it in got])
    agree("answers", {"Proxy"}, {json.loads(it[2])["Answer"] for it in got[:2]})


def test_status_is_put_by_senders(site: Site) -> None:
    worked = [
        ("PUT", STATUS, None, 403),
        ("PUT", STATUS, "office", 403),
        ("PUT", "/line/status/m2.json", "op", 403),
        ("DELETE", STATUS, "op", 403),
        ("MKCOL", STATUS, "op", 403),
        ("PUT", "/line/untraced/" + "0" * 32 + ".json", "op", 404),
        ("PUT", "/line/status/.m1.json", "op", 403),
        ("PUT", "/line/status/m1.txt", "op", 403),
        ("PUT", "/line/status/a/b.json", "op", 403),
        ("PUT", "/line/status/..%2fdesk%2fm1.json", "op", 404),
        ("GET", STATUS, "office", 403),
        ("GET", "/line/status/", None, 401),
    ]
    for method, path, user, status in worked:
        agree(
            f"{method} {path} of {user}",
            status,
            site.asked(method, path, user, "{}" if method == "PUT" else None)[0],
        )
    long = json.dumps({"Waiting": 1, "Said": "x" * (2 << 20)})
    for text, status in (('{"Waiting":0}', 201), ('{"Waiting":12}', 204), (long, 204)):
        agree("a status is put", status, site.asked("PUT", STATUS, "op", text)[0])
        agree("and is there", text, (site.room / "line/status/op.json").read_text())


def rules_of_the_firewall() -> str:
    """The packaged rules."""
    return (ROOT / "packaging/limits/nftables.conf").read_text(encoding="utf-8")


@pytest.mark.needs("fail2ban-regex")
def test_guesses_can_be_counted(site: Site) -> None:
    """fail2ban finds a wrong password in the log by the packaged expression, and no reader who asks
    whether to send.
    """
    packaged = (ROOT / "packaging/limits/fail2ban-filter.conf").read_text(encoding="utf-8")
    rule = re.findall(r"^failregex = (.*)$", packaged, re.M)[0]
    for user, password in (
        ("op", "op"),
        ("op", "guess"),
        ("office", "guess"),
        ("office", "office"),
        ("nobody", "guess"),
    ):
        for path in ("/station/may-send.json", "/overdue"):
            site.asked(
                "GET",
                path,
                Authorization="Basic " + base64.b64encode(f"{user}:{password}".encode()).decode(),
            )
    done = subprocess.run(
        ["fail2ban-regex", site.room / "log/error.log", rule],
        capture_output=True,
        text=True,
        check=True,
    )
    found = re.search(r"Failregex: (\d+) total", done.stdout)
    agree("wrong passwords in the log", "3", found and found[1])


def held(site: Site, count: int) -> list[ssl.SSLSocket]:
    """How many of so many connections with unfinished heads are open at once."""
    context = ssl.create_default_context(cafile=site.room / "etc/server.crt")
    links: list[ssl.SSLSocket] = []
    for _ in range(count):
        try:
            link = context.wrap_socket(
                socket.create_connection(("127.0.0.1", site.port), 1), server_hostname="localhost"
            )
            link.sendall(b"GET / HTTP/1.1\r\nHost: a\r\nX: ")
            links.append(link)
        except OSError:
            break
    return links


@pytest.mark.whole
@pytest.mark.root
@pytest.mark.needs("nft")
def test_a_firewall_limits_unfinished_requests(site: Site) -> None:
    """Without the rules one address takes each connection of nginx; with them it gets as many as
    they say, and others go on.
    """
    site.stop_nginx()
    file = site.room / "nginx.conf"
    file.write_text(
        file.read_text().replace(
            "events {}", "worker_processes 1; events { worker_connections 256; }"
        )
    )
    site.start_nginx()
    links = held(site, 400)
    free = len(links)
    for it in links:
        it.close()
    time.sleep(1)
    subprocess.run(
        ["nft", "-f", "-"],
        input=rules_of_the_firewall().replace("dport 443", f"dport {site.port}"),
        text=True,
        check=True,
    )
    links = held(site, 400)
    with contextlib.closing(
        socket.create_connection(("127.0.0.1", site.port), 5, ("127.0.0.2", 0))
    ) as link, ssl.create_default_context(cafile=site.room / "etc/server.crt").wrap_socket(
        link, server_hostname="localhost"
    ) as other:
        other.sendall(
            b"GET /overdue HTTP/1.1\r\nHost: localhost\r\nConnection: close\r\n"
            + f"{LOGGED_IN}\r\n".encode()
        )
        said = other.recv(15).decode()
    if free < 200 or len(links) != 100 or said != "HTTP/1.1 200 OK":
        raise Difference(
            f"without the rules {free} connections, with them {len(links)}; another address got"
            f" {said!r}"
        )
