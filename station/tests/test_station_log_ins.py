"""Who may read and who may send, and that a page of another site commands nothing."""
import concurrent.futures
import http.server
import json
import threading
import time
from typing import Any

import pytest
from station_operator import Operator
from station_plant import accepted, whole
from station_site import Site, wait_for
from tracedesk_dev.trial import Difference

pytestmark = pytest.mark.browser


def test_readers_may_only_read(site: Site) -> None:
    """Who may send, who may read, who is nobody; and the desk's own port has nothing of the
    page.
    """
    wanted = {
        ("GET", "/station/", None): 401,
        ("GET", "/station/", "office"): 200,
        ("GET", "/station/codes.html", "office"): 200,
        ("GET", "/station/desk/slots?machine=M1", "office"): 200,
        ("GET", "/station/desk/slots?machine=M1", None): 401,
        ("POST", "/station/messages", None): 403,
        ("POST", "/station/messages", "office"): 403,
        ("POST", "/station/desk/slots", "op"): 403,
        ("POST", "/station/desk/messages", "office"): 403,
        ("GET", "/station/desk/messages", "office"): 404,
        ("GET", "/station/may-send.json", "office"): 403,
        ("GET", "/station/may-send.json", "op"): 200,
        ("GET", "/station/log-in", "office"): 401,
        ("GET", "/station/log-in", "op"): 200,
        ("GET", "/station/../etc/senders", "op"): 404,
        ("DELETE", "/station/", "op"): 403,
    }
    for (method, path, user), status in wanted.items():
        got, headers, _ = site.asked(method, path, user, "{}" if method == "POST" else None)
        if got != status or (
            got == 200
            and "desk/" not in path
            and "default-src 'self'" not in headers.get("Content-Security-Policy", "")
        ):
            raise Difference(f"{method} {path} of {user}: wanted {status}, got {got}")
    if "NotFound" not in site.get("/station/"):
        raise Difference("the desk's own port has the page")
    with Operator(site, user="office") as it:
        it.ready()
        it.scan("S/M1/1", "K-1")
        if (
            "only read" not in it.verdict()[1]
            or it.scans()
            or "may only read" not in it.text("state")
        ):
            raise Difference("a reader's scan")
    print(f"{len(wanted)} requests; a reader's scan is not even made")


IMPORT = "/imports/counts?id=%s&source=store&time=2026-03-02T06:32:00Z"
# What a page of another site can do unasked: a form that takes the place of the page itself, which
# has the log-in that the browser keeps; fetch and a beacon.
FORM = """
const [path, enctype, text] = arguments, made = document.createElement('form'), field = document.createElement('input');
[made.method, made.action, made.enctype] = ['post', path, enctype];
[field.name, field.value] = enctype === 'text/plain' && text.endsWith('}}') ? [text.slice(0, -2) + ',"x":"', '"}}'] : [text, ''];
made.append(field);
document.body.append(made);
made.submit();
"""
FETCHES = """
const [to, message, file] = arguments, send = (path, type, text) => fetch(to + path, { method: 'POST', mode: 'no-cors', credentials: 'include', body: new Blob([text], { type }) }).catch(() => {});
navigator.sendBeacon(to + '/messages', new Blob([message], { type: 'text/plain' }));
const tried = ['/messages', '/station/messages'].flatMap((path) => ['text/plain', '', 'application/json'].map((type) => send(path, type, message)));
tried.push(...['text/plain', 'text/csv'].map((type) => send(file, type, 'reel,quantity\\nK-1,7\\n')));
return Promise.all(tried).then(() => tried.length + 1);
"""


class Elsewhere(http.server.BaseHTTPRequestHandler):
    """A page of another site."""

    def do_GET(self) -> None:
        self.send_response(200)
        self.send_header("Content-Type", "text/html")
        self.end_headers()
        self.wfile.write(b"<!DOCTYPE html><title>elsewhere</title><body>")

    def log_message(self, *_: Any) -> None:
        pass


def test_another_site_commands_nothing(site: Site) -> None:
    """A page of another site, and one of the same machine's other port, in the browser of an
    operator who is logged in: nothing of it comes to the desk.
    """
    plain = {
        "MessageName": "TraceDesk.ReelOpened",
        "Source": "x",
        "TimeStamp": time.strftime("%Y-%m-%dT%H:%M:%SZ", time.gmtime()),
    }
    message = json.dumps({**plain, "UniqueID": "by-request", "MessageBody": {"Reel": "K-1"}})
    wanted: list[tuple[dict[str, Any], int]] = [
        ({}, 200),
        ({"Content_Type": "application/json; charset=utf-8"}, 200),
        ({"Origin": site.url, "Sec_Fetch_Site": "same-origin"}, 200),
        ({"Sec_Fetch_Site": "none"}, 200),
        ({"Content_Type": None}, 415),
        ({"Content_Type": "text/plain"}, 415),
        ({"Content_Type": "application/jsonx"}, 415),
        ({"Origin": "https://elsewhere.example"}, 403),
        ({"Origin": "null"}, 403),
        ({"Origin": f"{site.url}.example"}, 403),
        ({"Sec_Fetch_Site": "same-site"}, 403),
        ({"Sec_Fetch_Site": "cross-site"}, 403),
        ({"Origin": site.url, "Sec_Fetch_Site": "cross-site"}, 403),
    ]
    for path in ("/messages", "/station/messages"):
        for headers, status in wanted:
            if (got := site.asked("POST", path, "op", message, **headers))[0] != status or (
                status != 200 and '"Proxy"' not in got[2]
            ):
                raise Difference(f"{path} with {headers}: wanted {status}, got {got}")
    imports: list[tuple[dict[str, Any], int]] = [
        ({"Content_Type": "text/csv"}, 409),
        ({}, 415),
        ({"Content_Type": "text/csv", "Sec_Fetch_Site": "cross-site"}, 403),
    ]
    for headers, status in imports:
        if (
            got := site.asked(
                "POST", IMPORT % "by-request", "op", "reel,quantity\nNO-SUCH,7\n", **headers
            )
        )[0] != status:
            raise Difference(f"an import with {headers}: wanted {status}, got {got}")
    tried, server = 0, http.server.ThreadingHTTPServer(("127.0.0.1", 0), Elsewhere)
    threading.Thread(target=server.serve_forever, daemon=True).start()
    with Operator(site) as it:
        it.ready()
        before = accepted(site)
        for number, host in enumerate(("127.0.0.1", "localhost")):
            elsewhere, message = f"http://{host}:{server.server_port}/", json.dumps(
                {**plain, "UniqueID": f"by-form-{number}", "MessageBody": {"Reel": "K-2"}}
            )
            forms = [
                (path, enctype, message)
                for path in ("/messages", "/station/messages")
                for enctype in (
                    "text/plain",
                    "application/x-www-form-urlencoded",
                    "multipart/form-data",
                )
            ]
            for path, enctype, body in [
                *forms,
                (IMPORT % f"by-form-{number}", "text/plain", "reel,quantity"),
            ]:
                it.page.get(elsewhere)
                it.script(FORM, site.url + path, enctype, body)
                wait_for(
                    "the form's answer",
                    lambda: site.url in it.page.current_url and '"Proxy"' in it.page.page_source,
                )
                tried += 1
            it.page.get(elsewhere)
            tried += it.script(FETCHES, site.url, message, IMPORT % f"by-form-{number}")
        time.sleep(0.5)
        if (after := accepted(site)) != before:
            raise Difference(f"the desk took {after - before}")
        it.load()
        it.ready().does("A/OPEN", "K-1", holds=("OPENED",))
    server.shutdown()
    server.server_close()
    print(
        f"{2 * len(wanted) + 3} requests by their headers; {tried} forms, fetches and beacons of"
        " two other sites in a browser that is logged in: none acted"
    )


def test_certificates_read_or_send(site: Site) -> None:
    """A certificate that is named as a sender's sends; another one only reads, and without the file
    so do all.
    """
    message = json.dumps(
        {
            "MessageName": "TraceDesk.ReelOpened",
            "UniqueID": "by-m2",
            "Source": "m2",
            "TimeStamp": time.strftime("%Y-%m-%dT%H:%M:%SZ", time.gmtime()),
            "MessageBody": {"Reel": "K-1"},
        }
    )
    wanted = {
        ("GET", "/overdue"): (200, 200, 200),
        ("GET", "/station/"): (200, 200, 200),
        ("POST", "/messages"): (200, 401, 401),
        ("POST", "/station/messages"): (200, 403, 403),
        ("GET", "/station/may-send.json"): (200, 403, 403),
        ("POST", IMPORT % "by-m2"): (409, 401, 401),
    }

    def asked(certificate: str | None) -> Any:
        return [
            site.asked(
                method,
                path,
                None,
                (
                    None
                    if method == "GET"
                    else "reel,quantity\nNO-SUCH,7\n"
                    if "imports" in path
                    else message
                ),
                certificate,
                **({"Content_Type": "text/csv"} if "imports" in path else {}),
            )[0]
            for method, path in wanted
        ]

    got = [asked("m2"), asked("auditor")]
    (site.room / "etc/certificates.conf").unlink()
    site.stop_nginx()
    site.start_nginx()
    got.append(asked("m2"))
    if list(zip(*got)) != list(wanted.values()):
        raise Difference(
            f"of a sender's, a reader's, and without the file: {list(zip(wanted, zip(*got)))}"
        )
    print(f"{len(wanted)} requests by each")


KEPT = 2  # seconds for which the proxy keeps an answer of the desk, at least


def test_ten_stations_ask_once(site: Site) -> None:
    """Of looks within two seconds one is a connection of the desk, as of twenty at the same moment;
    an answer to a POST is never kept.
    """
    before = site.connections()
    with concurrent.futures.ThreadPoolExecutor(20) as threads:
        path = "/station/desk/slots?machine=M1"
        asked = [threads.submit(site.asked, "GET", path, "op") for _ in range(20)]
        got = [one.result() for one in asked]
    used = site.connections() - before
    moments = sorted({float(headers["X-Desk-Answered"]) for _, headers, _ in got})
    soon = [later - first for first, later in zip(moments, moments[1:]) if later - first < KEPT]
    if (
        used != len(moments)
        or soon
        or {it[0] for it in got} != {200}
        or len({it[2] for it in got}) != 1
    ):
        raise Difference(f"20 looks were {used} connections, with answers of {moments}")
    part = json.dumps(
        {
            "MessageName": "TraceDesk.ReelOpened",
            "UniqueID": "once",
            "Source": "t",
            "TimeStamp": time.strftime("%Y-%m-%dT%H:%M:%SZ", time.gmtime()),
            "MessageBody": {"Reel": "K-1"},
        }
    )
    before = site.connections()
    twice = [site.asked("POST", "/station/messages", "op", part) for _ in range(2)]
    if (
        site.connections() - before != 2
        or twice[0][2] != twice[1][2]
        or "X-Station-Cache" in twice[1][1]
    ):
        raise Difference("a POST came from the cache")
    print(f"20 looks at once were {used} connections; 2 equal POSTs were 2")


def test_whether_it_may_send_is_asked_again(site: Site) -> None:
    """A look at may-send.json that fails makes no reader of a sender."""
    with Operator(site, begin=False) as it:
        it.open()
        with it.without("*/may-send.json"):
            it.load()
            wait_for(
                "it says what is not known",
                lambda: "whether this log-in may send" in it.text("state"),
            )
            if "only read" in it.text("state"):
                raise Difference(it.text("state"))
            it.does("A/OPEN", "K-1", kind="refused", holds=("not known yet",))
        wait_for("it is known", lambda: "log-in" not in it.text("state"))
        it.does("A/OPEN", "K-1", holds=("OPENED",))
        whole(site, it, 1)
    print("not known, then known without a reload")


def test_an_address_with_a_log_in_is_a_station_that_works(site: Site) -> None:
    """As a kiosk's bookmark has it: the set-up is read, and a scan is answered."""
    with Operator(site) as it:
        log_in = site.url.replace("https://", f"https://{it.user}:{it.user}@")
        it.page.get(f"{log_in}/station/?station={it.name}")
        it.ready()
        it.scan("S/M1/1", "K-1")
        it.verdict(("accepted", "refused"))
