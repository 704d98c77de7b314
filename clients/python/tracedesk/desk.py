"""A desk, or the proxy in front of it: messages are sent until answered, reports come as rows."""
from __future__ import annotations

import base64
import collections
import contextlib
import csv
import dataclasses
import email.utils
import http.client
import io
import socket
import ssl
import threading
import time
import urllib.parse
from typing import Any, Callable, Dict, Iterator, List, Mapping, Optional, Tuple, Union

from . import answers, forms, records, words

FIRST_PAUSE, LONGEST_PAUSE = 0.05, 5.0  # seconds
PATIENCE = 600.0  # seconds for one message: a desk of a month starts in two minutes
TIMEOUT = 150.0  # seconds for one answer: longer than the proxy waits for the desk
# seconds without an answer, after which that is reported, and reported again
FIRST_NEWS, NEWS = (10.0, 60.0)
# seconds to the next try after a log-in was refused, doubled each time: nobody's password is tried
# fast
SELDOM = 30.0
# OpenSSL: a certificate that isn't valid yet, or any more. Its renewal, or a clock that is set,
# mends that
NOT_VALID_NOW = (9, 10)


class GivenUp(Exception):
    """No answer in all the time that was given."""


class NotTaken(Exception):
    """Why it can't be asked so: asking again would change nothing."""


class NotThere(Exception):
    """The report is of a board, lot, reel, machine or sheet (`kind`) that isn't there."""

    def __init__(self, kind: str) -> None:
        super().__init__(f"no such {kind.lower()}: look at the name")
        self.kind = kind


def checked_url(text: str) -> urllib.parse.SplitResult:
    """The parts of a URL, if it names a machine and nobody's password; else ValueError with what is
    wrong.
    """
    parts = urllib.parse.urlsplit(text)
    if (
        parts.scheme not in ("http", "https")
        or not parts.hostname
        or parts.port == 0
        or parts.query
        or parts.fragment
    ):
        raise ValueError(
            "a URL is http://HOST:PORT or https://HOST:PORT, with a path if the desk has one there"
        )
    if parts.username is not None:
        raise ValueError("a URL names no user: --user and --password-file do")
    if not text.isascii() or any(it.isspace() or not it.isprintable() for it in text):
        raise ValueError("a URL has ASCII alone, and no spaces")
    parts.hostname.encode("idna")
    return parts


class Desk:
    """One connection, made when it is needed and again when it is broken.

    `trust` is an ssl.SSLContext, with a client's certificate where there is one; `log_in` a user
    and a password; `patience` none for ever; `tell` takes a line of news. With `waits` what a
    person has to mend, as a log-in that is refused, is reported and tried again, but seldom. A URL
    that names none is a ValueError.
    """

    def __init__(
        self,
        url: str = "http://127.0.0.1:8080",
        trust: Optional[ssl.SSLContext] = None,
        log_in: Optional[Tuple[str, str]] = None,
        *,
        patience: Optional[float] = PATIENCE,
        timeout: float = TIMEOUT,
        waits: bool = False,
        tell: Callable[[str], None] = lambda line: None,
    ) -> None:
        self.url, self.trust, self.patience, self.timeout, self.tell = (
            checked_url(url),
            trust,
            patience,
            timeout,
            tell,
        )
        self.place = f"{self.url.hostname}:{self.url.port or self.url.scheme}"
        self.path = self.url.path.rstrip("/")
        self.headers: Dict[str, str] = {}
        if log_in:
            if self.url.scheme != "https":
                raise ValueError("a log-in wants an https URL: a password is not sent in the clear")
            self.headers["Authorization"] = (
                "Basic " + base64.b64encode(":".join(log_in).encode()).decode()
            )
        self.connection: Optional[http.client.HTTPConnection] = None
        self.socket: Optional[socket.socket] = None
        self.waits, self.fault = waits, None  # type: bool, Optional[Dict[str, str]]
        self.sent_again = 0
        # whether there was a try of the last message that may have been accepted without an answer
        self.is_unanswered = False

    def __enter__(self) -> "Desk":
        return self

    def __exit__(self, *_: object) -> None:
        self.close()

    def close(self) -> None:
        """Ends the connection: the desk serves one at a time, so an idle sender holds none."""
        if self.connection is not None:
            self.connection.close()
            self.connection = self.socket = None

    def connect(self) -> http.client.HTTPConnection:
        host = str(self.url.hostname)
        if self.url.scheme == "https":
            return http.client.HTTPSConnection(
                host,
                self.url.port,
                timeout=self.timeout,
                context=self.trust or ssl.create_default_context(),
            )
        return http.client.HTTPConnection(host, self.url.port, timeout=self.timeout)

    def once(
        self, method: str, target: str, body: Optional[bytes], headers: Mapping[str, str]
    ) -> Tuple[int, bytes, Optional[str]]:
        """One request: the status, the body, and what Retry-After says."""
        if self.connection is None:
            self.connection = self.connect()
        is_sent = True
        try:
            self.connection.request(method, self.path + target, body, {**self.headers, **headers})
            self.socket = self.connection.sock
        except (BrokenPipeError, ConnectionResetError):
            if self.connection.sock is None:
                raise
            is_sent = False  # who takes no more of the message may have said why
        try:
            answer = self.connection.getresponse()
            got = (
                answer.read()
            )  # all of it, or an error: http.client counts the bytes of Content-Length
        except ValueError as odd:
            raise http.client.HTTPException(f"no HTTP: {odd}") from None
        if not is_sent:
            self.close()
        return answer.status, got, answer.getheader("Retry-After")

    @contextlib.contextmanager
    def within(self, end: Optional[float], news: Callable[[], None]) -> Iterator[None]:
        """Cuts a request that isn't answered whole in its time, by a clock of its own: a server
        that hangs, or sends a byte a second, lets the caller look at nothing. Meanwhile it reports
        that there is no answer."""
        limit = min(time.monotonic() + self.timeout, end or float("inf"))
        over = threading.Event()

        def look() -> None:
            if not over.is_set():
                news()
                if time.monotonic() >= limit:
                    self.cut()
                begin()

        def begin() -> None:
            timer = threading.Timer(max(1.0, min(limit - time.monotonic(), FIRST_NEWS)), look)
            timers[:] = [timer]
            timer.daemon = True
            timer.start()

        timers: List[threading.Timer] = []
        begin()
        try:
            yield
        finally:
            over.set()
            timers[0].cancel()

    def cut(self) -> None:
        """Ends what a request waits for, from another thread."""
        for it in (self.socket, getattr(self.connection, "sock", None)):
            with contextlib.suppress(OSError, AttributeError):
                socket.socket.shutdown(it, socket.SHUT_RDWR)  # type: ignore[arg-type]  # of TLS too

    def until(self, call: Callable[[], Tuple[Optional[Any], str, float]]) -> Any:
        """Tries until the call finds something. It returns none with why, and how long to wait at
        least.
        """
        begun, pause, seldom = time.monotonic(), FIRST_PAUSE, SELDOM
        end = None if self.patience is None else begun + self.patience
        next_news, why, wait = begun + FIRST_NEWS, "it has not answered", 0.0

        def news() -> None:
            nonlocal next_news
            now = time.monotonic()
            if now >= next_news or wait > FIRST_NEWS and next_news == begun + FIRST_NEWS:
                self.tell(f"no answer for {now - begun:.0f} seconds, the last time: {why}")
                next_news = now + NEWS

        while True:
            found, stop = None, None  # type: Optional[Any], Optional[NotTaken]
            try:
                with self.within(end, news):
                    found, why, wait = call()
            except ssl.SSLCertVerificationError as fault:
                why, wait = (
                    f"the certificate of {self.place} is not to be trusted: {fault.verify_message}",
                    0.0,
                )
                self.close()
                if fault.verify_code not in NOT_VALID_NOW:
                    stop = NotTaken(f"{why}. Look at --ca")
            except (OSError, http.client.HTTPException) as broken:
                self.close()
                why, wait = str(broken) or repr(broken), 0.0
            except NotTaken as fault:
                self.close()
                stop = fault
            if stop:
                if not self.waits:
                    raise stop
                why, wait, seldom = (
                    f"{stop}. A person has to mend that; the next try is in {seldom:.0f} seconds",
                    seldom,
                    min(2 * seldom, answers.LONGEST_WAIT),
                )
                self.fault = self.fault or {"Since": records.utc(), "Why": str(stop)}
            if found is not None:
                self.fault = None
                return found
            self.sent_again += 1
            until = time.monotonic() + max(pause, wait)
            pause = min(2 * pause, LONGEST_PAUSE)
            while (now := time.monotonic()) < until:
                if end is not None and now >= end:
                    raise stop or GivenUp(
                        f"given up: no answer for {self.patience:.0f} seconds, the last time: {why}"
                    )
                news()
                time.sleep(
                    min([until, next_news] if end is None else [until, next_news, end]) - now
                )

    def ask(self, text: bytes) -> answers.Answer:
        """Sends the same bytes until they are answered. An answer that names another message is
        none.
        """

        def call() -> Tuple[Optional[answers.Answer], str, float]:
            was, self.is_unanswered = self.is_unanswered, True
            told = answers.verdict(
                *self.once("POST", "/messages", text, {"Content-Type": "application/json"})
            )
            if told.meaning is answers.Meaning.STOP:
                self.is_unanswered = was
                raise NotTaken(told.why)
            if told.answer is None or answers.is_of(told.answer, text):
                self.is_unanswered = was or told.answer is None
                return told.answer, told.why, told.wait
            self.close()
            return (
                None,
                (
                    "what came is the answer to another message:"
                    f" {told.answer.text[:200].decode(errors='replace')}"
                ),
                0.0,
            )

        answer: answers.Answer = self.until(call)
        return answer

    def send(self, message: Union[forms.Message, bytes], is_tried: bool = False) -> answers.Answer:
        """Sends the same bytes until they are answered, and returns the answer. `is_tried` is
        whether a run before may have sent them.

        A message may have been accepted, its answer lost, and the desk begun anew: then the new
        desk refuses its UniqueID. It knows for each UniqueID of its archive the Source and the
        minute, and says so to `answers.question`.
        """
        text = message if isinstance(message, bytes) else message.text
        if len(text) > forms.LONGEST_MESSAGE:
            raise NotTaken(words.STOPS[413])
        self.is_unanswered = is_tried
        answer = self.ask(text)
        if (
            isinstance(answer, answers.Refused)
            and answer.refusal == "IdReused"
            and self.is_unanswered
            and isinstance(self.ask(answers.question(text)), answers.Accepted)
        ):
            self.tell(
                f"{answer.unique_id} was accepted before the desk was begun anew: its first answer"
                " is in the archive"
            )
            answer = dataclasses.replace(answer, archived=True)
        self.is_unanswered = False
        return answer

    # --- Reports

    def checked(self) -> Tuple[List[str], bool]:
        """What is right and wrong of the desk, its certificate, the clock and the log-in."""
        connection, told = self.connect(), []  # type: http.client.HTTPConnection, List[str]
        connection.timeout = min(self.timeout, 10.0)
        try:
            connection.connect()
            told.append(f"desk: {self.place} listens")
            if isinstance(connection.sock, ssl.SSLSocket):
                told.append(
                    "certificate: trusted, until"
                    f" {dict(connection.sock.getpeercert() or {}).get('notAfter')}"
                )
            connection.request("GET", self.path + "/overdue", None, self.headers)
            answer = connection.getresponse()
            body, date = answer.read(), answer.getheader("Date")
        except ssl.SSLCertVerificationError as fault:
            return [
                *told,
                f"certificate: NOT trusted: {fault.verify_message}. Look at --ca, and at the clock",
            ], False
        except (OSError, http.client.HTTPException) as fault:
            return [*told, f"desk: NO answer of {self.place}: {fault or repr(fault)}"], False
        finally:
            connection.close()
        ahead = (
            0.0
            if date is None
            else time.time() - email.utils.parsedate_to_datetime(date).timestamp()
        )
        told.append(
            "clock: not compared, since the answer has no date"
            if date is None
            else (
                f"clock: {'right' if abs(ahead) < 60 else 'WRONG'}, {abs(ahead):.0f} seconds"
                f" {'ahead of' if ahead > 0 else 'behind'} the other's"
            )
        )
        is_desk = answer.status == 200 and body.startswith(b"board,")
        if answer.status in (401, 403):
            told.append(f"log-in: REFUSED: {words.STOPS[answer.status]}")
        elif is_desk:
            told.append(
                "log-in: accepted" if self.headers or self.trust else "log-in: none is wanted"
            )
        else:
            told.append(
                f"desk: status {answer.status}, which is no answer of a desk:"
                f" {body[:100].decode(errors='replace')}"
            )
        return told, is_desk and abs(ahead) < 60

    def got(self, target: str, seconds: float) -> Tuple[int, bytes]:
        """One question, without another try; an error if it isn't answered in so many seconds."""
        try:
            with self.within(time.monotonic() + seconds, lambda: None):
                status, body, _ = self.once("GET", target, None, {})
        except Exception:
            self.close()
            raise
        return status, body

    def report(self, path: str, **asked: object) -> List[Any]:
        """The rows of a report, as `desk.report("/trace/lot", lot="L-77", detail=4)`: tuples with
        the names of its columns.
        """
        target = path + "?" + urllib.parse.urlencode(asked)

        def call() -> Tuple[Optional[List[Any]], str, float]:
            status, body, retry_after = self.once("GET", target, None, {})
            if status == 200:
                return rows_of(body), "", 0.0
            told = answers.read(body)
            if status == 404 and isinstance(told, answers.NotFound):
                raise NotThere(told.kind)
            if status in words.AGAIN or status >= 500:
                return None, f"status {status}", answers.seconds_of(retry_after)
            raise NotTaken(
                f"status {status}: {words.STOPS.get(status, 'look at what was asked')}:"
                f" {body[:200].decode(errors='replace')}"
            )

        rows: List[Any] = self.until(call)
        return rows

    def reel(self, reel: str) -> Any:
        """A reel's card."""
        return self.report("/reel", reel=reel)[0]

    def slots(self, machine: str) -> List[Any]:
        """What is mounted on a machine."""
        return self.report("/slots", machine=machine)


def minutes(text: str) -> Union[int, str, None]:
    """Minutes of floor life: none at level 1, where there is no limit; or unbaked, or short."""
    return None if text == "unlimited" else int(text) if text.isdecimal() else text


READERS: Dict[str, Callable[[str], Any]] = {
    "text": str,
    "number": int,
    "yes or no": lambda text: text == "yes",
    "minutes": minutes,
}


def rows_of(body: bytes) -> List[Any]:
    """The rows of a report."""
    text = body.decode()
    lines = csv.reader(io.StringIO(text, newline=""), strict=True)
    header: List[str] = next(lines, [])
    if not header or any(it not in words.COLUMNS for it in header):
        raise NotTaken(
            f"a report of a desk is wanted, and one with the columns {','.join(header)[:200]} came:"
            " the desk is of another version, or --url leads elsewhere"
        )
    rows = list(lines)
    if not text.endswith("\n") or any(len(row) != len(header) for row in rows):
        raise NotTaken(f"a report came that is cut off: its end is {text[-100:]!r}. Ask again")
    kind = collections.namedtuple("Row", header)  # type: ignore[misc]  # each report has its own
    readers = [READERS[words.COLUMNS[it]] for it in header]
    return [kind(*(read(value) for read, value in zip(readers, row))) for row in rows]


def trust_of(
    ca: Optional[str] = None, cert: Optional[str] = None, key: Optional[str] = None
) -> ssl.SSLContext:
    """Whom to trust: who signed the desk's certificate, or whom this machine trusts; with a
    certificate of one's own.
    """
    trust = ssl.create_default_context(cafile=ca)
    if cert:
        trust.load_cert_chain(cert, key)
    return trust
