"""Takes the messages of a broker: what all brokers have in common, and a queue of AMQP 1.0."""
from __future__ import annotations

import argparse
import collections
import contextlib
import gzip
import importlib
import io
import time
import zlib
from typing import Any, Deque, List, NoReturn, Tuple, Type

from bridge import Bridge
from tracedesk import console

LOOK = 0.2  # seconds without a message, after which the bridge looks around
LONGEST = 1 << 26  # bytes of a message, once it is unpacked
HEARTBEAT = 30  # seconds
TRUSTED = "/etc/ssl/certs/ca-certificates.crt"
FIRST_PAUSE, LONGEST_PAUSE = 0.2, 10.0  # seconds without a broker


class Source:
    """A broker that is asked again, without an end, whenever its connection breaks: what isn't
    acknowledged comes again. `asked` has the words of the command line.
    """

    module, package = "", ""  # of Python, and of Debian
    faults: Tuple[Type[Exception], ...] = (OSError, ValueError)

    def __init__(self, bridge: Bridge, asked: argparse.Namespace) -> None:
        try:
            self.its: Any = importlib.import_module(self.module)
        except ImportError as fault:
            why = f"{fault}: apt-get install {self.package}, and start this by /usr/bin/python3"
            raise ImportError(why) from None
        self.bridge, self.asked = bridge, asked
        self.pause, self.why = FIRST_PAUSE, ""
        # what isn't acknowledged yet, each with its messages in the spool
        self.open: Deque[Tuple[int, List[str]]] = collections.deque()

    def connected(self) -> Any:
        """A connection."""

    def take(self, link: Any) -> None:
        """Takes from a connection, until it breaks."""

    def acknowledge(self, link: Any, number: int) -> None:
        """Acknowledges a message."""

    def end(self, link: Any) -> None:
        """Ends a connection."""

    def is_answered(self) -> bool:
        """Whether the answers to what came first are on disk."""
        return bool(self.open) and all(map(self.bridge.kept.is_answered, self.open[0][1]))

    def acknowledge_all(self, link: Any) -> None:
        """What came first is acknowledged first, once its answers are on disk."""
        while self.is_answered():
            self.acknowledge(link, self.open.popleft()[0])
            self.pause, self.why = FIRST_PAUSE, ""

    def run(self) -> NoReturn:
        while True:
            link = None
            try:
                link = self.connected()
                self.take(link)
            except self.faults as fault:
                why = str(fault) or repr(fault)
                if why != self.why:
                    console.tell(f"{self.asked.broker}: {why}. It is asked again")
                self.why = why
            # what is broken is closed with errors of many kinds
            with contextlib.suppress(Exception):
                self.end(link)
            time.sleep(self.pause)
            self.pause = min(2 * self.pause, LONGEST_PAUSE)


# --- The bytes of a message


def unpacked(message: Any) -> bytes:
    """The bytes of a message of a broker, which may be packed. A body that is neither a text nor
    bytes is no record: who looks at it sees it as Python spells it.
    """
    body = message.body
    if isinstance(body, (bytes, memoryview, bytearray)):
        return unzipped(bytes(body))
    return (body if isinstance(body, str) else repr(body)).encode(errors="surrogatepass")


def unzipped(data: bytes) -> bytes:
    """What gzip has packed, whole; else the bytes as they are."""
    if data[:2] == b"\x1f\x8b":
        with contextlib.suppress(OSError, EOFError, zlib.error):
            text = gzip.GzipFile(fileobj=io.BytesIO(data)).read(LONGEST + 1)
            return text if len(text) <= LONGEST else data
    return data


# --- AMQP 1.0


def message_of(proton: Any) -> Any:
    """Messages whose body is what came, where that can't be read, as a text that is no UTF-8."""

    class Message(proton.Message):  # type: ignore[misc]  # proton has no types
        def decode(self, data: Any) -> None:
            try:
                super().decode(data)
            except (ValueError, TypeError, proton.ProtonException):
                self.clear()
                self.body = bytes(data)

    return Message


def connection_of(proton: Any) -> Any:
    """Connections that also tell when the broker ends their session: so RabbitMQ says that there is
    no such queue.
    """
    handlers = importlib.import_module("proton._handlers")
    utils = importlib.import_module("proton.utils")

    vars(handlers)["Message"] = message_of(proton)  # proton has no other place for it

    # proton has no types
    class Connection(utils.BlockingConnection):  # type: ignore[misc,name-defined]  # see above
        def on_session_remote_close(self, event: Any) -> None:
            if not self.closing:
                raise proton.SessionException(str(event.session.remote_condition))

    return Connection


class Queue(Source):
    """A queue of a broker of AMQP 1.0."""

    module, package = "proton", "python3-qpid-proton"

    def connected(self) -> Any:
        asked, domain, proton = self.asked, None, self.its
        self.faults = proton.ProtonException, OSError
        if asked.broker.startswith("amqps:"):
            domain = proton.SSLDomain(proton.SSLDomain.MODE_CLIENT)
            domain.set_trusted_ca_db(asked.ca or TRUSTED)
            domain.set_peer_authentication(proton.SSLDomain.VERIFY_PEER_NAME)
        who = {"allowed_mechs": "ANONYMOUS"}
        if asked.user:
            who = {"user": asked.user, "password": asked.password, "allowed_mechs": "PLAIN"}
        return connection_of(proton)(
            asked.broker, timeout=20, ssl_domain=domain, heartbeat=HEARTBEAT, **who
        )

    def acknowledge(self, link: Any, number: int) -> None:
        link.accept()

    def end(self, link: Any) -> None:
        link.close()

    def take(self, link: Any) -> None:
        receiver = link.create_receiver(self.asked.queue, credit=0)
        self.open.clear()
        while True:
            self.acknowledge_all(receiver)
            self.bridge.look()
            with contextlib.suppress(self.its.Timeout):
                if len(self.open) < self.asked.window:
                    message = receiver.receive(timeout=0.02 if self.open else LOOK)
                    came = self.bridge.take(unpacked(message), self.asked.queue)
                    self.open.append((0, came.names))
                else:
                    link.wait(self.is_answered, timeout=LOOK)
