"""The sender by TLS, with a password or a certificate."""
from __future__ import annotations

import base64
import pathlib
import ssl
from typing import Any, Tuple

import pytest
import sending
from station_site import certificate

PASSWORD = base64.b64encode(b"m1:secret: 1").decode()


class Answering(sending.Answering):
    """Wants a certificate, or a password."""

    def do_POST(self) -> None:
        its = self.connection
        is_certified = isinstance(its, ssl.SSLSocket) and its.getpeercert()
        if is_certified or self.headers["Authorization"] == f"Basic {PASSWORD}":
            super().do_POST()
        else:
            self.body()
            self.reply(401, b'{"Answer":"Proxy","Fault":"LogIn"}')


class Lab(sending.Lab):
    answering = Answering

    def __init__(self, room: pathlib.Path) -> None:
        super().__init__(room)
        for name in ("server", "m2", "other"):
            certificate(room, name, name)
        context = ssl.create_default_context(ssl.Purpose.CLIENT_AUTH, cafile=room / "m2.crt")
        context.verify_mode = ssl.CERT_OPTIONAL
        context.load_cert_chain(room / "server.crt", room / "server.key")
        self.server.socket = context.wrap_socket(self.server.socket, server_side=True)
        self.url = self.url.replace("http://127.0.0.1", "https://localhost")

    def expect(self, *words: Any, ends: Tuple[int, int], said: str = "", **how: Any) -> None:
        """Runs the sender: its status, and how many messages are sent by then."""
        done = self.send("--patience", "1", *words, **how)
        assert (done.returncode, len(self.names("sent"))) == ends, done.stderr
        assert said in done.stderr.decode()


@pytest.mark.needs("openssl")
def test_tls_is_spoken(tmp_path: pathlib.Path) -> None:
    """With a password or a certificate; and with what is wrong of them nothing is sent."""
    lab = Lab(tmp_path)
    (tmp_path / "password").write_text("secret: 1\n")
    ca = ["--ca", tmp_path / "server.crt"]
    m1 = ["--user", "m1", "--password-file", tmp_path / "password"]
    m2 = ["--cert", tmp_path / "m2.crt", "--key", tmp_path / "m2.key"]
    right, wrong = ({"TRACEDESK_PASSWORD": it} for it in ("secret: 1", "other"))
    for number in range(4):
        lab.send("--put", "-", given=sending.line(f"u{number}"))
    lab.expect(*ca, ends=(4, 0), said="log-in")
    lab.expect(*m1, ends=(4, 0), said="certificate")
    elsewhere = lab.url.replace("localhost", "127.0.0.1")
    lab.expect(*ca, *m1, "--url", elsewhere, ends=(4, 0), said="certificate")
    lab.expect(*ca, "--user", "m1", ends=(4, 0), said="log-in", env=wrong)
    lab.expect(*ca, "--user", "m1", ends=(0, 4), env=right)
    lab.send("--put", "-", given=sending.line("u4"))
    lab.expect(*ca, *m2, ends=(0, 5))
    lab.expect("--ca", tmp_path / "none", ends=(2, 5))
    lab.expect(*m1, "--url", "http://127.0.0.1:1", ends=(2, 5), said="in the clear")
    lab.end()
