"""No message is lost, none acts twice, and their order is kept, whatever is killed between a
machine and its desk.
"""
from __future__ import annotations

import pathlib
import random
import sys
import time
from typing import Any

import killed
import pytest
from at_port import SENDER
from station_site import Site
from tracedesk_dev import shift

LINES_OF_A_BOARD = 8  # of a shift, at least


class Plant(killed.Run):
    """A machine that writes files into a folder, its sender, nginx and a desk."""

    kinds = (
        ("sender",),
        ("proxy",),
        ("sender", "desk"),
        ("sender",),
        ("proxy", "desk"),
        ("desk",),
        ("proxy",),
        ("sender", "proxy"),
    )

    def __init__(self, site: Site, seed: int, messages: int, kills: int) -> None:
        super().__init__(pathlib.Path(site.program), site.room, seed, kills)
        self.site, self.out = site, site.room / "out"
        self.out.mkdir()
        (site.room / "password").write_text("op\n")
        self.lines = [
            it.text for it in shift.Shift(seed, max(2, round(messages / LINES_OF_A_BOARD))).lines
        ][:messages]
        self.clean = killed.fed(
            self.program, site.room / "clean", b"\n".join(self.lines) + b"\n"
        ).splitlines()

    def words(self) -> dict[str, list[Any]]:
        site = self.site
        return {
            "desk": killed.serving(self.program, site.room, site.desk_port),
            "proxy": site.proxy_words(),
            "sender": [
                sys.executable,
                SENDER,
                "--url",
                site.url,
                "--ca",
                site.room / "etc/server.crt",
                "--user",
                "op",
                "--password-file",
                site.room / "password",
                "--timeout",
                "20",
                "--spool",
                self.spool,
                "--follow",
                self.out,
            ],
        }

    def write(self) -> None:
        """A file is written under another ending, and renamed."""
        chance, at, number = random.Random(self.seed + 1), 0, 0
        while at < len(self.lines):
            some = chance.randint(1, 9)
            file = self.out / f"{number:08}.tmp"
            file.write_bytes(b"\n".join(self.lines[at : at + some]) + b"\n")
            file.rename(file.with_suffix(".jsonl"))
            at, number = at + some, number + 1
            time.sleep(chance.uniform(0, 0.01))
        self.is_written = True

    def is_done(self) -> bool:
        return (
            self.is_written
            and self.answered() >= len(self.lines)
            and not self.waits()
            and not any(self.out.iterdir())
        )


@pytest.mark.needs("nginx", "openssl")
def test_a_shift_is_sent_through_nginx_while_all_is_killed(
    program: pathlib.Path, tmp_path: pathlib.Path, seed: int, messages: int = 400, kills: int = 12
) -> None:
    """By a spool, with TLS and a password; some kills hit two of the sender, nginx and the desk."""
    run = Plant(Site(str(program), str(tmp_path)), seed, messages, kills)
    try:
        run.go()
        run.look_at(run.lines)
    finally:
        run.end()


@pytest.mark.whole
@pytest.mark.needs("nginx", "openssl")
def test_ten_thousand_messages_are_sent_under_200_kills(
    program: pathlib.Path, tmp_path: pathlib.Path, seed: int
) -> None:
    test_a_shift_is_sent_through_nginx_while_all_is_killed(program, tmp_path, seed, 10_000, 200)
