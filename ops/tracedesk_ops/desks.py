"""A desk that a subcommand asks over HTTP, or the proxy in front of it: --url and the log-in."""
from __future__ import annotations

import argparse
import pathlib

from tracedesk import Desk, desk
from tracedesk_ops import plant, reader_of


def reader_for(name: str, text: str | None, has_url: bool = True) -> argparse.ArgumentParser:
    """A reader of the words of a subcommand that asks a desk."""
    reader = reader_of(text)
    reader.prog = f"tracedesk-ops {name}"
    if has_url:
        reader.add_argument("--url", metavar="URL", default="http://127.0.0.1:8080")
    reader.add_argument("--ca", metavar="FILE")
    reader.add_argument("--user", metavar="NAME")
    reader.add_argument("--password-file", type=pathlib.Path, metavar="FILE")
    return reader


def understood(
    reader: argparse.ArgumentParser, words: list[str] | None, *urls: str
) -> argparse.Namespace:
    """The words; it ends where they name no desk, by --url or by these words."""
    asked = reader.parse_args(words)
    if bool(asked.user) != bool(asked.password_file):
        reader.error("--user wants --password-file FILE")
    try:
        for name in urls or ("url",):
            client(asked, 1.0, url=getattr(asked, name))
    except (ValueError, OSError) as fault:
        reader.error(str(fault))
    return asked


def client(asked: argparse.Namespace, patience: float, path: str = "", url: str = "") -> Desk:
    """Whom to ask, below a path of the URL, which is that of --url or this one; an answer is waited
    for so many seconds.
    """
    url = url or asked.url
    log_in = None
    if asked.user:
        log_in = asked.user, asked.password_file.read_text(encoding="utf-8").rstrip("\r\n")
    trust = desk.trust_of(asked.ca) if url.startswith("https:") else None
    return Desk(
        url.rstrip("/") + path, trust, log_in, patience=patience, timeout=patience, tell=plant.tell
    )
