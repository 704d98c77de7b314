"""Sends messages to a desk, one after the other, until each has its answer: none is lost and none
acts twice.

usage: tracedesk-send [--url URL] [WHO] [HOW] --spool FILE [--follow FOLDER | --follow - | --stay]
       tracedesk-send --spool FILE --put MESSAGES | --put -
       tracedesk-send --spool FILE --list STATE | --show NAME .. | --show STATE
       tracedesk-send --spool FILE --again all | --again NAME .. | --again TIME | --drop NAME ..
       tracedesk-send --spool FILE --release FEEDER ..
       tracedesk-send [--url URL] [WHO] --check
       tracedesk-send --validate MESSAGES | --version

examples:
  tracedesk-send --spool m1 --follow - < first.jsonl
  tracedesk-send --spool m1 --list sent
  tracedesk-send --url https://desk.plant --ca server.crt --user m1 --password-file m1.password \\
      --spool m1 --follow /m1/out
  machine | tracedesk-send --url https://desk.plant --ca server.crt --cert m2.crt --key m2.key \\
      --spool m2 --follow -
  tracedesk-send --spool m1 --put mended.jsonl
  tracedesk-send --spool m1 --again 000000000007
  tracedesk-send --spool m1 --again 2026-03-02T06:00Z
  tracedesk-send --spool m1 --stay --status /var/lib/tracedesk/status
  tracedesk-send --url https://desk.plant --ca server.crt --user m1 --password-file m1.password \\
      --spool m1 --follow /m1/out --interlock /usr/local/bin/permit --machine M1
  tracedesk-send --url https://desk.plant --ca server.crt --user m1 --password-file m1.password \\
      --check
  tracedesk-send --validate first.jsonl

It sends what waits in the spool FILE, and each message is on disk there before it is sent. Started
again after whatever ended it, it goes on where it was. One sender has a spool at a time; any number
may put messages in. The file is on a disk of this computer.
--follow FOLDER  takes in the files *.json and *.jsonl of FOLDER, by their names, a message a line,
                 and deletes each once it is in the spool. Write a file under another ending and
                 rename it, so that it appears whole. A name may be used again at any time
--follow -       takes in the lines of standard input, and prints 'kept NAME' for each once it is on
                 disk
--stay           goes on when nothing waits, for programs that put messages in
--put            puts lines into the spool and sends nothing
--list STATE     lists the messages that are waiting, sent, aside or dropped, or all, a line of JSON
                 each with the answer, and why one was set aside
--show NAME      prints messages as they are, or those of a STATE
--drop NAME      is done with messages that were set aside
--again          puts requests that were set aside behind those that wait, once the fault is mended.
                 A report of work is about the past, so it is judged by the reels of its time or not
                 at all: it is named, and never sent again, with status 6. With a TIME, as
                 2026-03-02T06:00Z, puts each message that was accepted since then before those that
                 wait, and none that was refused: after the desk was restored from a copy of that
                 time. Messages that the desk has already aren't done twice. No sender may run
                 meanwhile
--status         where NAME.json lists every few seconds the messages that wait or were set aside,
                 and the state of machines: a folder, or https://desk.plant/line/status
                 The proxy takes it under the name of the log-in only
--name           the sender's name there (that of --user, else of the spool)
--interlock      a command that is called as COMMAND MACHINE WORD, at each change and every --every
                 seconds (0.5). WORD is 'go BOARD' while the line says that BOARD may be worked on,
                 nothing waits here, and who feeds the spool lives; else 'stop CAUSE'.
                 docs/interlock.md has the rules
--release        says that a bridge or a program feeds the spool no more: else it stops the machine
--machine NAME   a machine of the interlock; --silence SECONDS without an answer stop it (10). One
                 sender has a machine
--check          says whether the desk, its certificate, the clock and the log-in are right
--validate       looks at messages, a line each, and sends nothing: '-' is standard input. Members
                 that nobody reads are warned of
--keep-days N    how long the spool keeps sent messages for --again TIME (7): longer than from one
                 copy of the desk to the next
--keep-mib N     how much disk they may take (512). The oldest go first, and standard error says so

No answer is a connection that breaks, a port where nobody listens, status 408, 429 or 5xx of the
desk or of a server in front of it, an answer that was cut, the answer to another message, and a
certificate that isn't valid yet or any more. Then the same bytes are sent again, after a wait that
grows, or that Retry-After asks for, ten minutes at most: a message that was accepted the first time
gets its first answer and changes nothing. An answer is a desk's text for a message, with status
200, 202, 400, 409 or 422. Anything else is for a person to mend: a log-in that is refused, a
certificate that is another's, an answer that is no desk's. It is reported, on standard error and in
the status, and tried again after 30 seconds, then after twice as long each time, ten minutes at
most.

A message that was accepted, whose answer was lost, and whose desk was then begun anew, is refused
there: IdReused. The desk is asked whether its archive has that message. If it has, the message is
done, and a line on standard error says so.

A message that is refused, faulty, too long, or Ignored though its name begins with TraceDesk. was
not taken. It is set aside in the spool, with the reason, and the next one is sent. The line's book
has an entry of each report of work among them, also of one that is too long to be sent.
--patience SECONDS  for one message, else without an end. A line after ten seconds, and then each
                   minute, says that there is no answer, and why
--timeout SECONDS  for one answer (150)
--url URL          the desk, or the proxy in front of it (http://127.0.0.1:8080)
WHO is, by https:
--ca FILE          who signed the other's certificate; else whom this machine trusts
--user NAME        with --password-file FILE, or the password in the environment as
                   TRACEDESK_PASSWORD
--cert FILE        a certificate in place of a password, with --key FILE

A full disk, and a file that can't be read, are reported and waited out. Standard output may be
closed: nothing more is printed.

Exit status: 0 every message has its answer, or the check found no fault; 1 some messages were set
aside in this run, or the check found a fault; 2 bad command line, or a file or a spool that can't
be used; 3 given up: no answer in all the time that was given; 4 a message can't be sent so, and
standard error says why; 5 an error of this program, which standard error has; 6 a report of work is
not sent again: a person has to decide. With 3, 4 and 5 what has no answer is sent by the next run.
"""
from __future__ import annotations

import argparse
import functools
import os
import pathlib
import re
import sqlite3
import sys
from typing import Any, Dict, Optional

from . import __version__, by_hand, command, desk, disk, interlock, sender, spool, status
from . import validate
from .console import NAME, ended, say, tell

TEXTS = {
    **{"ca": "FILE", "user": "NAME", "password-file": "FILE", "cert": "FILE", "key": "FILE"},
    **{"spool": "FILE", "status": "FOLDER", "name": "NAME", "interlock": "COMMAND"},
}
NUMBERS: Dict[str, Optional[float]] = {
    **{"patience": None, "timeout": desk.TIMEOUT, "silence": interlock.SILENCE},
    **{"every": interlock.EVERY, "keep-days": spool.KEPT_DAYS},
    "keep-mib": spool.KEPT_BYTES / (1 << 20),
}
NAMED = re.compile("[A-Za-z0-9_-][A-Za-z0-9._-]{0,63}")


# --- A spool


def name_of(asked: argparse.Namespace) -> str:
    """The sender's name in records; empty if it is that of its spool."""
    name = str(asked.name or asked.user or "")
    return name if NAMED.fullmatch(name) else ""


def spool_of(asked: argparse.Namespace) -> spool.Spool:
    """The spool, which is made by what puts messages in. Who only looks makes none: it would belong
    to another user than the sender's.
    """
    only_looks = asked.list or asked.show or asked.again or asked.drop or asked.release
    if only_looks and not os.path.exists(asked.spool):
        raise disk.SpoolError(f"there is no spool {asked.spool}: the sender makes it, or --put")
    most = round(asked.keep_mib * (1 << 20))
    return spool.Spool(asked.spool, asked.keep_days, most, name_of(asked))


def run_spool(asked: argparse.Namespace, to: desk.Desk) -> int:
    into = spool_of(asked)
    follower: Optional[sender.Follower] = None
    if asked.follow == "-":
        follower = sender.Lines(into, sys.stdin.buffer, lambda name: say(f"kept {name}"), tell)
    elif asked.follow:
        follower = sender.Folder(into, pathlib.Path(asked.follow), tell)
    states = interlock.Interlock(into, asked.machine, asked.silence, asked.every)
    calls = command.Command(states, asked.interlock, tell) if asked.interlock else None
    at: Optional[status.Status] = None
    if asked.status:
        desk_at = functools.partial(desk_of, asked, timeout=status.TIMEOUT)
        at = status.Status(asked.status, desk_at, to, states, tell)
    run = sender.Sender(into, to, tell, states, calls, at)
    if calls:
        command.end_at_signal(calls)
    run.run(follower, asked.stay)
    return 1 if run.aside else 0


def check(asked: argparse.Namespace) -> int:
    """Says whether the desk, its certificate, the clock and the log-in are right."""
    told, is_right = desk_of(asked).checked()
    for line in told:
        say(line)
    return 0 if is_right else 1


# --- The command line


def url(text: str) -> str:
    """A URL as it is written, if it names a machine."""
    try:
        desk.checked_url(text)
    except (ValueError, UnicodeError) as fault:
        raise argparse.ArgumentTypeError(str(fault)) from None
    return text


def reader_of_words() -> argparse.ArgumentParser:
    reader = argparse.ArgumentParser(
        prog=NAME,
        description=__doc__,
        formatter_class=argparse.RawDescriptionHelpFormatter,
        usage=argparse.SUPPRESS,
    )
    hidden: Dict[str, Any] = {"help": argparse.SUPPRESS}
    reader.add_argument("--url", type=url, default="http://127.0.0.1:8080", **hidden)
    for name, what in TEXTS.items():
        reader.add_argument(f"--{name}", metavar=what, **hidden)
    for name, usual in NUMBERS.items():
        reader.add_argument(f"--{name}", type=float, default=usual, metavar="N", **hidden)
    reader.add_argument("--machine", action="append", default=[], **hidden)
    do = reader.add_mutually_exclusive_group()
    for name in ("follow", "put", "validate"):
        do.add_argument(f"--{name}", metavar="FILE", **hidden)
    for name in ("again", "show", "drop", "release"):
        do.add_argument(f"--{name}", nargs="+", metavar="NAME", **hidden)
    for name in ("stay", "check"):
        do.add_argument(f"--{name}", action="store_true", **hidden)
    do.add_argument("--list", choices=(*by_hand.STATES, "all"), **hidden)
    version = f"tracedesk-send {__version__}"
    reader.add_argument("--version", action="version", version=version, **hidden)
    return reader


def words() -> argparse.Namespace:
    """What the command line says."""
    reader = reader_of_words()
    asked = reader.parse_args()
    if not (asked.spool or asked.check or asked.validate):
        reader.error("name --spool FILE, where messages wait; --check and --validate want none")
    if bool(asked.interlock) != bool(asked.machine):
        reader.error("--interlock COMMAND wants --machine NAME, of each machine that it stops")
    if asked.silence <= 0 or asked.every <= 0:
        reader.error("--silence and --every are numbers of seconds above 0")
    if asked.name is not None and not NAMED.fullmatch(asked.name):
        reader.error("--name is 1 to 64 letters, digits, '.', '_' and '-'")
    if asked.follow not in (None, "-") and not pathlib.Path(asked.follow).is_dir():
        reader.error(f"--follow: {asked.follow} is no folder: make it, or name another")
    if (asked.user or asked.cert or asked.ca) and not asked.url.startswith("https:"):
        reader.error(
            "--user, --cert and --ca want an https URL: a password is not sent in the clear"
        )
    if asked.user and not asked.password_file and "TRACEDESK_PASSWORD" not in os.environ:
        reader.error(
            "--user wants --password-file FILE, or the password in the environment as"
            " TRACEDESK_PASSWORD"
        )
    return asked


def desk_of(
    asked: argparse.Namespace, url: Optional[str] = None, timeout: Optional[float] = None
) -> desk.Desk:
    """The desk that the command line names, or another place behind its log-in."""
    trust = (
        desk.trust_of(asked.ca, asked.cert, asked.key) if asked.url.startswith("https:") else None
    )
    log_in = None
    if asked.user:
        password = (
            pathlib.Path(asked.password_file).read_text().rstrip("\r\n")
            if asked.password_file
            else os.environ["TRACEDESK_PASSWORD"]
        )
        log_in = asked.user, password
    return desk.Desk(
        url or asked.url,
        trust,
        log_in,
        patience=asked.patience,
        timeout=timeout or asked.timeout,
        waits=True,
        tell=tell,
    )


def run(asked: argparse.Namespace) -> int:
    if asked.put:
        return by_hand.put(spool_of(asked), asked.put)
    if asked.again:
        return by_hand.again(asked, spool_of(asked))
    if asked.list:
        return by_hand.listed(spool_of(asked), asked.list)
    if asked.show:
        return by_hand.show(spool_of(asked), asked.show)
    if asked.drop or asked.release:
        return by_hand.give_up(spool_of(asked), asked.drop or [], asked.release or [])
    if asked.validate:
        return validate.run(asked.validate, say)
    if asked.check:
        return check(asked)
    to = desk_of(asked)
    try:
        return run_spool(asked, to)
    finally:
        to.close()
        tell(f"{to.sent_again} times sent again")


def main() -> int:
    asked = words()
    return ended(
        lambda: run(asked),
        {
            disk.SpoolError: 2,
            sqlite3.Error: 2,
            OSError: 2,
            ValueError: 2,
            desk.GivenUp: 3,
            desk.NotTaken: 4,
        },
    )


if __name__ == "__main__":
    sys.exit(main())
