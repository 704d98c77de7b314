"""Tells a desk the time, by one ClockSet: for a line that is idle, while no message moves its
minute.

usage: tracedesk-clock [--url URL] [--synced COMMAND] [--answer FILE] [--patience SECONDS]

examples:
  tracedesk-clock                    tracedesk-clock.timer has it done each five minutes, while the
                                     desk runs
  tracedesk-clock --synced 'chronyc -n waitsync 1 0.5 > /dev/null && echo yes'      where the
                                                                                    system's own
                                                                                    flag is not kept
  tracedesk-clock --answer -         the desk's answer is printed

Nothing is sent unless the command of --synced prints yes: the desk takes the time from the message,
and never goes back. The message is of this minute, and so is its UniqueID: sent twice within a
minute it acts once. A desk that isn't there is no loss, since the next message has the time too.

Exit status: 0 accepted; 1 not accepted, or there was no answer; 2 bad command line; 3 nothing was
sent, since this machine's clock is not in sync; 9 an unexpected failure.
"""
from __future__ import annotations

import argparse
import pathlib
import subprocess
import time

from tracedesk import Desk, GivenUp, NotTaken, answers
from tracedesk_ops import catalogue, options, places, plant, reader_of, stored

URL = f"http://127.0.0.1:{places.PORT}"
SYNCED = "timedatectl show --property=NTPSynchronized --value"
ANSWER = pathlib.Path("/run/tracedesk-clock/desk.json")
SECONDS_FOR_SYNCED = 20


def is_synced(command: str) -> bool:
    """Whether this machine's clock is kept by the network; why not, is told."""
    try:
        done = subprocess.run(
            command,
            shell=True,
            stdin=subprocess.DEVNULL,
            capture_output=True,
            **plant.TEXT,
            timeout=SECONDS_FOR_SYNCED,
        )
    except subprocess.TimeoutExpired:
        plant.tell(f"{command!r} did not end in {SECONDS_FOR_SYNCED} seconds: nothing is sent")
        return False
    if done.returncode == 0 and done.stdout.strip() == "yes":
        return True
    said = " ".join((done.stdout + done.stderr).split()) or f"nothing, and status {done.returncode}"
    plant.tell(
        f"this machine's clock is not in sync: {command!r} says {said}. Nothing is sent; see to"
        " its NTP"
    )
    return False


def message() -> str:
    """A ClockSet of this minute."""
    minute = int(time.time()) // 60
    return stored.line(f"clock-{catalogue.spelled(minute)[:-4]}Z", "clock", minute, "ClockSet", {})


def sent(asked: argparse.Namespace, line: str) -> bytes | None:
    """The desk's answer to a message; if it isn't accepted, why is told."""
    patience = asked.patience
    try:
        with Desk(asked.url, patience=patience, timeout=patience, tell=plant.tell) as desk:
            answer = desk.send(line.encode())
    except (GivenUp, NotTaken, OSError, ValueError) as fault:
        plant.tell(f"not accepted: {fault}")
        return None
    if isinstance(answer, answers.Accepted):
        return answer.text
    plant.tell(f"not accepted: {answers.why(answer)}")
    return None


def words() -> argparse.Namespace:
    reader = reader_of(__doc__)
    reader.add_argument("--url", default=URL, help=f"the desk ({URL})")
    reader.add_argument(
        "--synced",
        default=SYNCED,
        metavar="COMMAND",
        help=f"prints yes where this machine's clock is in sync ({SYNCED})",
    )
    reader.add_argument(
        "--answer",
        default=str(ANSWER),
        metavar="FILE",
        help=f"where the answer is put, or - ({ANSWER})",
    )
    reader.add_argument(
        "--patience", type=float, default=60, metavar="SECONDS", help="for the answer (60)"
    )
    options.set_up(reader)
    asked = reader.parse_args()
    if asked.patience <= 0:
        reader.error("--patience: an answer takes some time")
    return asked


def main() -> int:
    asked = words()
    if not is_synced(asked.synced):
        return 3
    answer = sent(asked, message())
    if answer is None:
        return 1
    text = f"{answer.decode()}\n"
    return plant.replaced(asked.answer, text, "--answer", "the desk accepted it, and ")
