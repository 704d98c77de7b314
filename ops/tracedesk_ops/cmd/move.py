"""Moves a reel from one running desk to another: its pieces, and its minutes out of the bag.

usage: tracedesk-ops move REEL --from DESK --to DESK [--as NAME] [--label-minutes N] [--at TIME]
       [--ca FILE] [--user NAME --password-file FILE]

examples:
  tracedesk-ops move K-02 --from L1 --to L2 > arrives.jsonl
  tracedesk-ops move K-02 --from L2 --to L1 --as K-02b > arrives.jsonl     back to where its name is
                                                                           used up
  tracedesk-ops move K-02 --from https://desk.plant --to https://desk-2.plant --ca server.crt \\
      --user office --password-file office.password > arrives.jsonl

DESK is a line of this machine, by its name in /etc/tracedesk/LINE.conf, or the URL of a desk or of
the proxy in front of it. A reel that is received anew begins without exposure, so the new desk is
told that it was opened as long ago as the old one counted. It is sealed if it is sealed.

Both desks are told the time and asked first. Then the messages for the new desk are printed, the
old desk counts that no piece of the reel is left there, and the new one gets the messages. If that
is cut off (status 4), send what was printed by tracedesk-send: it acts once.

--as             its name at the new desk, if that had a reel of its name: label it anew
--label-minutes  of a reel of level 6: the minutes on its label
--at             the time, if this machine's clock has another one, as 2026-03-02T06:00:00Z
--ca             who signed the certificates of the proxies
--user, --password-file   the log-in at both

A refusal is on standard error, with the remedy:
  UnknownReel   the old desk has no reel of that name
  ReelEmpty     no piece is left on it
  ReelMounted   it is on a slot: take it off first
  ReelHeld      somebody holds it or its lot at the old desk, which the new one wouldn't know
  ReelExists    the new desk had a reel of that name, and takes none a second time
  ClockAhead    the new desk's clock is past the minute at which the reel would begin there
  NoLabel       it is of level 6, and the minutes on its label are not said

Exit status: 0 moved; 1 it can't be moved so, and both desks keep their reels; 2 bad command line; 3
the same, since a desk gave no answer; 4 the old desk may have dropped it, and the new one hasn't
all: standard error says what to do; 9 an unexpected failure.
"""
from __future__ import annotations

import argparse
import csv
import functools
import hashlib
import http.client
import secrets
import time
from typing import Any, NamedTuple

from tracedesk import Desk, GivenUp, NotTaken, NotThere, answers
from tracedesk.limits import FURTHEST_AHEAD, GREATEST_MINUTE
from tracedesk_ops import catalogue, desks, entries, options, places, plant, stored
from tracedesk_ops.desk_tables import FLOOR_LIFE

DONE, NO, NO_ANSWER, SEE_TO_IT = 0, 1, 3, 4
SOURCE = "move"
LAST_MINUTE = GREATEST_MINUTE  # too far ahead for each desk that has a minute
PATIENCE = 60.0  # seconds for an answer
LONGEST_IN_ID = 24  # bytes of a reel's name in UniqueIDs, which have 64 at most
NO_ANSWERS = (GivenUp, NotTaken, OSError, http.client.HTTPException, ValueError, csv.Error)


class NotMoved(Exception):
    """Why a reel can't be moved so; the text begins with a name, and says what to do."""


class Move(NamedTuple):
    """What is moved: a reel as the old desk has it, its name at the new one, how many minutes it
    was out, and the minute of the move.
    """

    card: Any  # of the reel
    called: str
    label: int | None
    out: int
    now: int

    def line(self, place: object, minute: int, word: str, **body: Any) -> str:
        """A message of the move."""
        name = self.called
        if len(name) > LONGEST_IN_ID:
            name = hashlib.sha256(name.encode()).hexdigest()[:LONGEST_IN_ID]
        uid = f"move-{name}-{self.now}-{self.card.remaining}-{place}"  # recalls/sets.py knows it
        return stored.line(uid, SOURCE, minute, word, body)

    @property
    def begin(self) -> int:
        return self.now - self.out

    def leaves(self) -> str:
        counts = [{"Reel": self.card.reel, "Quantity": 0}]
        return self.line("left-1", self.now, "CountsTaken", Counts=counts)

    def arrives(self) -> list[str]:
        """What the new desk is told, once it knows the part."""
        card, reel = self.card, {"Reel": self.called}
        body: dict[str, Any] = {**reel, "PartNumber": card.part, "Lot": card.lot}
        body |= {"Level": card.level, "Quantity": card.remaining}
        if card.level == "6":
            body["LabelMinutes"] = self.label
        said: list[tuple[int, str, dict[str, Any]]] = [(self.begin, "ReelReceived", body)]
        if card.level == "6" and card.minutes_left != "unbaked":
            said.append((self.begin, "ReelBaked", reel))
        if self.out or card.state == "open":
            said.append((self.begin, "ReelOpened", reel))
        said.append((self.now, "ClockSet", {}))
        if self.out and card.state != "open":
            said.append((self.now, "ReelSealed", reel))
        return [self.line(place, *its[:2], **its[2]) for place, its in enumerate(said, 1)]


def card_of(desk: Desk, reel: str) -> Any:
    try:
        return desk.reel(reel)
    except NotThere:
        return None


def said(desk: Desk, line: str, *known: str) -> answers.Answer:
    """A desk's answer to a message that it accepts, or refuses as known."""
    answer = desk.send(line.encode())
    is_known = isinstance(answer, answers.Refused) and answer.refusal in known
    if not (isinstance(answer, answers.Accepted) or is_known):
        raise ValueError(f"{line} is answered: {answers.why(answer)}")
    return answer


def at_rest(old: Desk, asked: argparse.Namespace, now: int) -> Move:
    """The reel as the old desk has it; a NotMoved if it has no such one that can be moved."""
    card = card_of(old, asked.reel)
    if card is None:
        raise NotMoved(f"UnknownReel: {asked.old} has no reel {asked.reel}: look at its label")
    if not card.remaining:
        raise NotMoved(
            f"ReelEmpty: nothing is left of {card.reel}: if there is, it is received by the new"
            " desk as a new reel, by a new name"
        )
    if card.state == "mounted":
        raise NotMoved(f"ReelMounted: {card.reel} is on a slot: unload it first")
    if card.level == "6" and not asked.label:
        raise NotMoved(f"NoLabel: {card.reel} is of level 6: say --label-minutes as on its label")
    limit, out = asked.label if card.level == "6" else FLOOR_LIFE.get(card.level), 0
    if limit and isinstance(card.minutes_left, int):
        out = max(0, limit - card.minutes_left)
    return Move(card, asked.called or card.reel, asked.label, out, now)


def want_free(old: Desk, card: Any, at: str) -> None:
    """A NotMoved if somebody holds the reel or its lot. A desk of `tracedesk serve` has no book."""
    target = "/line/book?after=0"
    status, body, _ = old.until(lambda: (old.once("GET", target, None, {}), "", 0.0))
    if answers.read(body) == answers.NotFound("Path"):
        return
    if status != http.client.OK:
        raise ValueError(f"{at} answers {target} with {status}: {body[:200]!r}")
    held = entries.held(entries.told(body.decode())[0])
    for stock in ((card.reel, ""), ("", card.lot)):
        if number := held.get(stock):
            raise NotMoved(
                f"ReelHeld: by entry {number} of the book of {at} {''.join(stock)} is held: release"
                " it there first, and hold it at the new desk"
            )


def want_new(new: Desk, its: Move, at: str) -> None:
    """Lets the new desk know the part, if it can take the reel; a NotMoved if not."""
    if there := card_of(new, its.called):
        raise NotMoved(
            f"ReelExists: {at} has a reel {its.called}, with {there.remaining} pieces left: if it"
            " is another one, or was there before, label it anew and say that by --as"
        )
    if is_before(new, LAST_MINUTE) and not is_before(new, its.begin + FURTHEST_AHEAD + 1):
        raise NotMoved(
            f"ClockAhead: {its.card.reel} has been out for {its.out} minutes, so it has to begin at"
            f" {catalogue.spelled(its.begin)}, and {at} is later: bake it, and tell the old desk so"
        )
    said(new, its.line("clock", its.begin, "ClockSet"))
    said(new, its.line("part", its.begin, "PartDefined", PartNumber=its.card.part), "PartExists")


def is_before(desk: Desk, minute: int) -> bool:
    """Whether a message of this minute is too far ahead of a desk's: one that it refuses in any
    case.
    """
    question = stored.question(f"none-{secrets.token_hex(16)}", minute)
    answer = desk.ask(question.encode())
    return isinstance(answer, answers.Refused) and answer.refusal == "TooFarAhead"


def told(old: Desk, new: Desk, its: Move) -> str:
    """Tells both desks; what is wrong then, or nothing."""
    answer = said(old, its.leaves())
    if isinstance(answer, answers.Accepted) and answer.taken != its.card.remaining:
        plant.tell(f"the old desk took {answer.taken} pieces off: count them at the new desk")
    for line in its.arrives():
        said(new, line)
    card, wanted = new.reel(its.called), its.card
    plant.tell(f"the new desk's card of it: {','.join(map(str, card))}")
    if card.minutes_left != wanted.minutes_left:
        return (
            f"the old desk's has {wanted.minutes_left} minutes left: the clock of the new one had"
            " gone on meanwhile. Bake the reel, and tell that desk so"
        )
    return ""


def reader() -> argparse.ArgumentParser:
    it = desks.reader_for("move", __doc__, has_url=False)
    it.add_argument("reel", type=options.identifier, metavar="REEL")
    for option, name in (("--from", "old"), ("--to", "new")):
        it.add_argument(option, dest=name, required=True, type=url_of, metavar="DESK")
    it.add_argument("--as", dest="called", type=options.identifier, metavar="NAME")
    it.add_argument("--label-minutes", dest="label", type=int, metavar="N")
    it.add_argument("--at", type=options.minute_of, metavar="TIME")
    return it


def url_of(text: str) -> str:
    """The URL of a line of this machine, by its name; others stay as they are."""
    try:
        return next((its.url for its in places.lines() if its.line == text), text.rstrip("/"))
    except places.NotSetUp as fault:
        raise argparse.ArgumentTypeError(str(fault)) from fault


def main(words: list[str] | None = None) -> int:
    its = reader()
    asked = desks.understood(its, words, "old", "new")
    if asked.old == asked.new:
        its.error(f"{asked.old} is one desk: name those of two lines")
    now = int(time.time()) // 60 if asked.at is None else asked.at
    of = functools.partial(desks.client, asked, PATIENCE, "")
    is_begun = False
    try:
        with of(asked.old) as old, of(asked.new) as new:
            clock = f"clock-{catalogue.spelled(now)[:-4]}Z"
            said(old, stored.line(clock, "clock", now, "ClockSet", {}))
            move = at_rest(old, asked, now)
            want_free(old, move.card, asked.old)
            want_new(new, move, asked.new)
            plant.write_out("".join(f"{line}\n" for line in move.arrives()))
            is_begun = True
            why = told(old, new, move)
    except NotMoved as fault:
        plant.tell(str(fault))
        return NO
    except (*NO_ANSWERS, plant.Fault) as fault:
        plant.tell(str(fault))
        if not is_begun:
            return NO_ANSWER
        plant.tell(
            f"if {asked.old} has no piece of {asked.reel} any more, send what was printed to"
            f" {asked.new} by tracedesk-send; else move it again"
        )
        return SEE_TO_IT
    if why:
        plant.tell(why)
    return SEE_TO_IT if why else DONE
