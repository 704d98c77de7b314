"""Random commands under outages, against a model of the operator's sheet: each acts once, or its
loss is shown and asked for again.
"""
import random
from typing import Any

from station_operator import Operator
from station_plant import REELS, accepted
from station_random import losses_of
from station_site import Site, wait_for
from tracedesk_dev.trial import Difference

COMMANDS, ROUND = 2_000, 20  # in all, and under one outage
LOADS, TAKES = ("MaterialsLoaded", "MaterialsSpliced"), ("MaterialsScrapped", "CountsTaken")
OUTAGES, AWAY = ("none", "losses", "desk", "proxy", "slow"), ("desk", "proxy", "slow")
SLOTS = [(machine, slot) for machine in ("M1", "M2") for slot in ("1", "2", "10", "3")]
# Does commands one behind the other, as a scanner in the scan field. Of each: what the strip said
# before its last code, what is over the page behind it, which refusals came there with it, and the
# messages that it made. A question is answered as the command says.
DOES = """
const [commands, done] = arguments, at = (id) => document.getElementById(id), field = at("scan"), pause = (time) => new Promise((go) => setTimeout(go, time));
const opened = new Promise((go) => { const request = indexedDB.open("tracedesk-station"); request.onsuccess = () => go(request.result); });
window.scanned ??= { code: "", at: 0 };
const scan = async (code) => {
  if (code === scanned.code) { await pause(Math.max(0, scanned.at + 1_100 - performance.now())); } // as a hand does: within a second it would be a code that was read twice
  Object.assign(scanned, { code, at: performance.now() });
  field.value = code;
  field.form.requestSubmit();
  while (Number(document.body.dataset.untaken)) { await pause(5); }
};
const kept = async () => { const all = (await opened).transaction("scans").objectStore("scans").getAll(); return new Promise((go) => { all.onsuccess = () => go(all.result.filter((it) => it.state !== "notSent")); }); };
const seen = () => ({ turn: Number(at("verdict").dataset.turn ?? 0), kind: at("verdict").hidden ? "" : at("verdict").className, text: at("verdict").innerText });
const reds = () => (at("verdict").hidden ? [] : [...at("verdict").querySelectorAll("[data-scan]:is(.refused, .brief)")].map((it) => [it.dataset.scan, it.innerText]));
(async () => {
  const told = [];
  for (const { codes, yes } of commands) {
    const before = new Set((await kept()).map((it) => it.uid));
    if (codes[0] === scanned.code && codes[0].startsWith("A/")) { await scan("A/CANCEL"); } // an action twice counts once
    for (const code of codes.slice(0, -1)) { await scan(code); }
    const held = at("held").innerText, turn = seen().turn, red = new Set(reds().map(([uid]) => uid));
    await scan(codes.at(-1));
    const shown = seen(), fresh = () => reds().filter(([uid]) => !red.has(uid)).map(([, text]) => text);
    const asked = shown.kind === "ask" && shown.turn > turn;
    let refused = fresh();
    if (asked) {
      await scan(yes ? "A/ENTER" : "A/CANCEL");
      refused = fresh();
    }
    told.push({ held, asked, shown, refused, made: (await kept()).filter((it) => !before.has(it.uid)).map(({ uid, word, body }) => ({ uid, word, body })) });
  }
  (await opened).close();
  done(told);
})().catch((fault) => done(String(fault)));
"""


VERIFIED: Any = {"uid": None}  # of a reel that is on its slot no message is made


class Command:
    """What somebody at the line means to do: the codes by the operator's sheet, and the message
    that they stand for.
    """

    def __init__(self, dice: random.Random) -> None:
        self.machine, self.slot = dice.choice(SLOTS)
        self.reel, self.number, self.yes = (
            dice.choice(REELS)[0],
            dice.choice([1, 2, 5, 40]),
            dice.random() < 0.5,
        )
        self.deed = dice.choice(
            ["LOAD", "LOAD", "LOAD", "UNLOAD", "SCRAP", "OPEN", "SEAL", "BAKE", "COUNT"]
        )
        place = f"S/{self.machine}/{self.slot}"
        self.codes = {
            "LOAD": [place, self.reel],
            "UNLOAD": [place, "A/UNLOAD"],
            "SCRAP": [place, "A/SCRAP", str(self.number)],
            "COUNT": [self.reel, "A/COUNT", str(self.number)],
        }.get(self.deed, [f"A/{self.deed}", self.reel])
        if self.deed in ("UNLOAD", "OPEN", "SEAL", "BAKE") and dice.random() < 0.5:
            self.codes.reverse()

    def message(self, held: str) -> Any:
        """The message that the operator expects; of a load the strip said before whether it loads
        or splices.
        """
        on: dict[str, Any] = {"Machine": self.machine, "Slot": self.slot}
        messages: dict[str, Any] = {
            "LOAD": (LOADS["SPLICE" in held], {**on, "Reel": self.reel}),
            "UNLOAD": ("MaterialsUnloaded", on),
            "SCRAP": ("MaterialsScrapped", {**on, "Quantity": self.number}),
            "OPEN": ("ReelOpened", {"Reel": self.reel}),
            "SEAL": ("ReelSealed", {"Reel": self.reel}),
            "BAKE": ("ReelBaked", {"Reel": self.reel}),
            "COUNT": ("CountsTaken", {"Counts": [{"Reel": self.reel, "Quantity": self.number}]}),
        }
        return messages[self.deed]

    def where(self) -> str:
        """As a verdict names its slot and its reel."""
        place = f"{self.machine} slot {self.slot}"
        if self.deed in ("UNLOAD", "SCRAP"):
            return place
        return f"{place} · {self.reel}" if self.deed == "LOAD" else self.reel

    def about(self) -> set[Any]:
        """The slot and the reel that it is about."""
        return {
            it
            for it in (
                (self.machine, self.slot) if self.deed in ("LOAD", "UNLOAD", "SCRAP") else None,
                self.reel if self.deed not in ("UNLOAD", "SCRAP") else None,
            )
            if it
        }

    def __str__(self) -> str:
        return " ".join(self.codes)


def is_verified(command: Command, told: Any) -> bool:
    """Whether the reel of a load is on that slot already, as the desk said within two seconds:
    green, or a fault that says that it may not run. Nothing is sent.
    """
    kind, text = told["shown"]["kind"], told["shown"]["text"]
    is_green = kind == "accepted" and "VERIFIED" in text and command.where() in text
    on = f"{command.reel} is on {command.machine} slot {command.slot}"
    return command.deed == "LOAD" and (is_green or kind == "fault" and on in text)


class Page:
    """The model: the messages that have no answer yet, as somebody knows them who saw each
    screen.
    """

    def __init__(self) -> None:
        self.waiting: list[
            tuple[Command, str, Any]
        ] = []  # of (command, word, body), the oldest first

    def is_same(self, command: Command, word: str, body: Any) -> bool:
        """Whether the last one about the same slot or reel is this very one."""
        last = next(
            (
                (one, kind, what)
                for one, kind, what in reversed(self.waiting)
                if one.about() & command.about()
            ),
            None,
        )
        if last is None:
            return False
        return bool(last[2] == body and (last[1] == word or {last[1], word} == set(LOADS)))

    @staticmethod
    def is_told(command: Command, text: str) -> bool:
        """Whether a refusal says that the command was not sent: in front, or below an answer that
        came after it.
        """
        return text.startswith("✗ NOT SENT") and command.where() in text

    def judged(self, command: Command, told: Any, is_away: bool) -> Any:
        """Looks whether a command made its message, or its loss was shown; gives the message or
        None, and VERIFIED where none was wanted. Only `is_away`, with nobody to answer, is known
        which of the two it has to be.
        """
        if not told["made"] and is_verified(command, told):
            return VERIFIED
        word, body = command.message(told["held"])
        made, shown, is_same = told["made"], told["shown"], self.is_same(command, word, body)
        words = (
            LOADS
            if word in LOADS
            and not (is_away and ("LOAD" in told["held"] or "SPLICE" in told["held"]))
            else (word,)
        )
        is_unverified = shown["kind"] == "fault" and "NOT verified" in shown["text"]
        is_lost = not made and (
            (told["asked"] and not command.yes)
            or (shown["kind"] == "fault" and "DROPPED" in shown["text"])
            or is_unverified
            or any(self.is_told(command, text) for text in told["refused"])
        )
        is_kept = len(made) == 1 and made[0]["word"] in words and made[0]["body"] == body
        if is_away and shown["kind"] == "accepted":
            raise Difference(f"{command}: green without an answer of the desk: {told}")
        if not (is_kept or is_lost) or (
            is_away
            and not is_unverified
            and (told["asked"], is_lost)
            != (is_same and word in TAKES, is_same and not (word in TAKES and command.yes))
        ):
            raise Difference(
                f"{command}, wanted {word} {body} once, or to be told of its loss; unanswered are"
                f" {[(str(one), kind) for one, kind, _ in self.waiting[-5:]]}: {told}"
            )
        if is_kept:
            self.waiting.append((command, made[0]["word"], body))
        return made[0] if is_kept else None


def away(site: Site, outage: str) -> None:
    if outage == "desk":
        site.kill_desk()
    elif outage == "proxy":
        site.kill_nginx()
    elif outage == "slow":
        site.pause_desk()
    losses_of(site).isOn = outage == "losses"


def back(site: Site, outage: str) -> None:
    losses_of(site).isOn = False
    if outage == "desk":
        site.start_desk()
    elif outage == "proxy":
        site.start_nginx()
    elif outage == "slow":
        site.resume_desk()


def all_answered(it: Operator) -> Any:
    def answered() -> Any:
        scans = it.scans()
        return [scans] if all(scan["state"] == "answered" for scan in scans) else None

    return {scan["uid"]: scan for scan in wait_for("all scans are answered", answered)[0]}


def taken(site: Site, it: Operator, made: Any) -> Any:
    """How many of these messages the desk accepted: each once, as it answered, and none that it
    refused.
    """
    by_uid, desk = all_answered(it), accepted(site)
    lacking = [uid for uid in made if uid not in by_uid]
    wrong = [
        by_uid[uid]
        for uid in made
        if uid in by_uid and desk[uid] != (by_uid[uid]["answer"]["Answer"] == "Accepted")
    ]
    if lacking or wrong or any(count > 1 for count in desk.values()):
        raise Difference(f"not kept: {lacking}; acted otherwise than answered: {wrong}")
    return sum(desk[uid] for uid in made)


def done(it: Operator, commands: Any) -> Any:
    told = it.page.execute_async_script(
        DOES, [{"codes": command.codes, "yes": command.yes} for command in commands]
    )
    if isinstance(told, str):
        raise Difference(told)
    return told


def one_round(site: Site, it: Operator, dice: random.Random, outage: str, count: int) -> Any:
    """So many commands under an outage; then those that were lost once more, with the desk there.
    Gives how many messages were made, accepted and lost.
    """
    commands: list[Command] = []
    lost: list[Command] = []
    made: list[str] = []
    page = Page()
    for _ in range(count):
        commands.append(
            dice.choice(commands) if commands and dice.random() < 0.3 else Command(dice)
        )
    away(site, outage)
    try:
        told = done(it, commands)
    finally:
        back(site, outage)
    for command, one in zip(commands, told):
        message = page.judged(command, one, outage in AWAY)
        if message is None:
            lost.append(command)
        elif message is not VERIFIED:
            made.append(message["uid"])
    for command in lost:  # as the page asked for
        all_answered(it)
        it.seen()
        command.yes = True
        if not (message := Page().judged(command, done(it, [command])[0], False)):
            raise Difference(f"{command} was lost again, with the desk there")
        if message is not VERIFIED:
            made.append(message["uid"])
    it.seen()
    return len(made), taken(site, it, made), len(lost)
