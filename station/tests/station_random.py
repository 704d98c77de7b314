"""Random hands at the station, while answers are lost: nothing is green that the desk has not, and
no refusal goes unseen.
"""
import contextlib
import json
import random
import socket
import threading
import time
from typing import Any

from station_operator import Operator, chain_of
from station_plant import DISK, accepted, agrees, plant
from station_site import Site, settles, wait_for
from tracedesk_dev.ports import free_port
from tracedesk_dev.trial import Difference, in_memory


REELS = [f"K-{number}" for number in range(1, 9)] + ["K-99", "1000234"]
SLOTS = [f"S/{machine}/{slot}" for machine in ("M1", "M2") for slot in ("1", "2", "10", "3", "77")]
BATCH = 20  # sequences at one desk
MEANT = 5  # a refusal may go by one of so many of the last deeds
# Each state of the verdict that lasts longer than a task of the page, and each deed, in one list
# that outlives a reload.
WATCH = (
    DISK
    + """
window.note = (what) => sessionStorage.setItem('log', (sessionStorage.getItem('log') ?? '') + JSON.stringify(what) + '\\n');
window.note({ load: true });
document.addEventListener('DOMContentLoaded', () => {
  const verdict = document.getElementById('verdict'), uids = (what) => [...verdict.querySelectorAll(what)].map((it) => it.dataset.scan ?? 'more');
  if (verdict) {
    new MutationObserver(() => window.note({ kind: verdict.hidden ? '' : verdict.className, green: verdict.hidden ? [] : uids('.one.accepted'), red: verdict.hidden ? [] : uids('.one.refused, .brief'), verified: verdict.querySelector('.verified') !== null }))
      .observe(verdict, { childList: true, attributes: true, attributeFilter: ['class', 'hidden'] });
  }
});
"""
)


class Losses(threading.Thread):
    """Stands between nginx and the desk: of each message it may lose the request, the answer or
    half of it, or be slow.
    """

    def __init__(self, port: Any, to: Any, dice: random.Random) -> None:
        super().__init__(daemon=True)
        self.to, self.dice, self.lost, self.isOn = to, dice, 0, False
        self.listener = socket.create_server(("127.0.0.1", port), backlog=64)

    def run(self) -> None:
        with contextlib.suppress(OSError):
            while True:
                threading.Thread(
                    target=self.serve, args=(self.listener.accept()[0],), daemon=True
                ).start()

    def serve(self, link: Any) -> None:
        with link, contextlib.suppress(OSError, ValueError):
            request = b""
            while b"\r\n\r\n" not in request:
                request += received(link)
            head, _, body = request.partition(b"\r\n\r\n")
            length = next(
                (
                    int(line.split(b":")[1])
                    for line in head.split(b"\r\n")
                    if line.lower().startswith(b"content-length:")
                ),
                0,
            )
            while len(body) < length:
                body += received(link)
            fate = (
                self.dice.choice(["", "", "request", "answer", "half", "slow"])
                if self.isOn and head.startswith(b"POST")
                else ""
            )
            self.lost += fate in ("request", "answer", "half")
            if fate == "request":
                return
            with socket.create_connection(("127.0.0.1", self.to), 30) as desk:
                desk.sendall(head + b"\r\n\r\n" + body)
                answer = b"".join(iter(lambda: desk.recv(65536), b""))
            if fate == "slow":
                time.sleep(self.dice.random())
            if fate != "answer":
                link.sendall(answer[: len(answer) // 2] if fate == "half" else answer)


def received(link: socket.socket) -> bytes:
    """The next bytes of a request; one that is broken off is no request."""
    got = link.recv(65536)
    if not got:
        raise ValueError("broken off")
    return got


def losses_of(site: Site) -> Any:
    """What loses answers at a site."""
    return getattr(site, "losses")


class LossySite(Site):
    """A site whose nginx reaches the desk through what loses answers."""

    def __init__(self, program: str, where: Any, dice: random.Random) -> None:
        self.lossy_port = free_port()
        super().__init__(program, where)
        self.losses = Losses(self.lossy_port, self.desk_port, dice)
        self.losses.start()

    def write_proxy(self) -> None:
        super().write_proxy()
        file = self.room / "tracedesk.conf"
        file.write_text(
            file.read_text().replace(f"127.0.0.1:{self.desk_port}", f"127.0.0.1:{self.lossy_port}")
        )

    def __exit__(self, *_: object) -> None:
        super().__exit__(*_)
        self.losses.listener.close()


class Hands:
    """Random deeds at one page; each is noted before it is done."""

    def __init__(self, site: Site, it: Operator, dice: random.Random) -> None:
        self.site, self.it, self.dice = site, it, dice

    def note(self, deed: Any) -> None:
        self.it.script("window.note?.({ deed: arguments[0] })", deed)

    def scan(self, *codes: str) -> None:
        for code in codes:
            self.note(f"scan {code}")
            self.it.scan(code)

    def deeds(self) -> Any:
        dice, slot, reel, number = (
            self.dice,
            self.dice.choice(SLOTS),
            self.dice.choice(REELS),
            str(self.dice.choice([0, 1, 5, 40, 999, 70000, 1000234])),
        )
        return [
            (8, lambda: self.scan(slot, reel)),
            (3, lambda: self.scan(slot, "A/UNLOAD")),
            (2, lambda: self.scan(slot, "A/SCRAP", number)),
            (3, lambda: self.scan(f"A/{dice.choice(['OPEN', 'SEAL', 'BAKE'])}", reel)),
            (2, lambda: self.scan(reel, "A/COUNT", number)),
            (2, lambda: self.scan(reel, "A/COUNT", *(f"A/{digit}" for digit in number), "A/ENTER")),
            (3, lambda: self.scan(slot)),
            (3, lambda: self.scan(reel)),
            (2, lambda: self.scan("A/ENTER")),
            (2, lambda: self.scan("A/CANCEL")),
            (1, lambda: self.scan(f"B/{dice.choice(['anna', 'otto'])}")),
            (1, lambda: self.scan("S/M9/1")),
            (1, lambda: self.scan(number)),
            (1, lambda: self.scan(f"A/{dice.choice(['LINE', 'SCAN', 'RECEIVE'])}")),
            (4, self.touch),
            (1, self.escape),
            (4, lambda: time.sleep(dice.random())),
            (2, self.reload),
            (2, self.host),
            (
                1,
                lambda: self.it.script(
                    "if (window.failing) { window.failing[arguments[0]] = 1; }",
                    dice.choice(["put", "add"]),
                ),
            ),
        ]

    def escape(self) -> None:
        self.note("escape")
        self.it.keys("\ue00c")

    def touch(self) -> None:
        """A touch somewhere, or on a button that is seen; at times twice."""

        self.note("touch")
        place = self.it.script(
            """const all = [...document.querySelectorAll('#verdict:not([hidden]) button, .actions button, .pad button, #screens button')].filter((it) => it.checkVisibility()), it = all[Math.floor(arguments[0] * all.length)];
            const box = it?.getBoundingClientRect(); return arguments[1] && box ? [Math.floor(box.x + box.width / 2), Math.floor(box.y + box.height / 2)] : [Math.floor(arguments[0] * innerWidth), Math.floor(arguments[2] * innerHeight)]""",
            self.dice.random(),
            self.dice.random() < 0.7,
            self.dice.random(),
        )
        if self.it.script(
            "return document.elementFromPoint(...arguments)?.closest('a') === null", *place
        ):
            chain = chain_of(self.it.page)
            for _ in range(self.dice.choice([1, 1, 2])):
                chain.w3c_actions.pointer_action.move_to_location(*place).click()
            chain.perform()

    def reload(self) -> None:
        self.note("reload")
        self.it.page.get(f"{self.site.url}/station/?station=W1")

    def host(self) -> None:
        machine, slot = self.dice.choice(SLOTS[:4] + SLOTS[5:9])[2:].split("/")
        load = {"Reel": self.dice.choice(REELS)}
        words: list[tuple[str, dict[str, str]]] = [
            ("MaterialsLoaded", load),
            ("MaterialsUnloaded", {}),
        ]
        word, body = self.dice.choice(words)
        self.site.say(word, {"Machine": machine, "Slot": slot, **body})

    def sequence(self) -> None:
        losses_of(self.site).isOn = self.dice.random() < 0.6
        for _ in range(self.dice.randint(6, 16)):
            deeds = self.deeds()
            self.dice.choices([deed for _, deed in deeds], [weight for weight, _ in deeds])[0]()
        losses_of(self.site).isOn = False


def may_go(deeds: Any, about: Any) -> Any:
    """Whether one of the last deeds says that a refusal about this was seen."""
    return any(
        deed in ("touch", "escape", "scan A/CANCEL") or deed.removeprefix("scan ") in about
        for deed in deeds[-MEANT:]
    )


def about_of(scan: Any) -> Any:
    """The codes whose scan says that a refusal of this was seen: its slot, else its reel."""
    body = (scan or {}).get("body", {})
    if "Slot" in body:
        return {f"S/{body['Machine']}/{body['Slot']}", body.get("Reel")}
    return {body.get("Reel"), *(it["Reel"] for it in body.get("Counts", []))}


def judged(log: Any, scans: Any, desk: Any) -> Any:
    """Compares what the page showed with what the desk has; gives how many greens and reds were
    seen.
    """
    by_uid, deeds = {scan["uid"]: scan for scan in scans}, []
    red: set[str] = set()
    unseen: set[str] = set()
    greens: set[str] = set()
    for entry in log:
        if "deed" in entry:
            deeds.append(entry["deed"])
            continue
        if "load" in entry:
            red = set()
            continue
        greens |= set(entry["green"])
        if entry["kind"] == "accepted" and not entry["green"] and not entry["verified"]:
            raise Difference(f"green without an answer: {entry}")
        now = set(entry["red"])
        for uid in red - now if "more" not in now else ():
            known = by_uid.get(uid)
            if not may_go(deeds, about_of(known)) and not (known is None and deeds):
                raise Difference(f"the refusal {known} went after {deeds[-MEANT:]}")
            unseen.discard(uid)
        red = now
        unseen |= now - {"more"}
    wrong = [
        uid
        for uid in greens
        if desk[uid] != 1
        or by_uid.get(uid, {"answer": {"Answer": "Accepted"}})["answer"]["Answer"] != "Accepted"
    ]
    refused = {uid for uid, scan in by_uid.items() if scan["answer"]["Answer"] != "Accepted"}
    shown = {uid for entry in log for uid in entry.get("red", [])}
    if wrong or unshown(log, scans):
        raise Difference(
            f"green and not at the desk: {wrong}; refused and never shown: {unshown(log, scans)}"
        )
    hidden = {uid for uid in unseen & refused if uid not in red and "more" not in red}
    if hidden:
        raise Difference(
            f"refusals that no one has seen are not shown: {[by_uid[uid] for uid in hidden]} after"
            f" {deeds[-8:]}"
        )
    return len(greens), len(shown)


def shown_by(it: Operator) -> list[Any]:
    """What the page noted of its verdict and of the deeds, since the sequence began."""
    log = it.script("return sessionStorage.getItem('log')")
    return [json.loads(line) for line in log.split("\n") if line]


def unshown(log: list[Any], scans: list[Any]) -> list[Any]:
    """The refused scans that were never shown."""
    shown = {uid for entry in log for uid in entry.get("red", [])}
    refused = [it for it in scans if it["answer"]["Answer"] != "Accepted"]
    return [] if "more" in shown else [it for it in refused if it["uid"] not in shown]


def tried(site: Site, it: Operator, dice: random.Random) -> Any:
    """One sequence, and what was seen of it."""
    before = {scan["uid"] for scan in it.scans()}
    it.seen()
    it.script("sessionStorage.setItem('log', ''); window.note({ load: true })")
    hands = Hands(site, it, dice)
    hands.sequence()
    wait_for(
        "each scan is taken", lambda: it.script("return !Number(document.body.dataset.untaken)")
    )
    scans = wait_for(
        "all scans are answered",
        lambda: (told := it.scans()) is not None
        and all(scan["state"] == "answered" for scan in told)
        and [told],
    )[0]
    new = [scan for scan in scans if scan["uid"] not in before]
    settles("refused and never shown", lambda: unshown(shown_by(it), new))
    desk, log = accepted(site), shown_by(it)
    wrong = [scan for scan in new if desk[scan["uid"]] != (scan["answer"]["Answer"] == "Accepted")]
    if wrong or any(count > 1 for count in desk.values()):
        raise Difference(f"acted otherwise than answered: {wrong}")
    return len(new), *judged(log, new, desk)


def batch(program: str, seed: int, count: int, seconds: float | None = None) -> Any:
    """So many sequences at one desk; the sums of messages, greens and reds, sequences and
    losses.
    """
    dice, sums, done = random.Random(seed), [0, 0, 0], 0
    with LossySite(program, in_memory(), dice) as site:
        plant(site)
        if not seconds:
            site.last_look = agrees
        site.say(
            "ReelReceived",
            {"Reel": "1000234", "PartNumber": "CAP", "Lot": "L-9", "Level": "1", "Quantity": 500},
            minutes_ago=1,
        )
        with Operator(site, begin=False) as it:
            it.open(before=WATCH)
            it.ready()
            end = time.monotonic() + (seconds or 10**9)
            while done < count and (time.monotonic() < end or not done):
                try:
                    sums = [a + b for a, b in zip(sums, tried(site, it, dice))]
                except Difference as fault:
                    raise Difference(f"seed {seed}, sequence {done}: {fault}") from None
                done += 1
        return [*sums, done, losses_of(site).lost]


def words(sums: Any) -> Any:
    messages, greens, reds, done, lost = sums
    return (
        f"{done} sequences, {messages} messages, {lost} requests and answers lost: {greens} greens,"
        f" each at the desk; {reds} refusals, each shown until it was seen"
    )
