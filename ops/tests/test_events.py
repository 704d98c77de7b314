"""What changes at a line, over MQTT: read from the packaged nginx, published to mosquitto."""
from __future__ import annotations

import contextlib
import importlib
import json
import pathlib
import subprocess
import sys
from typing import Any, Iterator

import pytest
from bridge_mosquitto import Mosquitto
from lab.site import Site
from lab.tools import Word, run, tool
from station_site import wait_for
from tracedesk_ops import news

MACHINE, M1 = "M 1/+", "machines/M 1%2F%2B"
needs_brokers = pytest.mark.needs("mosquitto", "python:paho", "nginx", "openssl")


class Heard:
    """What a broker retains, as a subscriber has it who comes now and stays."""

    def __init__(self, broker: Mosquitto) -> None:
        self.all: list[tuple[str, Any]] = []
        self.client = importlib.import_module("paho.mqtt.client").Client()
        self.client.on_message = self.hear
        self.client.connect("127.0.0.1", broker.port)
        self.client.subscribe("plant/L1/#", qos=1)
        self.client.loop_start()

    def hear(self, _: Any, __: Any, message: Any) -> None:
        payload = json.loads(message.payload) if message.payload else None
        self.all.append((message.topic.removeprefix("plant/L1/"), payload))

    def now(self) -> dict[str, Any]:
        return {name: it for name, it in dict(self.all).items() if it is not None}

    def until(self, name: str, **wanted: Any) -> None:
        """Waits until a topic has these members, or is gone where none is named."""

        def holds() -> bool:
            its = self.now().get(name, {})
            return all(its.get(it) == value for it, value in wanted.items()) if wanted else not its

        wait_for(f"{name} has {wanted}", holds)


class Plant:
    """A line, a broker, and the tool between them."""

    def __init__(self, program: pathlib.Path, folder: pathlib.Path) -> None:
        self.site, self.broker = Site(str(program)), Mosquitto(
            folder / "broker", "allow_anonymous true"
        )
        self.running: subprocess.Popen[bytes] | None = None
        self.broker.start()
        self.broker.send("x")
        (folder / "password").write_text("office\n")
        self.words = [sys.executable, str(tool("ops")), "events", "--prefix", "plant/L1"]
        self.words += ["--every", "0.2", "--mqtt", f"mqtt://127.0.0.1:{self.broker.port}"]
        self.words += ["--url", self.site.url, "--ca", f"{self.site.room}/etc/server.crt"]
        self.words += ["--user", "office", "--password-file", f"{folder}/password"]

    def begin(self) -> None:
        self.running = subprocess.Popen(self.words)

    def kill(self) -> None:
        if self.running:
            self.running.kill()
            self.running.wait()

    def accept(self, word: str, **body: Any) -> None:
        told = self.site.say(word, body)
        assert told["Answer"] == "Accepted", told


@pytest.fixture
def plant(program: pathlib.Path, folder: pathlib.Path) -> Iterator[Plant]:
    """Whose machine has a sheet of one slot; another machine has none."""
    made = Plant(program, folder)
    try:
        with made.site:
            made.site.set_up({"machines": [{"machine": MACHINE}, {"machine": "M2"}]})
            rows = [{"Slot": "1", "PartNumber": "P", "Designators": ["R1"]}]
            made.accept("PartDefined", PartNumber="P")
            made.accept("SheetDefined", Product="A", Machine=MACHINE, Rows=rows)
            made.accept("ProductSelected", Product="A", Machine=MACHINE)
            reel = {"Reel": "K1", "PartNumber": "P", "Lot": "L", "Level": "1", "Quantity": 9}
            made.accept("ReelReceived", **reel)
            yield made
    finally:
        made.kill()
        made.broker.kill()


EMPTY, WORK = {"Cause": "AtSlot", "Reel": None, "Refusal": "SlotEmpty", "Slot": "1"}, "NoWork"


@needs_brokers
def test_machines_and_undecided_entries_are_published(plant: Plant) -> None:
    """Each change once, also over kills of the tool and of the broker; what isn't so any more is
    taken back.
    """
    plant.begin()
    heard = Heard(plant.broker)
    heard.until(M1, State="stop", Machine=MACHINE, Board=None, Causes=[{"Cause": WORK}, EMPTY])
    plant.site.say("WorkStarted", {"Machine": MACHINE, "Board": "B1"})
    heard.until("undecided/1", kind="work", machine=MACHINE, board="B1", word="SlotEmpty")
    plant.accept("MaterialsLoaded", Machine=MACHINE, Slot="1", Reel="K1")
    plant.accept("WorkStarted", Machine=MACHINE, Board="B2")
    heard.until(M1, State="go", Board="B2", Causes=[])
    assert heard.now()["online"] == 1 and "machines/M2" not in heard.now()
    plant.kill()
    heard.until("online")  # 0: the broker says it for a tool that was killed
    said = {"Of": 1, "Became": "nothing", "By": "A. Person", "Reason": "it was empty"}
    assert plant.site.asked("POST", "/line/decisions", "op", json.dumps(said))[0] == 200
    before = len(heard.all)
    plant.begin()
    heard.until("undecided/1")
    wait_for("it is online", lambda: heard.now()["online"] == 1)
    assert sorted(name for name, _ in heard.all[before:]) == ["online", "undecided/1"]


@needs_brokers
def test_a_proxy_or_a_broker_that_is_away_is_asked_again(plant: Plant) -> None:
    plant.begin()
    heard = Heard(plant.broker)
    heard.until(M1, Causes=[{"Cause": WORK}, EMPTY])
    wait_for("it is online", lambda: heard.now().get("online") == 1)
    plant.site.stop_nginx()
    wait_for("it is not", lambda: heard.now()["online"] == 0)
    plant.site.start_nginx()
    plant.accept("MaterialsLoaded", Machine=MACHINE, Slot="1", Reel="K1")
    heard.until(M1, Causes=[{"Cause": WORK}])
    plant.broker.kill()
    plant.accept("WorkStarted", Machine=MACHINE, Board="B1")
    plant.broker.start()
    plant.broker.send("x")
    heard = Heard(plant.broker)
    heard.until(M1, State="go")
    wait_for("it is online", lambda: heard.now().get("online") == 1)


class Answers:
    """A client of a proxy that answers so."""

    def __init__(self, **bodies: bytes) -> None:
        self.bodies = bodies

    def once(self, _: str, target: str, *__: Any) -> tuple[int, bytes, None]:
        name = target.partition("?")[0].rpartition("/")[2].removesuffix(".json")
        return (200, self.bodies[name], None) if name in self.bodies else (404, b"", None)

    def close(self) -> None:
        pass


def line(**bodies: bytes) -> news.News:
    return news.News(Answers(**bodies))  # type: ignore[arg-type]  # it answers as a client


SETUP = b'{"machines":[{"machine":"M1"}]}'
STATE = b'{"Answer":"State","Board":null,"Causes":[],"Machine":"M1","Number":7,"State":"go"}'


@pytest.mark.parametrize("name", ["setup", "state", "undecided"])
@pytest.mark.parametrize("odd", [b"", b"[]", b"7", b'{"machines":[1]}', b"\xff", b'n,x\n"'])
def test_what_nobody_can_read_is_no_state(name: str, odd: bytes) -> None:
    its = {"setup": SETUP, "state": STATE, "undecided": b""}
    assert list(line(**its).read()) == ["machines/M1"]
    with contextlib.suppress(news.Away):
        found = line(**{**its, name: odd}).read()
        assert not found or list(found) == ["machines/M1"]


def test_a_desk_without_a_book_is_away() -> None:
    with pytest.raises(news.Away, match="/line/undecided: status 404"):
        line(setup=SETUP, state=STATE).read()


def test_a_bad_command_line_is_refused() -> None:
    good: list[Word] = [tool("ops"), "events", "--mqtt", "mqtt://x"]
    for more in (["--mqtt-user", "me"], ["--prefix", "a/#"], ["--every", "0"], ["--user", "x"]):
        run([*good, *more]).expect(2)
    for url in ("http://x", "mqtt://me@x", "mqtt://"):
        run([*good[:-1], url]).expect(2)
