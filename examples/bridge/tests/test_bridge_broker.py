"""The bridge takes from RabbitMQ, which is killed under it; it wants rabbitmq-server,
python3-qpid-proton and openssl.
"""
from __future__ import annotations

import pathlib
import subprocess
import time
from typing import Any, Iterator

import pytest
from bridge_broker import Broker, RunByBroker, amqp, message
from at_port import until
from bridge_lab import Room, start
from station_site import certificate

pytestmark = [pytest.mark.whole, pytest.mark.needs("rabbitmq-server", "python:proton", "openssl")]


@pytest.fixture
def broker(room: Room) -> Iterator[Broker]:
    made = Broker(room.at / "broker")
    try:
        made.start()
        made.send()
        yield made
    finally:
        made.end()


def test_nothing_is_acknowledged_before_its_answer(room: Room, broker: Broker) -> None:
    names = [f"u{number:02}" for number in range(30)]
    broker.send(*(message(start(name)) for name in names))
    room.running = subprocess.Popen(room.command(*broker.words), stderr=subprocess.DEVNULL)
    room.wait_for(names[:20])
    time.sleep(1)
    room.end()
    assert len(room.waiting()) == 20
    assert broker.left(30) == 30


@pytest.mark.parametrize(
    "name, value, why",
    [
        ("--ca", "other.crt", "certificate verify failed"),
        ("--broker", "amqps://127.0.0.1:{port}", "certificate verify failed"),
        ("--password-file", "wrong", "Authentication failed"),
        ("--queue", "/amq/queue/none", "no queue 'none'"),
        ("--broker", "amqps://localhost:1", "refused"),
    ],
)
def test_what_a_broker_refuses_is_reported(
    room: Room, broker: Broker, name: str, value: str, why: str
) -> None:
    (room.at / "wrong").write_text("wrong\n")
    certificate(room.at, "other", "localhost")
    words = list(broker.words)
    words[words.index(name) + 1] = value.format(port=broker.safe)
    said = room.at / "said.txt"
    with open(said, "wb") as told:
        room.running = subprocess.Popen(room.command(*words), stderr=told, cwd=room.at)
        until(lambda: why in said.read_text(), said.read_text)


def test_what_no_one_can_read_is_a_dead_letter(room: Room, broker: Broker) -> None:
    """A map with binary keys, and a text that is no UTF-8: both are acknowledged, and what comes
    next too.
    """
    text = message("QQQQ")

    class Odd:
        def send(self, to: Any, tag: Any = None) -> Any:
            delivery = to.delivery(tag or to.delivery_tag())
            to.stream(text.encode().replace(b"QQQQ", b"\xff\xfeQQ"))
            to.advance()
            return delivery

    keys = {b"\xff": "x", "y": amqp().symbol("z")}
    broker.send(message(keys), Odd(), message(start("a")))
    room.running = subprocess.Popen(room.command(*broker.words), stderr=subprocess.DEVNULL)
    room.wait_for(["a"])
    room.move(0, "sent")
    time.sleep(2)
    room.end()
    assert broker.left() == 0
    dead = room.dead()
    assert len(dead) == 2
    assert b"\\xff" in dead[0] and b"\xff\xfeQQ" in dead[1]


def test_a_day_from_a_broker_is_traced_after_kills(
    program: pathlib.Path, tmp_path: pathlib.Path, seed: int
) -> None:
    """Also nothing is left in the queue."""
    run = RunByBroker(program, tmp_path, seed, boards=60, kills=12)
    try:
        run.go()
        run.look_at_all()
    finally:
        run.end()
