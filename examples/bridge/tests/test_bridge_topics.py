"""The bridge takes from mosquitto, and either is killed; it wants mosquitto and
python3-paho-mqtt.
"""
from __future__ import annotations

import subprocess
import time

import pytest
from at_port import rows_in, until
from bridge_lab import Room, line_of, said, start
from bridge_mosquitto import Mosquitto
from station_site import certificate

pytestmark = [pytest.mark.needs("mosquitto", "python:paho")]
TOPIC = "line/m1/said"


def follow(room: Room, broker: Mosquitto) -> None:
    """Starts the bridge, and waits until the broker knows it."""
    words = room.command(*broker.words)
    room.running = subprocess.Popen(words, stderr=open(room.at / "said.txt", "ab"))
    until(lambda: "SUBSCRIBE" in broker.told(), lambda: said_by(room))


def said_by(room: Room) -> str:
    return (room.at / "said.txt").read_text()


def answer(room: Room) -> int:
    """Answers what waits, as the sender does; how many these are."""
    count = len(room.waiting())
    room.move(0, "sent")
    return count


def everything(room: Room) -> list[str]:
    its = rows_in(room.spool, "SELECT uid FROM message WHERE uid NOT LIKE 'unread-%' ORDER BY n")
    return [uid for (uid,) in its]


def test_a_bridge_or_a_broker_killed_at_each_record_loses_and_doubles_none(room: Room) -> None:
    """Nothing is acknowledged before its answer: what was taken comes again, and acts once."""
    broker = Mosquitto(room.at / "broker", "allow_anonymous true", "log_type all")
    try:
        broker.start()
        broker.send(TOPIC)
        follow(room, broker)
        wanted = []
        for number in range(1, 13):
            name = f"u{number:02}"
            broker.send(TOPIC, start(name))
            wanted.append(name)
            until(lambda: len(everything(room)) == len(wanted), lambda: said_by(room))
            if number % 3 == 0:
                answer(room)
            if number % 4 == 2:
                broker.wait_until_kept()
                broker.kill()
                broker.start()
            else:
                room.end()
                follow(room, broker)
        broker.send(TOPIC, line_of(said("CFX.Heartbeat")), b"{", start("last"))
        until(lambda: everything(room) == [*wanted, "last"], lambda: said_by(room))
        assert room.dead() == [b"{\n"]
        answer(room)
        time.sleep(1)
        room.end()
        (room.at / "said.txt").unlink()
        follow(room, broker)
        time.sleep(1)
        assert everything(room) == [*wanted, "last"]
    finally:
        broker.kill()


@pytest.mark.parametrize("more, why", [([], "not authorised"), (["--topic", "x/#"], "QoS 0")])
def test_what_is_wrong_at_the_broker_is_reported(room: Room, more: list[str], why: str) -> None:
    is_open = str(bool(more)).lower()
    broker = Mosquitto(room.at / "broker", f"allow_anonymous {is_open}", "log_type all")
    try:
        broker.start()
        words = room.command(*broker.words)
        room.running = subprocess.Popen(words, stderr=open(room.at / "said.txt", "ab"))

        def is_reported() -> bool:
            if more:
                broker.send(TOPIC, start("a"), quality=0)
            return why in said_by(room)

        until(is_reported, lambda: said_by(room))
    finally:
        broker.kill()


@pytest.mark.needs("openssl")
def test_a_password_goes_over_tls_alone(room: Room) -> None:
    """To a broker whose certificate is right; another one gets nothing."""
    certificate(room.at, "mqtt", "localhost")
    certificate(room.at, "other", "localhost")
    pem = room.at / "mqtt.crt"
    more = [f"certfile {pem}", f"keyfile {room.at / 'mqtt.key'}", "allow_anonymous false"]
    subprocess.run(["mosquitto_passwd", "-b", "-c", room.at / "users", "desk", "pw"], check=True)
    broker = Mosquitto(room.at / "broker", *more, f"password_file {room.at / 'users'}")
    try:
        broker.start()
        (room.at / "password").write_text("pw\n")
        url = f"mqtts://localhost:{broker.port}"
        for ca, why in (("other", "certificate verify failed"), ("mqtt", "")):
            words = ["--broker", url, "--topic", "line/#", "--user", "desk", "--ca"]
            words += [str(room.at / f"{ca}.crt"), "--password-file", str(room.at / "password")]
            with open(room.at / "said.txt", "wb") as told:
                room.running = subprocess.Popen(room.command(*words), stderr=told)
            until(
                lambda: why in said_by(room) if why else "u'desk'" in broker.told(),
                lambda: said_by(room),
            )
            room.end()
    finally:
        broker.kill()
