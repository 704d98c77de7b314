"""Publishes over MQTT what changes at a line, for stack lights, Node-RED or a SCADA system.

usage: tracedesk-ops events --mqtt URL [--prefix TOPIC] [--every SECONDS] [--mqtt-ca FILE]
       [--mqtt-user NAME --mqtt-password-file FILE] [--url URL] [--ca FILE]
       [--user NAME --password-file FILE]

examples:
  tracedesk-ops events --mqtt mqtt://127.0.0.1:1883 --url https://desk.plant --ca server.crt \\
      --user office --password-file office.password
  tracedesk-ops events --mqtt mqtts://broker.plant --mqtt-user desk \\
      --mqtt-password-file mqtt.password --prefix plant/L2 --url https://desk.plant

TOPIC/online                 1 while the line can be read, else 0, also if this program is killed
TOPIC/machines/MACHINE       whether it may work: State, Board, and each of Causes; of the machines
                             in the station's set-up
TOPIC/undecided/NUMBER       an entry of the line's book, until somebody decides about it

Each is an object of JSON, is retained, and is published at each change. A line has a TOPIC of its
own. In names, a sign with a meaning in topics is %2F and the like. While `online` is 0 nothing else
is true any more. Stop no machine by these topics: that is the sender's interlock.

--mqtt     the broker, mqtt:// or mqtts://HOST:PORT; it wants Debian's python3-paho-mqtt
--prefix   the first levels of the topics (tracedesk)
--every    seconds between two looks (1)
--mqtt-ca  who signed the broker's certificate
--mqtt-user, --mqtt-password-file   the log-in at the broker, by mqtts:// alone
--url      the proxy in front of the desk (http://127.0.0.1:8080)
--ca       who signed its certificate
--user, --password-file   the log-in at the proxy, one that may read

It runs without an end, and asks a broker or a proxy that is away again.
Exit status: 2 bad command line, or there is no python3-paho-mqtt; 9 an unexpected failure.
"""
from __future__ import annotations

import argparse
import importlib
import json
import pathlib
import threading
import time
import urllib.parse
from typing import Any, NoReturn

from tracedesk_ops import desks, news, plant

PATIENCE = 10.0  # seconds for an answer of the proxy or of the broker
PAUSE = 2.0  # seconds in which a new connection gets what the broker has
ONLINE = "online"
SAFE, UNSAFE = "mqtts", "mqtt"
PORTS = {SAFE: 8883, UNSAFE: 1883}
TRUSTED = "/etc/ssl/certs/ca-certificates.crt"


class Broker:
    """A connection to a broker, and what that has of a line's topics."""

    def __init__(self, mqtt: Any, asked: argparse.Namespace) -> None:
        self.prefix, self.has = asked.prefix, {}  # type: str, dict[str, str]
        self.told, self.broken = threading.Event(), ""
        where = urllib.parse.urlsplit(asked.mqtt)
        self.client = mqtt.Client()
        if where.scheme == SAFE:
            self.client.tls_set(asked.mqtt_ca or TRUSTED)
        if asked.mqtt_user:
            password = asked.mqtt_password_file.read_text(encoding="utf-8").rstrip("\r\n")
            self.client.username_pw_set(asked.mqtt_user, password)
        self.client.will_set(f"{self.prefix}/{ONLINE}", "0", qos=1, retain=True)
        self.client.on_connect, self.client.on_disconnect = self.begun, self.ended
        self.client.on_message = self.left_over
        self.reason = mqtt.connack_string
        self.client.connect(where.hostname, where.port or PORTS[where.scheme])
        self.client.loop_start()

    def begun(self, client: Any, _: Any, __: Any, code: int) -> None:
        self.broken = self.reason(code) if code else ""
        if not code:
            client.subscribe(f"{self.prefix}/+/#", qos=1)
        self.told.set()

    def ended(self, *_: Any) -> None:
        """The broker may have published the will, so nothing that it had is known any more."""
        self.broken = self.broken or "the connection is broken"
        self.told.set()

    def left_over(self, _: Any, __: Any, message: Any) -> None:
        """What a run before has left, so that what isn't so any more is taken back."""
        if message.retain:
            name = message.topic.removeprefix(f"{self.prefix}/")
            self.has.setdefault(name, message.payload.decode(errors="replace"))

    def end(self) -> None:
        self.client.loop_stop()
        self.client.disconnect()

    def ready(self) -> None:
        """Waits until the broker has answered, and has sent what it had."""
        if not self.told.wait(PATIENCE) or self.broken:
            raise OSError(self.broken or "it doesn't answer")
        time.sleep(PAUSE)

    def put(self, name: str, text: str) -> None:
        """Publishes a topic, unless the broker has it so; OSError if it doesn't take it."""
        if self.broken:
            raise OSError(self.broken)
        if self.has.get(name) != text:
            told = self.client.publish(f"{self.prefix}/{name}", text, qos=1, retain=True)
            try:
                told.wait_for_publish(PATIENCE)
            except (ValueError, RuntimeError) as fault:
                raise OSError(str(fault)) from None
            if not told.is_published():
                raise OSError("it acknowledges nothing")
            self.has[name] = text


class Events:
    """What was read of a line, and is to be published."""

    def __init__(self, asked: argparse.Namespace) -> None:
        self.asked, self.why = asked, ""
        self.line = news.News(desks.client(asked, PATIENCE))

    def tell(self, place: str, fault: Exception) -> None:
        text = f"{place}: {str(fault) or repr(fault)}. It is asked again"
        if text != self.why:
            plant.tell(text)
        self.why = text

    def look(self, broker: Broker) -> None:
        """Publishes what has changed, and takes back what isn't there any more."""
        try:
            states = self.line.read()
        except news.Away as fault:
            self.tell(self.asked.url, fault)
            broker.put(ONLINE, "0")
            return
        for name, told in states.items():
            broker.put(name, json.dumps(told, sort_keys=True))
        for name in [it for it in list(broker.has) if it not in (*states, ONLINE)]:
            broker.put(name, "")
            del broker.has[name]
        broker.put(ONLINE, "1")
        self.why = ""

    def run(self, mqtt: Any) -> NoReturn:
        """Publishes without an end, and connects again whenever that breaks."""
        while True:
            broker = None
            try:
                broker = Broker(mqtt, self.asked)
                broker.ready()
                while True:
                    self.look(broker)
                    time.sleep(self.asked.every)
            except OSError as fault:
                self.tell(self.asked.mqtt, fault)
            if broker:
                broker.end()
            time.sleep(PAUSE)


def reader() -> argparse.ArgumentParser:
    it = desks.reader_for("events", __doc__)
    it.add_argument("--mqtt", required=True, metavar="URL")
    it.add_argument("--mqtt-ca", metavar="FILE")
    it.add_argument("--mqtt-user", metavar="NAME")
    it.add_argument("--mqtt-password-file", type=pathlib.Path, metavar="FILE")
    it.add_argument("--prefix", metavar="TOPIC", default="tracedesk")
    it.add_argument("--every", type=float, metavar="SECONDS", default=1.0)
    return it


def main(words: list[str] | None = None) -> int:
    its = reader()
    asked = desks.understood(its, words)
    where = urllib.parse.urlsplit(asked.mqtt)
    if where.scheme not in PORTS or not where.hostname or "@" in where.netloc:
        its.error("--mqtt is mqtt://HOST:PORT or mqtts://HOST:PORT; --mqtt-user names a user")
    if asked.mqtt_user and not (asked.mqtt_password_file and where.scheme == SAFE):
        its.error(
            "--mqtt-user wants --mqtt-password-file FILE, and mqtts://, which sends it unread"
        )
    if not asked.every > 0 or not asked.prefix or set("+#") & set(asked.prefix):
        its.error("--every is a number of seconds, and --prefix has no + or #")
    try:
        mqtt = importlib.import_module("paho.mqtt.client")
    except ImportError as fault:
        its.error(f"{fault}: apt-get install python3-paho-mqtt")
    Events(asked).run(mqtt)
