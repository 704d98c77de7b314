"""Takes the messages of a topic of an MQTT broker."""
from __future__ import annotations

import argparse
import urllib.parse
from typing import Any

from bridge import Bridge
from brokers import HEARTBEAT, LOOK, TRUSTED, Source, unzipped
from tracedesk import console

QUALITY = 1  # at least once: what comes again acts once
REFUSED = 0x80
PORTS = {"mqtt": 1883, "mqtts": 8883}


def client_of(mqtt: Any) -> Any:
    """Clients that acknowledge a message when they are told to, and not once it was handed over."""

    class Client(mqtt.Client):  # type: ignore[misc]  # paho has no types
        def _send_puback(self, mid: int) -> int:
            return int(mqtt.MQTT_ERR_SUCCESS)

        def acknowledge(self, mid: int) -> None:
            super()._send_puback(mid)

    return Client


class Topic(Source):
    """A topic of a broker of MQTT."""

    module, package = "paho.mqtt.client", "python3-paho-mqtt"

    def __init__(self, bridge: Bridge, asked: argparse.Namespace) -> None:
        super().__init__(bridge, asked)
        self.is_told = False

    def connected(self) -> Any:
        """A client that the broker knows by its name, and keeps messages for."""
        asked, where = self.asked, urllib.parse.urlsplit(self.asked.broker)
        name = f"tracedesk-bridge-{self.bridge.kept.spool.name}"
        client = client_of(self.its)(client_id=name, clean_session=False)
        if where.scheme == "mqtts":
            client.tls_set(asked.ca or TRUSTED)
        if asked.user:
            client.username_pw_set(asked.user, asked.password)
        client.on_connect, client.on_subscribe = self.begin, self.subscribed
        client.on_message = self.come
        client.connect(where.hostname, where.port or PORTS[where.scheme], keepalive=HEARTBEAT)
        return client

    def begin(self, client: Any, _: Any, __: Any, code: int) -> None:
        if code:
            raise OSError(self.its.connack_string(code))
        self.open.clear()  # it comes again
        client.subscribe(self.asked.topic, qos=QUALITY)

    def subscribed(self, _: Any, __: Any, ___: Any, granted: Any) -> None:
        if REFUSED in granted:
            raise OSError(f"the broker refuses the topic {self.asked.topic}")

    def come(self, client: Any, _: Any, message: Any) -> None:
        came = self.bridge.take(unzipped(message.payload), message.topic)
        if message.qos:
            self.open.append((message.mid, came.names))
        elif not self.is_told:
            self.is_told = True
            console.tell(
                f"{message.topic} is published with QoS 0: what comes while the bridge is away is"
                " lost. QoS 1 keeps it"
            )
        self.acknowledge_all(client)

    def acknowledge(self, link: Any, number: int) -> None:
        link.acknowledge(number)

    def end(self, link: Any) -> None:
        link.disconnect()

    def take(self, link: Any) -> None:
        while not (code := link.loop(timeout=LOOK)):
            self.acknowledge_all(link)
            self.bridge.look()
        raise OSError(self.its.error_string(code))
