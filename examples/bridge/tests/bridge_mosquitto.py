"""mosquitto, a broker of MQTT, in a folder and on a port of its own."""
from __future__ import annotations

import contextlib
import importlib
import pathlib
import subprocess
import uuid
from typing import Any, Optional

from at_port import PATIENCE, until
from tracedesk_dev.ports import free_port


class Mosquitto:
    """A broker in a folder, which keeps what it has."""

    def __init__(self, at: pathlib.Path, *more: str) -> None:
        self.at, self.port = at, free_port()
        self.running: Optional[subprocess.Popen[bytes]] = None
        at.mkdir()
        lines = [f"listener {self.port} 127.0.0.1", "persistence true", "autosave_on_changes true"]
        lines += ["autosave_interval 1", f"persistence_location {at}/", "user root", *more]
        (at / "mosquitto.conf").write_text("\n".join([*lines, ""]))
        self.words: list[Any] = ["--broker", f"mqtt://127.0.0.1:{self.port}", "--topic", "line/#"]

    def start(self) -> None:
        words: list[Any] = ["/usr/sbin/mosquitto", "-c", self.at / "mosquitto.conf"]
        with open(self.at / "told.txt", "ab") as told:
            self.running = subprocess.Popen(words, stdout=told, stderr=told)

    def kill(self) -> None:
        if self.running:
            self.running.kill()
            self.running.wait()
            self.running = None

    def told(self) -> str:
        return (self.at / "told.txt").read_text()

    def wait_until_kept(self) -> None:
        """Waits until all that the broker has by now is in its file, by a mark that comes last."""
        mqtt = importlib.import_module("paho.mqtt.client")
        mark, file = uuid.uuid4().hex.encode(), self.at / "mosquitto.db"
        client = mqtt.Client()
        client.connect("127.0.0.1", self.port)
        client.loop_start()
        client.publish("mark", mark, qos=1, retain=True).wait_for_publish(PATIENCE)
        client.disconnect()
        client.loop_stop()
        until(lambda: file.exists() and mark in file.read_bytes(), self.told)

    def send(self, topic: str, *messages: bytes, quality: int = 1) -> None:
        """Publishes messages, and comes back once the broker has them."""
        mqtt = importlib.import_module("paho.mqtt.client")
        client = mqtt.Client()

        def is_connected() -> bool:
            with contextlib.suppress(OSError):
                client.connect("127.0.0.1", self.port)
                return True
            return False

        until(is_connected, self.told)
        client.loop_start()
        for message in messages:
            client.publish(topic, message, qos=quality).wait_for_publish(PATIENCE)
        client.disconnect()
        client.loop_stop()
