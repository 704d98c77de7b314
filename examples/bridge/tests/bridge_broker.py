"""RabbitMQ with AMQP 1.0 and TLS, from which the bridge takes the messages of a day, and which is
killed too.
"""
from __future__ import annotations

import contextlib
import functools
import gzip
import importlib
import os
import pathlib
import subprocess
import time
from typing import Any, Optional

from bridge_day import Run
from station_site import certificate
from tracedesk_dev.ports import free_port

PATIENCE = 600  # seconds without a broker, or without a message of its queue
QUEUE = "said"


@functools.cache
def amqp() -> Any:
    """The module of Debian's python3-qpid-proton, which has no types."""
    proton = importlib.import_module("proton")
    for name in ("reactor", "utils"):
        importlib.import_module(f"proton.{name}")
    return proton


def message(body: Any) -> Any:
    """A message that outlives the broker."""
    return amqp().Message(body=body, durable=True, inferred=True)


class Broker:
    """RabbitMQ in a folder, on ports of its own, with its plug-in for AMQP 1.0."""

    def __init__(self, at: pathlib.Path) -> None:
        self.at, (self.port, self.safe, dist, epmd) = at, (free_port() for _ in range(4))
        self.url = f"amqp://127.0.0.1:{self.port}"
        self.running: Optional[subprocess.Popen[bytes]] = None
        at.mkdir()
        certificate(at, "broker", "localhost")
        (at / "password").write_text("guest\n")
        (at / "enabled_plugins").write_text("[rabbitmq_amqp1_0].\n")
        (at / "rabbitmq.conf").write_text(
            f"listeners.tcp.default = 127.0.0.1:{self.port}\nlisteners.ssl.default ="
            f" 127.0.0.1:{self.safe}\nssl_options.cacertfile ="
            f" {at}/broker.crt\nssl_options.certfile = {at}/broker.crt\nssl_options.keyfile ="
            f" {at}/broker.key\n"
        )
        self.words: list[Any] = ["--broker", f"amqps://localhost:{self.safe}"]
        self.words += ["--ca", at / "broker.crt", "--user", "guest"]
        self.words += ["--password-file", at / "password"]
        self.words += ["--queue", f"/amq/queue/{QUEUE}", "--window", "20"]
        own = {
            "NODENAME": f"bridge{self.port}@localhost",
            "DIST_PORT": str(dist),
            "MNESIA_BASE": str(at / "mnesia"),
            "LOG_BASE": str(at / "log"),
            "CONF_ENV_FILE": "/dev/null",
            "ENABLED_PLUGINS_FILE": str(at / "enabled_plugins"),
            "CONFIG_FILE": str(at / "rabbitmq.conf"),
            "SERVER_ADDITIONAL_ERL_ARGS": "-kernel inet_dist_use_interface {127,0,0,1}",
        }
        self.environment = {
            **os.environ,
            "HOME": str(at),
            "detached": "1",
            "ERL_EPMD_PORT": str(epmd),
            "ERL_EPMD_ADDRESS": "127.0.0.1",
            **{f"RABBITMQ_{name}": it for name, it in own.items()},
        }
        self.epmd = subprocess.Popen(
            ["epmd", "-port", str(epmd), "-address", "127.0.0.1"],
            env=self.environment,
            stdout=subprocess.DEVNULL,
            stderr=subprocess.DEVNULL,
        )

    def start(self) -> None:
        if self.running is None:
            with open(self.at / "told.txt", "ab") as told:
                self.running = subprocess.Popen(
                    ["/usr/lib/rabbitmq/bin/rabbitmq-server"],
                    env=self.environment,
                    stdin=subprocess.DEVNULL,
                    stdout=told,
                    stderr=told,
                )

    def kill(self) -> None:
        if self.running:
            self.running.kill()
            self.running.wait()
            self.running = None

    def end(self) -> None:
        self.kill()
        self.epmd.kill()
        self.epmd.wait()

    def connected(self) -> Any:
        """A connection, once the broker takes one."""
        end = time.monotonic() + PATIENCE
        while True:
            try:
                return amqp().utils.BlockingConnection(
                    self.url, timeout=20, allowed_mechs="ANONYMOUS"
                )
            except amqp().ProtonException as fault:
                assert (
                    time.monotonic() <= end
                ), f"no broker: {fault}: {(self.at / 'told.txt').read_text()[-500:]}"
                time.sleep(0.3)

    def sender(self, link: Any) -> Any:
        """Sends to a queue that outlives the broker: the first call makes it."""

        option = amqp().reactor.SenderOption

        class Lasting(option):  # type: ignore[misc,valid-type]  # proton has no types
            def apply(self, sender: Any) -> None:
                sender.target.durability = amqp().Terminus.DELIVERIES

        return link.create_sender(f"/queue/{QUEUE}", options=Lasting())

    def send(self, *messages: Any) -> None:
        """Puts messages into the queue, and makes it if there is none."""
        link = self.connected()
        sender = self.sender(link)
        for body in messages:
            sender.send(body, timeout=20)
        link.close()

    def left(self, least: int = 0) -> int:
        """How many messages there are for the next who takes; they stay. So many are waited for."""
        link, count = self.connected(), 0
        receiver = link.create_receiver(f"/amq/queue/{QUEUE}", credit=0)
        with contextlib.suppress(amqp().Timeout):
            while True:
                receiver.receive(timeout=2 if count >= least else PATIENCE)
                count += 1
        link.close()
        return count


class RunByBroker(Run):
    """The machine sends to a broker, one message after the other, again where it doesn't know
    whether the broker has it.
    """

    def __init__(
        self, program: pathlib.Path, at: pathlib.Path, seed: int, boards: int, kills: int
    ) -> None:
        super().__init__(program, at, seed, boards, kills)
        self.broker, self.broker_kills = Broker(self.at / "broker"), 2

    def source(self) -> list[Any]:
        return self.broker.words

    def write(self) -> None:
        link = sender = None
        for number, line in enumerate(self.lines):
            body = gzip.compress(line) if number % 5 == 0 else line
            while True:
                with contextlib.suppress(amqp().ProtonException, OSError):
                    if link is None:
                        link = self.broker.connected()
                        sender = self.broker.sender(link)
                    is_text = number % 7 == 1 and body is line
                    sender.send(message(body.decode() if is_text else body), timeout=20)
                    break
                link = None
        self.is_written = True

    def keep_up(self) -> None:
        self.broker.start()
        if self.broker_kills and self.answered() > len(self.wanted) * (3 - self.broker_kills) // 4:
            self.broker_kills -= 1
            self.broker.kill()
            self.kills["broker"] += 1
        super().keep_up()

    def is_done(self) -> bool:
        if (
            self.broker_kills
            or not self.is_written
            or self.answered() < len(self.wanted)
            or len(self.room.dead()) < len(self.wanted_dead)
            or self.waits()
        ):
            return False
        time.sleep(2)
        self.kill("bridge")
        return self.broker.left() == 0

    def end(self) -> None:
        super().end()
        self.broker.end()
