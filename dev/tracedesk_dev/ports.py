"""Ports for the services of tests.

A port is its process's own until that ends, so no other test gets it while a service is stopped
and started again. It is none of those that the system gives to connections, which would have it
taken by chance.
"""
import contextlib
import os
import pathlib
import random
import socket
from typing import Iterator

# where the tests' ports are; those of connections begin at 32768 unless a machine is set otherwise
PORTS = os.environ.get("TRACEDESK_TEST_PORTS", "20000-29999")
CONNECTIONS = pathlib.Path("/proc/sys/net/ipv4/ip_local_port_range")

held: dict[int, socket.socket] = {}  # a name that only one process can have stands for each port


def of_tests() -> list[int]:
    """The ports for tests, in an order of chance."""
    first, last = map(int, PORTS.split("-"))
    ports = list(range(first, last + 1))
    with contextlib.suppress(OSError, ValueError):
        least, most = map(int, CONNECTIONS.read_text().split())
        ports = [it for it in ports if not least <= it <= most] or ports
    random.SystemRandom().shuffle(ports)
    return ports


def free_port() -> int:
    """A port that no service has, for as long as this process runs."""
    return next(filter(is_taken, of_tests()))


@contextlib.contextmanager
def lent() -> Iterator[int]:
    """Such a port, for a while: for tools that want thousands, one after the other."""
    port = free_port()
    try:
        yield port
    finally:
        held.pop(port).close()


def is_taken(port: int) -> bool:
    """Takes a port for this process, if nobody has it."""
    mark = socket.socket(socket.AF_UNIX)
    try:
        mark.bind(f"\0tracedesk-test-port-{port}")
        with socket.socket() as service:
            service.setsockopt(socket.SOL_SOCKET, socket.SO_REUSEADDR, 1)  # as services do
            service.bind(("", port))
    except OSError:
        mark.close()
        return False
    held[port] = mark
    return True
