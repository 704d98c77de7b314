"""What clients of cases share: a connection to the service, which may not listen yet."""
import socket
import time

PATIENCE = 300  # seconds, of a machine that has much to do


def link(port: int, address: str = "127.0.0.1") -> socket.socket:
    """A connection, once the service takes it."""
    end = time.monotonic() + PATIENCE
    while time.monotonic() < end:
        try:
            return socket.create_connection((address, port), timeout=PATIENCE)
        except ConnectionRefusedError:
            time.sleep(0.01)
    raise SystemExit("no connection was taken")
