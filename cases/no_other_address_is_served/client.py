"""Asks at 127.0.0.1, once nothing takes a connection at any other address."""
import http.client
import socket
import sys
import time

PORT = int(sys.argv[1])


def link(address: str) -> socket.socket | None:
    """A connection, or none where it is refused."""
    try:
        return socket.create_connection((address, PORT), timeout=300)
    except ConnectionRefusedError:
        return None


for _ in range(30_000):
    taken = link("127.0.0.1")
    if taken:
        break
    time.sleep(0.01)
else:
    raise SystemExit("no connection was taken")

for address in ("127.0.0.2", "::1"):
    print(address, "taken" if link(address) else "refused")

asked = http.client.HTTPConnection("127.0.0.1", PORT)
asked.sock = taken
asked.request("GET", "/overdue")
print("127.0.0.1", asked.getresponse().read().decode(), end="")
asked.close()
