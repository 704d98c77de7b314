"""Requests one report 200,000 times on one connection, fifty at a time, and prints how many
came.
"""
import sys
from typing import Any

from serving import link

PORT = int(sys.argv[1])
REEL = b"reel,part,lot,level,received,placed,scrapped,remaining,minutes_left,state\nK1,P,L1,1,9,0,0,9,unlimited,sealed\n"


def report(body: Any) -> bytes:
    return b"HTTP/1.1 200 OK\r\nContent-Type: text/csv\r\nContent-Length: %d\r\n\r\n%b" % (
        len(body),
        body,
    )


desk, came = link(PORT), 0
asked = b"GET /reel?reel=K1 HTTP/1.1\r\n\r\n" * 50
wanted = report(REEL) * 50
for _ in range(4_000):
    desk.sendall(asked)
    got = b""
    while len(got) < len(wanted) and (more := desk.recv(65_536)):
        got += more
    if got != wanted:
        raise SystemExit(f"{got!r}")
    came += 50
desk.close()
print(came, "reports")
