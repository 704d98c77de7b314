"""Requests the trace of each board and the kit of each product, and prints how many lines they
have.
"""
import http.client
import sys

from serving import PATIENCE, link

PORT, BOARDS = int(sys.argv[2]), open(sys.argv[1]).read().split()[1:]


def lines(target: str) -> int:
    desk.request("GET", target)
    return desk.getresponse().read().count(b"\n")


desk = http.client.HTTPConnection("127.0.0.1", PORT, timeout=PATIENCE)
desk.sock = link(PORT)
for n in sorted(int(board[1:]) for board in BOARDS):
    trace = lines(f"/trace/board?board=B{n}&detail=4")
    print(f"{n}: {trace} {lines(f'/kit?product=PR{n}&machine=M&boards=1')}")
desk.close()
