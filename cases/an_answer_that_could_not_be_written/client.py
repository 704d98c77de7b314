"""A client that is gone before its answer is written, and then sends the same request again on new
connections.

The desk serves one connection at a time. So while the first one is held, the second is opened,
sends its request and is reset: the desk finds the whole request, and no one to write to.
"""
import socket
import struct
import sys

from serving import link

PORT = int(sys.argv[1])
MESSAGE = open("messages.jsonl", "rb").read().rstrip(b"\n")
POST = b"POST /messages HTTP/1.1\r\nContent-Length: %d\r\n\r\n" % len(MESSAGE) + MESSAGE


def last_line(answers: bytes) -> str:
    return answers.split(b"\n")[-1].decode()


first = link(PORT)
first.sendall(b"GET /overdue HTTP/1.1\r\n\r\n")
got = b""
while not got.endswith(b"board,designator,reel,minute\n"):
    got += first.recv(65536)

second = link(PORT)
second.sendall(POST)
second.setsockopt(
    socket.SOL_SOCKET, socket.SO_LINGER, struct.pack("ii", 1, 0)
)  # closing it resets it
second.close()
first.close()

for _ in range(2):
    with link(PORT) as again:
        again.sendall(POST)
        again.shutdown(socket.SHUT_WR)
        got = b""
        while data := again.recv(65536):
            got += data
    print(last_line(got))
