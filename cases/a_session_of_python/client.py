"""A client by Python's http.client, and one by hand."""
import http.client
import json
import socket
import sys

from serving import PATIENCE, link

PORT = int(sys.argv[1])


def told(link: http.client.HTTPConnection) -> None:
    answer = link.getresponse()
    body = answer.read().decode()
    print(answer.status, answer.headers["content-type"], answer.headers["content-length"], body)


first = http.client.HTTPConnection("127.0.0.1", PORT, timeout=PATIENCE)
first.sock = link(PORT)
first.request("GET", "/trace/lot?lot=L-77&detail=1", headers={"ACCEPT": "text/csv"})
told(first)
message = {
    "MessageName": "TraceDesk.PartDefined",
    "UniqueID": "h-01",
    "Source": "host",
    "TimeStamp": "2026-03-02T06:30:00Z",
    "MessageBody": {"PartNumber": "RES-10K"},
}
first.request(
    "POST",
    "/messages",
    body=json.dumps(message).encode(),
    headers={"cOnTeNt-TyPe": "application/json"},
)
told(first)
first.request("GET", "/trace/board?board=SN-119&detail=1")
told(first)
first.close()

with link(PORT) as second:  # three in one piece, and then half of one
    second.sendall(
        b"GET /trace/board?board=SN-117&detail=1 HTTP/1.1\r\n\r\nGET"
        b" /trace/board?board=SN-118&detail=1 HTTP/1.1\r\n\r\nGET /overdue HTTP/1.1\r\n\r\nGET"
        b" /over"
    )
    second.shutdown(socket.SHUT_WR)
    got = b""
    while data := second.recv(65536):
        got += data
print(
    got.count(b"HTTP/1.1 200 OK\r\n"),
    "answers,",
    got.count(b"\r\n\r\npart\nCAP-100N\n"),
    "with a part",
)

third = http.client.HTTPConnection("127.0.0.1", PORT, timeout=PATIENCE)
third.sock = link(PORT)
third.request("GET", "/overdue", headers={"Connection": "close"})
answer = third.getresponse()
answer.read()
print("closed:", answer.will_close)
third.close()
