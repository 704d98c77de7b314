"""Defines seventy parts on one connection, each in a body as long as may be, and prints the
answers.
"""
import http.client
import json
import sys

from serving import PATIENCE, link

PORT = int(sys.argv[1])


desk = http.client.HTTPConnection("127.0.0.1", PORT, timeout=PATIENCE)
desk.sock = link(PORT)
for n in range(1, 71):
    message = {
        "MessageName": "TraceDesk.PartDefined",
        "UniqueID": f"u{n}",
        "Source": "S",
        "TimeStamp": "1970-01-01T00:00:00Z",
        "MessageBody": {"PartNumber": f"P{n}"},
    }
    desk.request("POST", "/messages", json.dumps(message).ljust(1_048_576))
    answer = desk.getresponse()
    print(answer.status, answer.read().decode())
desk.close()
