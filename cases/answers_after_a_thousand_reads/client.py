"""Asks 1,100 times on one connection, each time once the request before is answered."""
import collections
import http.client
import sys
from typing import Any

from serving import link

PORT = int(sys.argv[1])


def asked(desk: Any) -> Any:
    desk.request("GET", "/overdue")
    answer = desk.getresponse()
    return answer.status, answer.read().decode()


desk = http.client.HTTPConnection("127.0.0.1", PORT)
desk.sock = link(PORT)
for (status, text), times in collections.Counter(asked(desk) for _ in range(1_100)).items():
    print(times, "times", status, text, end="")
desk.close()
