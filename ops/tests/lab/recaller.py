"""A recaller at the page of recalls of the installed machine, by its proxy and a log-in."""
from __future__ import annotations

import re
import shlex

from lab.machine import URL, Machine
from lab.waits import wait_for

ASKED, ANSWERS = "/var/lib/tracedesk-recall/asked", "/var/lib/tracedesk-recall/answers"
PAGE = """
cd /etc/tracedesk
printf 'anna:%s\\n' "$(openssl passwd -6 anna-pass)" > recallers
chown root:www-data recallers; chmod 640 recallers
systemctl enable --now tracedesk-recall-page tracedesk-recall-work
systemctl reload nginx
"""
SIGNED = """
cd /etc/tracedesk
test -e recall-key || ssh-keygen -q -t ed25519 -N '' -C plant -f recall-key
systemctl enable --now tracedesk-recall-sign.socket
grep -q '^key' L1.conf || echo 'key = /run/tracedesk-recall-sign' >> L1.conf
"""
CURL = (
    "curl -sS -o /tmp/body -w '%{http_code} %{redirect_url}' --user anna:anna-pass"
    " --cacert /etc/tracedesk/server.crt"
)
LONGEST = 3600  # seconds of a recall on a busy machine


class Recaller:
    """Anna, who has a log-in in `recallers`. The page is switched on for her."""

    def __init__(self, machine: Machine) -> None:
        self.machine = machine
        machine.shell(PAGE)
        wait_for("the page", lambda: self.status("/recall/") == "200")

    def status(self, at: str) -> str:
        """Gets a page, or a file of an answer; the status, and what was got is in /tmp/body."""
        return self.machine.by_client(f"{CURL} {URL}{at}").split()[0]

    def text(self, at: str) -> str:
        assert self.status(at) == "200", at
        return self.machine.by_client("cat /tmp/body")

    def asks(self, kind: str, names: str, **more: str) -> str:
        """Fills in the form, and waits for the answer; its address."""
        at = self.puts(kind, names, **more)
        self.waits(at, "ended.json")
        return at

    def waits(self, at: str, file: str) -> None:
        """Until the folder of an answer has this file."""
        there = f"ls {self.folder(at)} 2> /dev/null || true"
        wait_for(file, lambda: file in self.machine.shell(there), LONGEST)

    def puts(self, kind: str, names: str, **more: str) -> str:
        """Fills in the form; where the answer will be."""
        form = {"kind": kind, "names": names, "part": "", **more}
        words = shlex.join(word for its in form.items() for word in ("-F", "=".join(its)))
        told = self.machine.by_client(f"{CURL} {words} {URL}/recall/").split()
        assert told[0] == "303", self.machine.by_client("cat /tmp/body")
        return f"/recall/{told[1].rstrip('/').rpartition('/')[2]}/"  # curl adds the log-in

    def folder(self, at: str) -> str:
        """Where the answer is on the machine."""
        return f"{ANSWERS}/{at.rstrip('/').rpartition('/')[2]}"

    def answer(self, kind: str, names: str, **more: str) -> str:
        """The page of an answer, without its markup."""
        return re.sub(r"<[^>]*>|\s+", " ", self.text(self.asks(kind, names, **more)))
