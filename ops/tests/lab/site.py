"""The station's site: a desk behind the packaged nginx in a folder of its own, with a folder of the
watch and a systemctl of its own."""
import os
import pathlib

import station_site
from tracedesk_ops import plant

SYSTEMCTL = "#!/bin/sh\ncat {0}/systemctl.says\nexit $(cat {0}/systemctl.status)\n"
WELL = "LoadState=loaded\nActiveState=active\nNRestarts=3\n"
WATCHED = "/run/tracedesk-watch"  # packaging/nginx.conf


class Site(station_site.Site):
    """A site whose watch writes into its own folder."""

    room: pathlib.Path

    def __enter__(self) -> "Site":
        super().__enter__()
        return self

    def write_proxy(self) -> None:
        super().write_proxy()
        file = self.room / "tracedesk.conf"
        text = file.read_text(encoding="utf-8")
        assert f"{WATCHED}/metrics" in text, f"packaging/nginx.conf has no {WATCHED}/metrics"
        for name in ("watch", "bin"):
            (self.room / name).mkdir(exist_ok=True)
        file.write_text(text.replace(WATCHED, str(self.room / "watch")), encoding="utf-8")
        self.room.chmod(0o755)
        systemctl = self.room / "bin/systemctl"
        systemctl.write_text(SYSTEMCTL.format(self.room))
        systemctl.chmod(0o755)
        self.systemd_says()

    def start_desk(self, connections: int = 1_000_000) -> None:
        """As the packaged unit serves it: by tracedesk-line."""
        own, self.program = self.program, str(plant.line_of(self.program))
        try:
            super().start_desk(connections)
        finally:
            self.program = own

    def systemd_says(self, text: str = WELL, status: int = 0) -> None:
        (self.room / "systemctl.says").write_text(text)
        (self.room / "systemctl.status").write_text(f"{status}\n")

    @property
    def path(self) -> str:
        """Where commands are looked for: this systemctl is the first."""
        return os.pathsep.join((str(self.room / "bin"), os.environ["PATH"], "/usr/sbin"))
