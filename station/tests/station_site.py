"""What the station's tests stand on: the program behind the packaged nginx in a folder of its own,
and a browser before it.
"""
import base64
import contextlib
import datetime
import http.client
import importlib
import json
import os
import pathlib
import shutil
import signal
import socket
import ssl
import subprocess
import tempfile
import time
import uuid
from typing import Any, Callable, Sequence

from tracedesk_dev.ports import free_port
from tracedesk_dev.trial import Difference, wanting
from tracedesk_ops import plant as installed

ROOT = pathlib.Path(__file__).resolve().parents[2]
PEOPLE = {"op": "senders", "office": "readers", "qm": "deciders"}  # their passwords are their names
CERTIFICATES = {"m2": "sender", "auditor": "reader"}
SETUP: dict[str, Any] = {
    "title": "Line 1",
    "machines": [{"machine": "M1", "product": "CTRL-A"}, {"machine": "M2", "product": "CTRL-A"}],
    "boards": 50,
    "expires": 60,
}
PATIENCE = 600  # seconds: of a machine that has much to do
BOUNCE = 1.2  # seconds: the same action code within one is taken for one that was read twice
slower = 1  # each wait takes so many times as long: --slower


def missing() -> Any:
    """The packages of Debian that are wanting here, or none."""
    found = wanting(
        {
            "chromium": "chromium",
            "chromedriver": "chromium-driver",
            "nginx": "nginx-light",
            "openssl": "openssl",
        }
    )
    try:
        importlib.import_module("selenium")
    except ImportError:
        found.append("python3-selenium")
    return found


def wait_for(what: str, holds: Callable[[], Any], seconds: float = PATIENCE) -> Any:
    """What `holds` gives once it is true."""
    end, pause = time.monotonic() + seconds * slower, 0.02
    while True:
        found = None
        with contextlib.suppress(OSError, http.client.HTTPException):
            found = holds()
        if found:
            return found
        if time.monotonic() > end:
            raise Difference(f"after {seconds * slower} seconds: not {what}")
        time.sleep(pause)
        pause = min(1.2 * pause, 0.25)


def settles(what: str, differs: Callable[[], Any]) -> None:
    """Waits until `differs` tells nothing."""
    end = time.monotonic() + PATIENCE * slower
    while (wrong := differs()) and time.monotonic() < end:
        time.sleep(0.3)
    if wrong:
        raise Difference(f"{what}: {wrong}")


def certificate(folder: pathlib.Path, name: str, subject: str, by: str | None = None) -> None:
    """A key and a certificate for localhost; one that signs itself, or by another's key."""
    words = (
        "openssl req -x509 -newkey ec -pkeyopt ec_paramgen_curve:P-256 -nodes -days 9 -addext"
        " subjectAltName=DNS:localhost"
    )
    signed: list[Any] = ["-CA", folder / f"{by}.crt", "-CAkey", folder / f"{by}.key"] if by else []
    subprocess.run(
        [
            *words.split(),
            *signed,
            "-subj",
            f"/CN={subject}",
            "-keyout",
            folder / f"{name}.key",
            "-out",
            folder / f"{name}.crt",
        ],
        check=True,
        capture_output=True,
    )


class Site:
    """A desk, its nginx, and what both write, in a folder that goes away."""

    def __init__(self, program: str, folder: str | None = None) -> None:
        self.program = program
        self.server = installed.next_to(program, "line") or program
        self.room = pathlib.Path(tempfile.mkdtemp(prefix="station-", dir=folder))
        self.port, self.desk_port, self.inner_port = (free_port() for _ in range(3))
        self.desk: Any = None
        self.nginx: Any = None
        self.last_look: Any = (
            lambda operator: None
        )  # what an operator looks at before the browser is closed
        self.agreed = 0
        self.looks = 0  # at how many connections the desk has served
        for it in (
            "etc/station",
            "share",
            "log",
            "temporary",
            "line/status",
        ):
            (self.room / it).mkdir(parents=True)
        (self.room / "share/station").symlink_to(ROOT / "station")
        self.set_up(SETUP)
        self.make_secrets()
        self.write_proxy()

    def __enter__(self) -> "Site":
        self.start_desk()
        self.start_nginx()
        return self

    def __exit__(self, *_: object) -> None:
        self.stop_nginx()
        self.kill_desk()
        shutil.rmtree(self.room, ignore_errors=True)

    @property
    def url(self) -> Any:
        return f"https://localhost:{self.port}"

    def set_up(self, setup: dict[str, Any]) -> None:
        self.setup = setup
        (self.room / "etc/station/setup.json").write_text(json.dumps(setup), encoding="utf-8")

    def make_secrets(self) -> None:
        at = self.room / "etc"
        certificate(at, "server", "localhost")
        certificate(at, "clients", "trace desk clients")
        for name in CERTIFICATES:
            self.sign(name, name, "clients")
        (at / "certificates.conf").write_text(
            "".join(
                f'"~^CN={name}$" sender;\n' for name, may in CERTIFICATES.items() if may == "sender"
            )
        )
        self.make_users()

    def make_users(self) -> None:
        """Writes who may read, send and decide, with the passwords."""
        at = self.room / "etc"
        password = ["openssl", "passwd", "-6"]
        self.lines = {
            name: f"{name}:{subprocess.check_output([*password, name], text=True)}"
            for name in PEOPLE
        }
        (at / "readers").write_text("".join(self.lines.values()))
        (at / "deciders").write_text(self.lines["op"] + self.lines["qm"])
        senders = [line for name, line in self.lines.items() if PEOPLE[name] == "senders"]
        (at / "senders").write_text("".join(senders))

    def sign(self, *how: str) -> None:
        certificate(self.room / "etc", *how)

    def write_proxy(self) -> None:
        """The packaged configuration, with the paths and the ports of this folder."""
        text = (ROOT / "packaging/nginx.conf").read_text(encoding="utf-8")
        for old, new in (
            ("/etc/tracedesk", self.room / "etc"),
            ("/usr/share/tracedesk", self.room / "share"),
            ("/var/lib/nginx/tracedesk-station", self.room / "cache"),
            ("/var/lib/tracedesk", self.room / "line"),
            ("/var/log/nginx", self.room / "log"),
            ("listen 443 ssl", f"listen 127.0.0.1:{self.port} ssl"),
            ("127.0.0.1:8080", f"127.0.0.1:{self.desk_port}"),
            ("127.0.0.1:8081", f"127.0.0.1:{self.inner_port}"),
        ):
            if old not in text:
                raise Difference(f"packaging/nginx.conf has no {old}")
            text = text.replace(old, str(new))
        clock = f"map $msec $station_msec {{ default $msec; include {self.room}/clock.con[f]; }}\n"
        (self.room / "tracedesk.conf").write_text(
            clock + text.replace("X-Station-Now $msec", "X-Station-Now $station_msec"),
            encoding="utf-8",
        )
        temporary = "".join(
            f"{name}_temp_path {self.room}/temporary/{name};"
            for name in ("client_body", "proxy", "fastcgi", "uwsgi", "scgi")
        )
        user = "user root;" if os.geteuid() == 0 else ""
        (self.room / "nginx.conf").write_text(
            f"{user} daemon off; pid {self.room}/nginx.pid; error_log {self.room}/log/error.log;"
            " events {}\nhttp { include /etc/nginx/mime.types; default_type"
            f" application/octet-stream; {temporary} include {self.room}/tracedesk.conf; }}\n"
        )

    def proxy_words(self) -> Any:
        return [
            shutil.which("nginx", path=os.environ["PATH"] + ":/usr/sbin"),
            "-c",
            self.room / "nginx.conf",
            "-e",
            self.room / "log/start.log",
        ]

    def start_nginx(self) -> None:
        self.nginx = subprocess.Popen(self.proxy_words(), process_group=0)
        wait_for(
            "nginx listens",
            lambda: self.nginx.poll() is None
            and not socket.create_connection(("127.0.0.1", self.port), 1).detach() < 0,
        )

    def stop_nginx(self) -> None:
        if self.nginx:
            self.nginx.send_signal(signal.SIGTERM)
            self.nginx.wait()
            self.nginx = None

    def shift_clock(self, millions: int) -> None:
        """Puts the clock of the station's server so many million seconds ahead."""
        begins = [int(time.time()) // 10**6 + more for more in (0, 1)]
        (self.room / "clock.conf").write_text(
            "".join(f'"~^{it}(?<below>.*)$" "{it + millions}$below";\n' for it in begins)
        )
        self.nginx.send_signal(signal.SIGHUP)
        wait_for(
            "the clock is shifted",
            lambda: abs(
                float(self.asked("GET", "/station/", "op")[1]["X-Station-Now"])
                - time.time()
                - millions * 10**6
            )
            < 60,
        )
        time.sleep(0.5)

    def kill_nginx(self) -> None:
        """Ends nginx with its workers as a power cut does."""
        os.killpg(self.nginx.pid, signal.SIGKILL)
        self.nginx.wait()
        self.nginx = None

    def start_desk(self, connections: int = 1_000_000) -> None:
        with open(self.room / "served.txt", "ab") as served:
            self.desk = subprocess.Popen(
                [
                    self.server,
                    "serve",
                    "--db",
                    self.room / "desk",
                    "--port",
                    str(self.desk_port),
                    "--connections",
                    str(connections),
                ],
                stdout=served,
            )
        wait_for("the desk answers", lambda: self.get("/overdue"))

    def kill_desk(self) -> None:
        if self.desk:
            self.desk.kill()
            self.desk.wait()
            self.desk = None

    def pause_desk(self) -> None:
        """Stops the desk where it is; it may be in the midst of a checkpoint until the kernel says
        that it is stopped.
        """
        self.desk.send_signal(signal.SIGSTOP)
        wait_for(
            "the desk is stopped",
            lambda: "\nState:\tT" in pathlib.Path(f"/proc/{self.desk.pid}/status").read_text(),
        )

    def resume_desk(self) -> None:
        self.desk.send_signal(signal.SIGCONT)

    def connections(self) -> int:
        """How many connections the desk has served until now, but those of these looks. A look has
        two requests and the desk one connection at a time, so its line is known, behind all before.
        """
        heads: list[dict[str, str]] = [{}, {"Connection": "close"}]
        link = http.client.HTTPConnection("127.0.0.1", self.desk_port, timeout=PATIENCE)
        with contextlib.closing(link):
            for headers in heads:
                link.request("GET", "/overdue", headers=headers)
                link.getresponse().read()
        self.looks += 1

        def served() -> Any:
            lines = (self.room / "served.txt").read_bytes().splitlines()
            own = [at for at, line in enumerate(lines) if line.split()[1:2] == [b"2"]]
            return own if len(own) == self.looks else None

        own: list[int] = wait_for("the desk's line of this look", served)
        return own[-1] - (self.looks - 1)

    def get(self, target: str) -> Any:
        """The body of a GET of the desk's own port."""
        link = http.client.HTTPConnection("127.0.0.1", self.desk_port, timeout=PATIENCE)
        try:
            link.request("GET", target, headers={"Connection": "close"})
            return link.getresponse().read().decode()
        finally:
            link.close()

    def asked(
        self,
        method: str,
        path: str,
        user: str | None = None,
        body: str | bytes | None = None,
        certificate: str | None = None,
        **headers: str | None,
    ) -> Any:
        """The status, the headers and the body of a request to nginx. A header is named with _ in
        place of -; one that is None isn't sent.
        """
        trust = ssl.create_default_context(cafile=self.room / "etc/server.crt")
        if certificate:
            trust.load_cert_chain(
                self.room / f"etc/{certificate}.crt", self.room / f"etc/{certificate}.key"
            )
        link = http.client.HTTPSConnection("localhost", self.port, timeout=PATIENCE, context=trust)
        if method == "POST":
            headers = {"Content_Type": "application/json", **headers}
        given = {
            name.replace("_", "-"): value for name, value in headers.items() if value is not None
        }
        if user:
            given["Authorization"] = "Basic " + base64.b64encode(f"{user}:{user}".encode()).decode()
        try:
            link.request(method, path, body, given)
            answer = link.getresponse()
            return answer.status, dict(answer.getheaders()), answer.read().decode()
        finally:
            link.close()

    def say(
        self,
        word: str,
        body: Any,
        minutes_ago: float = 0,
        source: str = "host",
        uid: str | None = None,
    ) -> Any:
        """Has the desk take a message, and gives its answer."""
        at = datetime.datetime.now(datetime.timezone.utc) - datetime.timedelta(minutes=minutes_ago)
        told = {
            "MessageName": f"TraceDesk.{word}",
            "UniqueID": uid or str(uuid.uuid4()),
            "Source": source,
            "TimeStamp": at.strftime("%Y-%m-%dT%H:%M:%SZ"),
            "MessageBody": body,
        }
        link = http.client.HTTPConnection("127.0.0.1", self.desk_port, timeout=PATIENCE)
        try:
            link.request("POST", "/messages", json.dumps(told), {"Connection": "close"})
            return json.loads(link.getresponse().read())
        finally:
            link.close()

    def feed(self, lines: Sequence[bytes]) -> Any:
        """Gives a desk that doesn't run these lines."""
        return subprocess.run(
            [self.program, "feed", "--db", self.room / "desk"],
            input=b"\n".join(lines),
            capture_output=True,
            check=False,
        ).stdout

    def report(self, target: str) -> str:
        """What the program's `report` says of a copy of the file and its log, while the desk is
        stopped for that moment.
        """
        self.pause_desk()
        try:
            for name in ("desk", "desk-wal"):
                shutil.copy(self.room / name, self.room / name.replace("desk", "copy"))
        finally:
            self.resume_desk()
        done = subprocess.run(
            [self.program, "report", "--db", self.room / "copy", "--get", target],
            capture_output=True,
            text=True,
        )
        return done.stdout


def browser(room: pathlib.Path | str, name: str, size: tuple[int, int] = (1920, 1080)) -> Any:
    """A headless Chromium with a profile of its own, which outlives it."""
    from selenium import webdriver
    from selenium.common.exceptions import SessionNotCreatedException
    from selenium.webdriver.chrome.service import Service

    options: Any = webdriver.ChromeOptions()
    options.binary_location = shutil.which("chromium")
    for it in (
        "--headless=new",
        "--no-sandbox",
        "--disable-gpu",
        "--ignore-certificate-errors",
        "--disable-dev-shm-usage",
        "--enable-precise-memory-info",
        "--js-flags=--expose-gc",
        f"--user-data-dir={room}/{name}",
        f"--window-size={size[0]},{size[1]}",
        "--autoplay-policy=no-user-gesture-required",
    ):
        options.add_argument(it)
    options.set_capability("goog:loggingPrefs", {"browser": "ALL"})
    options.accept_insecure_certs = True
    for tries_left in range(
        4, -1, -1
    ):  # a machine that has much to do may not begin it within the driver's minute
        try:
            page = webdriver.Chrome(
                service=Service(
                    str(shutil.which("chromedriver")), free_port(), log_path=os.devnull
                ),
                options=options,
            )
            break
        except SessionNotCreatedException:
            if not tries_left:
                raise
    page.set_script_timeout(PATIENCE * slower)
    return page


def why_no_browser() -> str:
    """Why no browser begins here, or nothing where one does."""
    from selenium.common.exceptions import WebDriverException

    with tempfile.TemporaryDirectory() as room:
        try:
            browser(room, "profile").quit()
        except (WebDriverException, OSError) as fault:
            return str(fault).split("\n")[0]
    return ""
