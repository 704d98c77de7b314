"""A fresh Debian 12, and a client beside it.

The machine is made by debootstrap in a folder that is kept for the next run. It is booted with
systemd as its first process in namespaces of its own: nothing of this machine is changed but
packages that are missing here, which apt-get installs. All changes to the other machine are in
memory, and are gone at the end. The client is another network namespace, with a cable between the
two.

TRACEDESK_MACHINE in the environment names the folder, TRACEDESK_PACKAGES one with packages that
dev/dist made already, TRACEDESK_OLD_PACKAGES one with those of 1.0.0, and TRACEDESK_EXTRA files of
this machine that are put on the other one, as FILE:PATH.
"""
from __future__ import annotations

import contextlib
import fcntl
import os
import pathlib
import re
import shutil
import signal
import subprocess
import tempfile
from typing import Iterator, NamedTuple, Optional

from lab import ROOT
from lab.tools import Word, strings
from lab.waits import PATIENCE, wait_for

PAGES = [  # in the order in which plant-test follows them
    ROOT / f"docs/operations-{name}.md" for name in ("install", "access", "daily", "faults")
]
FOLDER = pathlib.Path(os.environ.get("TRACEDESK_MACHINE", "/var/cache/tracedesk-plant"))
EXTRA = os.environ.get("TRACEDESK_EXTRA", "").split()
HERE = {  # commands, and the packages that bring them
    "debootstrap": "debootstrap",
    "ip": "iproute2",
    "pandoc": "pandoc",
    "help2man": "help2man",
    "readelf": "binutils",
    "dh_builddeb": "debhelper",
}
THERE = (
    "systemd,systemd-sysv,dbus,procps,iproute2,ca-certificates"
    ",nginx-light,openssl,curl,python3"  # docs/operations-install.md
    ",postgresql,python3-psycopg"  # docs/plant.md
    ",python3-flask,python3-waitress,weasyprint,python3-xlsxwriter"  # docs/recall-setup.md
    ",openssh-client"
    ",jq"  # docs/machines.md
    ",python3-pytest"
)
BOOT = r"""
set -e
mount --make-rprivate /
mount -t tmpfs room "$2"; mkdir "$2/upper" "$2/work" "$2/plant"
mount -t overlay plant -o "lowerdir=$1,upperdir=$2/upper,workdir=$2/work" "$2/plant"; cd "$2/plant"
mount -t proc proc proc; mount -t sysfs sysfs sys; mount -t cgroup2 cgroup2 sys/fs/cgroup
mount -t tmpfs run run; mount -t tmpfs tmp tmp; mount -t tmpfs dev dev -o mode=755
for it in null zero full random urandom tty; do touch dev/$it; mount --bind /dev/$it dev/$it; done
mkdir -p dev/pts dev/shm; mount -t tmpfs shm dev/shm
mount -t devpts pts dev/pts -o newinstance,ptmxmode=0666
ln -s pts/ptmx dev/ptmx; ln -s /proc/self/fd dev/fd
hostname plant; pivot_root . mnt; umount -l /mnt
mount --make-rshared /  # as on a machine: else units get no credentials
exec env -i container=plant PATH=/usr/sbin:/usr/bin:/sbin:/bin /lib/systemd/systemd
"""
JOIN = 'echo 0 > {}/cgroup.procs; exec unshare -m -p -n -u -i -C --fork sh -c "$1" boot "$2" "$3"'
SHELL = ("bash", "-euo", "pipefail", "-c")
SHAPE = re.compile(  # also within a list
    r"(?P<notes>(?:<!-- [^\n]* -->\n+ *)*)```sh\n(?P<script>.*?) *```\n"
    r"(?:\n *```text\n(?P<prints>.*?) *```\n)?",
    re.DOTALL,
)
STARTS = re.compile(r"systemctl (enable --now|start|restart|kill\b.*) tracedesk$", re.MULTILINE)

# --- Requests of the client

CURL = "curl -sS {} --cacert /etc/tracedesk/server.crt -o /tmp/body -w '%{{http_code}}' "
JSON = "-H Content-Type:application/json"
URL = "https://desk.plant"
M1 = "--user m1:$(cat /etc/tracedesk/m1.password)"
OFFICE = "--user office:$(cat /etc/tracedesk/office.password)"
ARCHIVE = "/var/lib/tracedesk/sealed"


class Block(NamedTuple):
    """Commands of a page, what they print if the page says so, and the notes before them."""

    place: str  # the page and the line
    script: str
    prints: Optional[str]
    notes: str


def blocks_of(page: pathlib.Path, by: str = "") -> list[Block]:
    """The blocks of a page that are run, or those that it says this file of tests runs."""
    text = page.read_text(encoding="utf-8")
    found = []
    for its in SHAPE.finditer(text):
        line = text[: its.start("script")].count("\n") + 1
        found.append(Block(f"{page.name}:{line}", its["script"], its["prints"], its["notes"]))
    note = "<!-- not run:"
    if by:
        return [block for block in found if f"{note} ops/tests/{by} " in block.notes]
    return [block for block in found if note not in block.notes]


def blocks() -> list[Block]:
    """The blocks of the pages on operations that are run, in order."""
    return [block for page in PAGES for block in blocks_of(page)]


def block_with(text: str) -> str:
    """The block of these pages that has this text."""
    (found,) = (block.script for block in blocks() if text in block.script)
    return found


def is_same(wanted: str, got: str) -> bool:
    """Whether the lines are these; `..` in a wanted line stands for anything."""
    lines = (".*".join(map(re.escape, line.split(".."))) for line in wanted.strip().split("\n"))
    return bool(re.fullmatch("\n".join(lines), got.strip()))


def part(name: str) -> str:
    """A message that the desk accepts that hasn't got it yet."""
    return (
        f'{{"MessageName":"TraceDesk.PartDefined","UniqueID":"t-{name}","Source":"t",'
        f'"TimeStamp":"2026-03-02T06:00","MessageBody":{{"PartNumber":"{name}"}}}}'
    )


def run(*words: Word) -> str:
    """What a command of this machine prints; it has to end well."""
    done = subprocess.run(
        strings(words), stdout=subprocess.PIPE, stderr=subprocess.STDOUT, text=True
    )
    assert not done.returncode, f"{words} ended with status {done.returncode}: {done.stdout}"
    return done.stdout


def children(process: int) -> list[int]:
    path = pathlib.Path(f"/proc/{process}/task/{process}/children")
    return [int(child) for child in path.read_text().split()]


class Machine:
    """The booted machine, and the client beside it."""

    def __init__(self, folder: pathlib.Path, memory: pathlib.Path) -> None:
        memory.mkdir()
        # a group of its own: the machine's systemd sees it as the root of all groups
        self.groups = pathlib.Path(tempfile.mkdtemp())
        run("mount", "-t", "cgroup2", "cgroup2", self.groups)
        self.group = self.groups / f"tracedesk-plant-{os.getpid()}"
        self.group.mkdir()
        self.first = 0
        self.outer = subprocess.Popen(
            ["sh", "-c", JOIN.format(self.group), "sh", BOOT, str(folder), str(memory)],
            stdin=subprocess.DEVNULL,
            stdout=subprocess.DEVNULL,
            stderr=subprocess.DEVNULL,
            start_new_session=True,
        )
        self.client = subprocess.Popen(["unshare", "-n", "sleep", "infinity"])

    def boot(self) -> None:
        wait_for("the machine has booted", self.is_up)
        plant, client = f"plant{os.getpid()}", f"line{os.getpid()}"
        run("ip", "link", "add", plant, "type", "veth", "peer", "name", client)
        self.plug(plant, self.first, "10.77.0.1/24")
        self.plug(client, self.client.pid, "10.77.0.2/24")
        self.shell("echo '10.77.0.1 desk.plant' >> /etc/hosts")

    def plug(self, card: str, process: int, address: str) -> None:
        """Puts an end of the cable into the network of a process."""
        run("ip", "link", "set", card, "netns", process)
        for words in (
            f"addr add {address} dev {card}",
            f"link set {card} up",
            "link set lo up",
        ):
            run("nsenter", "-t", process, "-n", "ip", *words.split())

    def is_up(self) -> bool:
        try:
            (self.first,) = children(self.outer.pid)
            state = self.shell("systemctl is-system-running; true").strip()
        except (OSError, ValueError, AssertionError):
            return False
        return state in ("running", "degraded")

    def words(self, by_client: bool = False) -> list[str]:
        net = f"--net=/proc/{self.client.pid}/ns/net" if by_client else "-n"
        inside = f"nsenter -t {self.first} -m -p -u -i -C {net} --wdns=/root env -i"
        path = "/usr/local/sbin:/usr/local/bin:/usr/sbin:/usr/bin:/sbin:/bin"
        return [*inside.split(), "HOME=/root", "LC_ALL=C.UTF-8", f"PATH={path}"]

    def started(self, script: str, by_client: bool = False) -> subprocess.Popen[str]:
        """A script that runs on the machine, or in the client's network."""
        return subprocess.Popen(
            [*self.words(by_client), *SHELL, script],
            stdin=subprocess.DEVNULL,
            stdout=subprocess.PIPE,
            stderr=subprocess.STDOUT,
            text=True,
        )

    def shell(self, script: str, by_client: bool = False, patience: float = 4 * PATIENCE) -> str:
        """What a script prints; it has to end well."""
        running = self.started(script, by_client)
        said, _ = running.communicate(timeout=patience)
        assert not running.returncode, f"status {running.returncode}: {script.strip()}\n{said}"
        return said

    def by_client(self, script: str) -> str:
        return self.shell(script, by_client=True)

    def put(self, file: pathlib.Path, path: str) -> None:
        """A file of this machine on the other one, with its mode."""
        mode = oct(file.stat().st_mode & 0o777)[2:]
        words = ["install", "-D", "-m", mode, "/dev/stdin", path]
        with open(file, "rb") as content:
            subprocess.run([*self.words(), *words], stdin=content, check=True)

    def write(self, text: str, path: str) -> None:
        """A file of this text, which may be longer than a command line."""
        words = ["install", "-D", "-m", "644", "/dev/stdin", path]
        subprocess.run([*self.words(), *words], input=text.encode(), check=True)

    def stop(self) -> None:
        for process in children(self.outer.pid) if self.outer.poll() is None else []:
            os.kill(process, signal.SIGKILL)
        self.outer.wait()
        self.client.kill()
        self.client.wait()
        wait_for("the machine's group is gone", self.remove_group)
        run("umount", self.groups)
        self.groups.rmdir()

    def remove_group(self) -> bool:
        try:
            for at, _, _ in os.walk(self.group, topdown=False):
                os.rmdir(at)
        except OSError:
            return False
        return True

    # --- The desk

    def answers(self) -> bool:
        ask = ["curl", "-s", "-o", "/dev/null", "http://127.0.0.1:8080/overdue"]
        return subprocess.run([*self.words(), *ask]).returncode == 0

    def wait_for_desk(self) -> None:
        wait_for("the desk answers", self.answers)

    def restart(self, script: str) -> str:
        """Runs a script that starts the desk, and waits for it."""
        said = self.shell(script)
        self.wait_for_desk()
        return said

    def ask(self, words: str, body: bool = False) -> str:
        """The status, and the body behind it, of a request of the client by curl."""
        kind = "" if "Content-Type:" in words else JSON
        shown = "; echo; cat /tmp/body" if body else ""
        return self.by_client(f"{CURL.format(kind)} {words}{shown}").strip()

    def post(self, name: str, body: bool = False) -> str:
        return self.ask(f"{M1} --data-binary '{part(name)}' {URL}/messages", body)

    def run_block(self, block: Block) -> str:
        """Runs a block of a page as it says, and returns what it prints."""
        for before in re.findall(r"<!-- before: (.*) -->", block.notes):
            self.shell(before)
        said = self.shell(block.script, by_client="on a client" in block.notes)
        if STARTS.search(block.script):
            self.wait_for_desk()
        return said

    def set_up(self) -> None:
        """What the pages set up and switch on, and a purge takes away."""
        self.shell(block_with("station/setup.json <<"))
        self.shell("systemctl enable --now tracedesk-watch.timer tracedesk-send@m1")


def make_ready() -> None:
    """Brings what is missing here, and makes the machine, if nobody has. Two tests at once wait for
    one another.
    """
    FOLDER.parent.mkdir(parents=True, exist_ok=True)
    with open(f"{FOLDER}.lock", "w") as lock:
        fcntl.flock(lock, fcntl.LOCK_EX)
        make_folder()


def make_folder() -> None:
    if missing := sorted({its for command, its in HERE.items() if not shutil.which(command)}):
        run("apt-get", "update")
        run("apt-get", "install", "-y", "--no-install-recommends", *missing)
    packages = FOLDER / "etc/tracedesk-test-packages"  # written once the folder is whole
    if not FOLDER.exists() or not any(FOLDER.iterdir()):
        FOLDER.mkdir(parents=True, exist_ok=True)
        run("debootstrap", "--variant=minbase", f"--include={THERE}", "bookworm", FOLDER)
        packages.write_text(THERE)
    if not packages.exists() or packages.read_text() != THERE:
        raise FileExistsError(f"{FOLDER} is not the machine that these tests want: remove it")


@contextlib.contextmanager
def booted() -> Iterator[Machine]:
    """The machine, without the packages."""
    make_ready()
    with tempfile.TemporaryDirectory() as room:
        machine = Machine(FOLDER, pathlib.Path(room) / "memory")
        try:
            machine.boot()
            for pair in EXTRA:
                file, _, path = pair.partition(":")
                machine.put(pathlib.Path(file), path)
            yield machine
        finally:
            machine.stop()
