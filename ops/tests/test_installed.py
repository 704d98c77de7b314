"""The packages on a fresh Debian 12: the commands of docs/operations-*.md, install and purge."""
import pathlib
import re
import shutil

import pytest
from lab import ROOT
from lab.installed import Installed, metrics_of
from lab.machine import FOLDER, Machine, blocks, blocks_of, is_same, run

pytestmark = [pytest.mark.root, pytest.mark.xdist_group("machine")]

CONNECT = ROOT / "docs/connect.md"
C_LIBRARY = {"libc.so.6", "libm.so.6", "libgcc_s.so.1", "ld-linux-x86-64.so.2"}
PROGRAMS = ("tracedesk", "tracedesk-chain", "tracedesk-line")
KEPT = "/var/lib/tracedesk /var/lib/tracedesk-send /etc/tracedesk-send"
SUMS = f"find {KEPT} -type f -print0 | sort -z | xargs -0 sha256sum"
BROUGHT = (
    "/usr/bin/tracedesk* /usr/lib/tracedesk* /lib/systemd/system/tracedesk*"
    " /etc/nginx/sites-*/tracedesk /usr/share/doc/tracedesk*"
    " /usr/lib/python3/dist-packages/tracedesk /usr/share/man/man1/tracedesk*"
)
DESK = "/var/lib/tracedesk/desk"


@pytest.mark.parametrize("place", [block.place for block in blocks()])
def test_the_page_prints_what_it_says(installed: Installed, place: str) -> None:
    assert not installed.differences.get(place)


def test_the_programs_run_with_the_c_library_alone(
    installed: Installed, folder: pathlib.Path
) -> None:
    for deb in installed.packages.debs:
        run("dpkg-deb", "--extract", deb, folder / "its")
    its = [folder / "its/usr/bin" / name for name in PROGRAMS]
    needs = set(re.findall(r"\(NEEDED\).*\[(.*)\]", run("readelf", "--dynamic", *its)))
    assert needs and needs <= C_LIBRARY
    root = folder / "root"
    for name in {"ld-linux-x86-64.so.2", *needs}:
        file = next((FOLDER / "usr").glob(f"lib*/**/{name}"))
        at = root / ("lib64" if name.startswith("ld-") else "lib/x86_64-linux-gnu")
        at.mkdir(parents=True, exist_ok=True)
        shutil.copy(file, at / name)
    for it in its:
        shutil.copy(it, root)
    inside = ("chroot", root, "/tracedesk")
    run("sh", "-c", f'"$@" < {ROOT}/examples/first-line.jsonl', "sh", *inside, "feed", "--db", "/d")
    assert run(*inside, "audit", "--db", "/d") == "lawful 5\n"
    shutil.copy(root / "d", root / "same")
    assert run("chroot", root, "/tracedesk-chain", "alike", "/d", "/same") == "alike 1 1\n"
    assert run("chroot", root, "/tracedesk-line", "audit", "--db", "/d") == "lawful 5 book 0\n"


# --- The service


def test_the_service_has_no_privileges(machine: Machine) -> None:
    said = machine.shell(
        "at=/proc/$(systemctl show -P MainPID tracedesk); cat $at/status; stat -c %U $at"
    )
    for wanted in (
        "CapEff:\t0000000000000000",
        "CapBnd:\t0000000000000000",
        "NoNewPrivs:\t1",
        "Seccomp:\t2",
        "\ntracedesk\n",
    ):
        assert wanted in said


def test_a_desk_that_is_missing_is_not_begun_anew(machine: Machine) -> None:
    """As when its disk is."""
    machine.shell(f"systemctl stop tracedesk; mv {DESK} /var/lib/tracedesk/away")
    said = machine.shell("! systemctl start tracedesk 2>&1; ls /var/lib/tracedesk")
    machine.restart(f"mv /var/lib/tracedesk/away {DESK}; systemctl start tracedesk")
    assert "Assertion failed" in said and "desk" not in said.split("\n")


@pytest.mark.parametrize(
    ("words", "said"),
    [
        ("ss -ltnp 'sport = :8080'", '"tracedesk-line"'),
        ("nginx -t 2>&1", "successful"),
        ("findmnt --target /var/lib/tracedesk", "/"),
        (
            (
                f"chown tracedesk:tracedesk {DESK}*; systemctl reset-failed tracedesk;"
                " systemctl daemon-reload; ls /var/lib/tracedesk/sealed"
            ),
            ".desk",
        ),
    ],
)
def test_commands_of_the_pages_tables_run(machine: Machine, words: str, said: str) -> None:
    assert said in machine.shell(words)


def test_who_holds_the_desks_connection_is_seen(machine: Machine) -> None:
    held = machine.started("exec 3<>/dev/tcp/127.0.0.1/8080; echo; exec sleep infinity")
    assert held.stdout and held.stdout.readline()
    try:
        ask = "! curl -sS --max-time 3 http://127.0.0.1:8080/overdue 2>&1"
        said = machine.shell(f"ss -tnp 'dport = :8080'; {ask}")
    finally:
        machine.shell("pkill -x sleep")
        held.communicate()
    assert '"sleep"' in said and "timed out" in said
    machine.wait_for_desk()


# --- Integration, and the end


def test_an_integrator_connects(machine: Machine) -> None:
    """docs/connect.md on what is installed, by a user without rights in an empty folder."""
    found = blocks_of(CONNECT)
    script = "".join(f"{block.script}echo '@@@'\n" for block in found).replace("8080", "8099")
    machine.write(f"trap 'kill $(jobs -p)' EXIT\n{script}", "/tmp/connect.sh")
    nobody = "runuser -u nobody --"
    said = machine.shell(f"cd $({nobody} mktemp -d); {nobody} bash /tmp/connect.sh 2>&1")
    for block, got in zip(found, said.split("@@@\n")[:-1], strict=True):
        assert is_same(block.prints or "", got), f"{block.place}: {got}"


def test_an_upgrade_names_the_timers_that_are_gone(machine: Machine) -> None:
    """As the one that copied a desk of 1.0.0 each night."""
    link = "/etc/systemd/system/timers.target.wants/tracedesk-backup.timer"
    configure = "/var/lib/dpkg/info/tracedesk-plant.postinst configure 1.0.0 2>&1"
    said = machine.shell(
        f"mkdir -p $(dirname {link}); ln -s /lib/systemd/system/tracedesk-backup.timer {link};"
        f" DPKG_MAINTSCRIPT_PACKAGE=tracedesk-plant {configure}; test ! -L {link}"
    )
    assert "tracedesk-backup.timer is gone" in said


def test_a_purge_keeps_what_was_sent_and_the_next_installation_goes_on(
    machine: Machine,
) -> None:
    audit = f"runuser -u tracedesk -- tracedesk audit --db {DESK}"
    first = machine.post("before-the-purge", body=True)
    machine.shell("systemctl stop 'tracedesk*'")
    lawful, before = machine.shell(audit), machine.shell(SUMS)
    machine.shell("apt-get purge --yes 'tracedesk*'")
    left = "systemctl list-units --state=active --no-legend 'tracedesk*'; nginx -t 2> /dev/null"
    assert machine.shell(f"ls -d {BROUGHT} 2> /dev/null || true; {left}") == ""
    assert machine.shell(SUMS) == before
    machine.shell(
        "cd /root/new; apt-get install --yes ./tracedesk*.deb;"
        " ln -s ../sites-available/tracedesk /etc/nginx/sites-enabled/tracedesk;"
        " systemctl restart nginx"
    )
    assert (machine.shell(SUMS), machine.shell(audit)) == (before, lawful)
    machine.restart("systemctl enable --now tracedesk")
    machine.set_up()
    assert machine.post("before-the-purge", body=True) == first
    assert first.startswith('200\n{"Answer":"Accepted"')
    assert metrics_of(machine)["tracedesk_up"] == "1"
