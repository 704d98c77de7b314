"""A line on a fresh Debian 12: roll-overs, restores, recalls, the watch and the clock."""

import pytest
from lab.installed import archives_of, metrics_of
from lab.machine import ARCHIVE, URL, Machine
from lab.waits import wait_for

pytestmark = [pytest.mark.root, pytest.mark.xdist_group("machine")]

LOT = "tracedesk-recall lot L-77 --line L1 /var/lib/tracedesk"
CLOCK_RUNS = r"""
at_unit=/run/systemd/system/tracedesk-clock@.service.d; mkdir -p $at_unit
printf '[Service]\nExecStart=\nExecStart=/bin/true\n' > $at_unit/none.conf
systemctl unmask --quiet --runtime tracedesk-clock.timer; systemctl restart tracedesk
systemctl is-active tracedesk-clock.timer
systemctl stop tracedesk
systemctl is-active tracedesk-clock.timer || true
systemctl mask --quiet --runtime tracedesk-clock.timer; rm -r $at_unit; systemctl daemon-reload
systemctl start tracedesk
"""
BY_POSTGRES = r"""
cd /
pg_ctlcluster 15 main status > /dev/null || pg_ctlcluster 15 main start ||
    pg_createcluster --start 15 main > /dev/null
sed -i 's/^local .*/local all all trust/' /etc/postgresql/15/main/pg_hba.conf
pg_ctlcluster 15 main reload
runuser -u postgres -- createuser plant; runuser -u postgres -- createdb --owner plant plant
export PGDATABASE=plant PGUSER=plant PGHOST=/var/run/postgresql
psql -q -f /usr/share/tracedesk/plant/schema.sql
tracedesk-plant-load > /tmp/loaded
psql --csv -v lot=L-77 -f /usr/share/tracedesk/plant/pieces.sql
"""


def rows_in(text: str) -> list[str]:
    """The lines of a CSV text, but for what is said beside it."""
    return [line for line in text.splitlines() if not line.startswith(("tracedesk-", "as of "))]


# --- Sealed files


def sealed(machine: Machine) -> set[str]:
    """The checksum and name of each sealed file."""
    return set(machine.shell(f"sha256sum {ARCHIVE}/*.desk").splitlines())


def test_a_restore_brings_a_desk_back(machine: Machine) -> None:
    """The desk's unit had failed. A recall names what is lost, and a damaged file is named."""
    archives_of(machine, 3)
    machine.restart("tracedesk-ops seal L1 || test $? = 4")
    kept = sealed(machine)
    start = (
        "for n in $(seq 40); do systemctl start tracedesk || break; sleep 0.1; done 2> /dev/null"
    )
    machine.shell(f"systemctl stop tracedesk; echo no desk > /var/lib/tracedesk/desk; {start}")
    again = "systemctl reset-failed tracedesk; systemctl start tracedesk"
    said = machine.restart(
        f"systemctl stop tracedesk; tracedesk-ops restore L1 2>&1 || test $? = 4; {again}"
    )
    assert "it can't be read" in said and sealed(machine) >= kept
    said = machine.shell(f"{LOT} 2>&1 > /dev/null && exit 1 || test $? = 3")
    assert "/var/lib/tracedesk/lost/" in said
    machine.shell("mkdir /root/lost; mv /var/lib/tracedesk/lost/* /root/lost")
    machine.shell(f"{LOT} > /dev/null 2>&1")
    oldest = machine.shell(f"ls -t {ARCHIVE}/*.desk | tail -n 1").strip()  # before it is changed
    machine.shell(f"cp {oldest} /root/kept; printf x | dd of={oldest} bs=1 seek=50000 conv=notrunc")
    assert "was changed" in machine.shell("! tracedesk-ops check L1 2>&1")
    machine.shell(f"cat /root/kept > {oldest}; tracedesk-ops check L1")


# --- Recalls


def test_postgresql_prints_what_a_recall_prints(machine: Machine) -> None:
    machine.restart("tracedesk-ops seal L1")
    by_plant = rows_in(machine.shell(BY_POSTGRES))
    by_tool = rows_in(machine.shell(f"{LOT} --show pieces 2> /dev/null"))
    assert by_plant == by_tool and len(by_plant) > 1


# --- The watch and the clock


def health(machine: Machine) -> str:
    return machine.ask(f"{URL}/health")


def test_the_watch_sees_a_desk_that_is_well(machine: Machine) -> None:
    machine.shell("systemctl is-active tracedesk-watch.timer")
    found = metrics_of(machine)
    show = "systemctl show -P NRestarts tracedesk; stat -c %s /var/lib/tracedesk/desk"
    restarts, size = machine.shell(show).split()
    its = "tracedesk_watch_source_up"
    sources = [value for name, value in found.items() if name.startswith(its)]
    assert sources == ["1"] * 7
    assert (found["tracedesk_up"], health(machine)) == ("1", "200")
    assert found["tracedesk_service_restarts_total"] == restarts
    assert found["tracedesk_file_bytes"] == size
    owner = machine.shell("stat -c '%U %a' /run/tracedesk-watch/metrics").strip()
    assert owner == "tracedesk-watch 644"


def test_the_watch_sees_a_desk_that_is_stopped(machine: Machine) -> None:
    machine.shell("systemctl stop tracedesk")
    wait_for("/health says so", lambda: health(machine) == "503")
    found = metrics_of(machine)
    machine.restart("systemctl start tracedesk")
    wait_for("/health says that it is back", lambda: health(machine) == "200")
    assert (found["tracedesk_up"], found["tracedesk_service_active"]) == ("0", "0")
    assert found['tracedesk_watch_source_up{source="reports"}'] == "0"


def test_the_idle_clock_runs_with_the_desk(machine: Machine) -> None:
    """Its timer begins and ends with the desk's service, and begins nothing once it is masked."""
    assert machine.restart(CLOCK_RUNS).split()[-2:] == ["active", "inactive"]
    assert machine.shell("systemctl is-active tracedesk-clock.timer || true").strip() == "inactive"
