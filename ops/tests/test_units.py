"""What the package has for Prometheus and systemd: rules, a dashboard, and units."""
import json
import pathlib
import re

import pytest
from lab import ROOT
from lab.tools import run, run_tool

PROMETHEUS = ROOT / "packaging/prometheus"
RULES, TESTS = (PROMETHEUS / f"tracedesk-alerts{its}.yml" for its in ("", "-test"))
METRIC = re.compile(r"\btracedesk_\w+")
MOST_EXPOSED = 2.0  # of a unit, by systemd-analyze
SERVICES = sorted(path.stem for path in (ROOT / "packaging").glob("tracedesk*.service"))


def alerts() -> set[str]:
    return set(re.findall(r"- alert: (\w+)$", RULES.read_text(), re.M))


@pytest.fixture(scope="module")
def metrics() -> set[str]:
    """The names of all metrics of the watch."""
    listed = run_tool("watch", "--list").expect().out
    return set(re.findall(r"^(tracedesk_\w+) ", listed, re.M))


def test_rules_are_about_metrics_that_there_are(metrics: set[str]) -> None:
    assert set(METRIC.findall(RULES.read_text() + TESTS.read_text())) <= metrics


def test_the_dashboard_shows_all_metrics(metrics: set[str]) -> None:
    panels = json.loads((PROMETHEUS / "tracedesk-dashboard.json").read_text())["panels"]
    texts = [target["expr"] for panel in panels for target in panel["targets"]]
    assert {name for text in texts for name in METRIC.findall(text)} == metrics


def test_each_rule_is_fired_by_a_test() -> None:
    shape = r"eval_time: \w+\n +alertname: (\w+)\n +exp_alerts:\n"
    assert set(re.findall(shape, TESTS.read_text())) == alerts()


def test_each_rule_says_what_to_do() -> None:
    told = re.findall(r"- alert: (\w+)\n(?: +(?!- ).*\n)+? +do: \".+\"$", RULES.read_text(), re.M)
    assert set(told) == alerts()


@pytest.mark.needs("promtool")
@pytest.mark.parametrize("words", [("check", RULES), ("test", TESTS)], ids=["check", "test"])
def test_promtool_takes_the_rules(words: tuple[str, pathlib.Path]) -> None:
    run(["promtool", words[0], "rules", words[1]]).expect()


# --- Units


@pytest.fixture(scope="module")
def units(tmp_path_factory: pytest.TempPathFactory) -> list[pathlib.Path]:
    """The units of the package, with scripts in the place of the installed programs."""
    at = tmp_path_factory.mktemp("units")
    (at / "bin").mkdir()
    made = []
    for unit in sorted((ROOT / "packaging").glob("tracedesk*.[st][eio][rmc]*")):
        text = unit.read_text()
        for name in re.findall(r"/usr/bin/(\S+)", text):
            (at / "bin" / name).write_text("#!/bin/sh\n")
            (at / "bin" / name).chmod(0o755)
        made.append(at / unit.name)
        made[-1].write_text(text.replace("/usr/bin/", f"{at}/bin/"))
    return [unit for unit in made if unit.suffix in (".service", ".timer", ".socket")]


@pytest.mark.needs("systemd-analyze")
def test_units_have_no_fault(units: list[pathlib.Path]) -> None:
    assert run(["systemd-analyze", "verify", *units]).expect().said == ""


@pytest.mark.parametrize(
    ("desk", "timer"),
    [
        ("tracedesk.service", "tracedesk-clock.timer"),
        ("tracedesk@%i.service", "tracedesk-clock@%i.timer"),
    ],
)
def test_an_idle_clock_begins_and_ends_with_its_desk(desk: str, timer: str) -> None:
    """And tells that desk: both have the port from the line's set-up file."""
    desks, timers = (
        (ROOT / "packaging" / name.replace("%i", "")).read_text().splitlines()
        for name in (desk, timer)
    )
    assert f"Wants={timer}" in desks and f"PartOf={desk}" in timers
    clock = (ROOT / "packaging/tracedesk-clock@.service").read_text().splitlines()
    assert "Environment=port=8080" in clock and "EnvironmentFile=-/etc/tracedesk/%i.conf" in clock
    (call,) = (line for line in clock if line.startswith("ExecStart="))
    assert " --url http://127.0.0.1:${port} " in call
    if desk == "tracedesk.service":
        assert "Unit=tracedesk-clock@desk.service" in timers
        assert any(
            line.startswith("ExecStart=") and line.endswith(" --port 8080") for line in desks
        )
    else:
        assert "EnvironmentFile=/etc/tracedesk/%i.conf" in desks


@pytest.mark.needs("systemd-analyze")
@pytest.mark.parametrize("name", SERVICES)
def test_a_unit_is_little_exposed(units: list[pathlib.Path], name: str) -> None:
    (unit,) = (its for its in units if its.name == f"{name}.service")
    said = run(["systemd-analyze", "security", "--offline=true", "--no-pager", unit]).out
    found = re.search(r"exposure level for .*: ([0-9.]+)", said)
    assert found and float(found[1]) <= MOST_EXPOSED


@pytest.mark.needs("systemd-analyze")
def test_the_packages_make_each_user_of_a_unit(
    units: list[pathlib.Path], folder: pathlib.Path
) -> None:
    (folder / "etc").mkdir()
    lists = sorted((ROOT / "packaging").glob("*.sysusers"))
    run(["systemd-sysusers", f"--root={folder}", *lists]).expect()
    made = {line.split(":")[0] for line in (folder / "etc/passwd").read_text().splitlines()}
    wanted = {name for unit in units for name in re.findall(r"^User=(.*)$", unit.read_text(), re.M)}
    assert wanted <= made
