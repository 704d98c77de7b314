"""The fixture of the station's tests: a plant behind the packaged nginx, whose Line is compared
with `report` at the end.

    /usr/bin/python3 -m pytest station/tests/test_station_red.py -k stays --slower 10
    /usr/bin/python3 -m pytest station/tests/test_station_random.py --sequences 500 --seed 7
    /usr/bin/python3 -m pytest station/tests/station_pictures.py --pictures docs
    /usr/bin/python3 -m pytest station/tests/station_costs.py -s

They want Debian's chromium, chromium-driver, python3-selenium, nginx-light, openssl, zbar-tools and
poppler-utils; where one is missing a test is skipped. The desk's file is in /dev/shm if there is
one.
"""
import pathlib
from typing import Iterator

import pytest

import station_site
from station_plant import agrees, plant
from station_site import Site
from tracedesk_dev.trial import in_memory


def pytest_addoption(parser: pytest.Parser) -> None:
    about = "a page's waits take N times as long"
    parser.addoption("--slower", type=float, default=1, metavar="N", help=about)
    about = "so many random sequences; else three at most, for some seconds"
    parser.addoption("--sequences", type=int, default=0, metavar="N", help=about)
    about = "where the pictures of docs/station.md are put"
    parser.addoption("--pictures", type=pathlib.Path, default="docs", metavar="FOLDER", help=about)


def pytest_configure(config: pytest.Config) -> None:
    station_site.slower = config.getoption("--slower")


@pytest.fixture(scope="session")
def browses() -> None:
    """Skips where no browser begins."""
    if lacking := station_site.missing():
        pytest.skip(f"apt-get install {' '.join(lacking)}")
    if why := station_site.why_no_browser():
        pytest.skip(f"Chromium does not begin here: {why}")


@pytest.fixture
def site(program: pathlib.Path, browses: None) -> Iterator[Site]:
    with Site(str(program), in_memory()) as made:
        plant(made)
        made.last_look = agrees
        yield made
