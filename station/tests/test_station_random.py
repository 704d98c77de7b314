"""Random hands, while answers are lost: a few, or --sequences N, the first with --seed N."""

import pytest
from station_random import BATCH, batch, words
from station_site import Site

pytestmark = pytest.mark.browser


@pytest.mark.gate
def test_random_hands(site: Site, request: pytest.FixtureRequest, seed: int) -> None:
    if not (count := request.config.getoption("--sequences")):
        print(words(batch(site.program, seed, 3, 6)))
    for at in range(0, count, BATCH):
        print(words(batch(site.program, seed + at, min(BATCH, count - at))), flush=True)
