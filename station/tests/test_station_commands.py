"""Random commands under outages: each acts once, or its loss is shown."""
import random
import time

import pytest
from station_commands import COMMANDS, OUTAGES, ROUND, one_round
from station_operator import Operator
from station_plant import plant
from station_random import LossySite
from station_site import Site
from tracedesk_dev.program import Ticks
from tracedesk_dev.trial import Difference, in_memory

pytestmark = pytest.mark.browser


def test_commands_under_outages(site: Site, count: int = COMMANDS, seed: int = 1) -> None:
    """Random commands, a third of them as one before, while answers are lost, the desk or the proxy
    is killed or slow.
    """
    dice, sums, begun, ticks = random.Random(seed), [0, 0, 0], time.monotonic(), Ticks()
    with LossySite(site.program, in_memory(), dice) as lossy:
        plant(lossy)
        with Operator(lossy, size=(1024, 600)) as it:
            it.ready()
            it.page.set_script_timeout(600)
            for turn in range(count // ROUND):
                outage = OUTAGES[turn % len(OUTAGES)]
                try:
                    sums = [a + b for a, b in zip(sums, one_round(lossy, it, dice, outage, ROUND))]
                except Difference as fault:
                    raise Difference(f"seed {seed}, round {turn} ({outage}): {fault}") from None
                ticks.tell(
                    f"{ROUND * (turn + 1)} of {count} commands: {sums} messages, accepted, lost"
                )
    made, acted, lost = sums
    print(
        f"{count} commands under {count // ROUND} outages in {time.monotonic() - begun:.0f} s:"
        f" {made} messages, {acted} accepted once, {lost} losses shown and scanned again"
    )
