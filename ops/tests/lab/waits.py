"""Waiting for a state."""
import time
from typing import Callable, TypeVar

T = TypeVar("T")

PATIENCE = 300.0  # seconds for what takes less than one where nothing else is busy
PAUSE = 0.02


def wait_for(what: str, holds: Callable[[], T], patience: float = PATIENCE) -> T:
    """Returns what `holds` gives, once that is true."""
    end = time.monotonic() + patience
    while not (found := holds()):
        assert time.monotonic() < end, f"after {patience:.0f} seconds: not {what}"
        time.sleep(PAUSE)
    return found
