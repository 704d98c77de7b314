"""How a tool ends: an unexpected failure has a status of its own, never one that answers a
question.
"""
from __future__ import annotations

import contextlib
import sys
import traceback
from collections.abc import Callable
from typing import NoReturn

from tracedesk_ops import plant

INTERRUPTED, UNEXPECTED = 130, 9  # one digit: manual pages list such statuses


def end(main: Callable[[], int | None]) -> NoReturn:
    """Ends the tool with the status that `main` returns."""
    try:
        sys.exit(main())
    except KeyboardInterrupt:
        sys.exit(INTERRUPTED)
    except Exception:
        with contextlib.suppress(OSError):  # nobody reads it
            traceback.print_exc()
        plant.tell("it failed in a way that nobody foresaw, as the lines above say: report them")
        sys.exit(UNEXPECTED)
