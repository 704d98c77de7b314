"""What tracedesk-watch says of a line that is a folder. It looks each minute, so the files' names
are believed: that their contents are those, each seal and each check looks.
"""
from __future__ import annotations

import pathlib
import time
from collections.abc import Callable, Iterator

from tracedesk_ops import copies, model, plant, sealed

Path = pathlib.Path
Samples = Iterator[tuple[str, float, dict[str, str]]]

FUTURE = 300  # seconds that a clock may have been set back
OF_IT = """SELECT (SELECT uid FROM accepted ORDER BY number DESC LIMIT 1),
    (SELECT max(number) FROM accepted), (SELECT coalesce(sum(placed), 0) FROM reel)"""


def newest(folder: Path, has: Callable[[str], bool]) -> Samples:
    """When the desk was sealed last, and what that file has. `has` says whether the running desk
    has a UniqueID: another desk's file says nothing of its age.
    """
    if not (paths := sealed.paths_in(folder)):
        return
    times = {path: path.stat().st_mtime for path in paths}
    path = max(paths, key=times.__getitem__)
    if times[path] > time.time() + FUTURE:
        raise plant.Fault(f"{path} was sealed in the future: a clock is wrong, or was; set it")
    with sealed.opened(path) as database:
        ((last_uid, commands, pieces),) = copies.rows(database, OF_IT)
    if not (has(str(last_uid)) or has(model.first_uid(path.stem))):
        raise plant.Fault(
            f"{path} isn't the running desk's: it is another desk's, or this one was set back. Call"
            " tracedesk-ops check"
        )
    yield "backup_timestamp_seconds", int(times[path]), {}
    yield "backup_commands", int(commands), {}
    yield "backup_pieces", int(pieces), {}
