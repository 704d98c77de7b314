"""The processes that a test has started: which are left, and their end."""
import contextlib
import os
import pathlib
import signal
import time

PATIENCE = 300.0  # seconds for what a kill needs a moment for


def fields_of(pid: int) -> list[str]:
    """What the system tells of a process, from its state on; nothing where there is none."""
    try:
        text = pathlib.Path(f"/proc/{pid}/stat").read_text(encoding="utf-8", errors="replace")
    except (FileNotFoundError, ProcessLookupError):
        return []
    return text.rpartition(")")[2].split()


def has_ended(pid: int) -> bool:
    """Whether a process has ended, so that its ports and locks are free. It has also where nobody
    has asked for its status yet."""
    return fields_of(pid)[:1] in ([], ["Z"], ["X"])


def wait_until_ended(pid: int) -> None:
    end = time.monotonic() + PATIENCE
    while not has_ended(pid):
        if time.monotonic() > end:
            raise TimeoutError(f"process {pid} goes on")
        time.sleep(0.005)


def words_of(pid: int) -> list[bytes]:
    """The command line of a process; nothing where it has ended."""
    try:
        return pathlib.Path(f"/proc/{pid}/cmdline").read_bytes().split(b"\0")[:-1]
    except (FileNotFoundError, ProcessLookupError):
        return []


def running() -> list[int]:
    return [int(it) for it in os.listdir("/proc") if it.isdecimal()]


def that_have(word: str) -> list[int]:
    """The processes that have this word in their command lines."""
    return [it for it in running() if os.fsencode(word) in words_of(it)]


def of_session(session: int) -> list[int]:
    """The processes of a session that have not ended."""
    its = [it for it in running() if fields_of(it)[3:4] == [str(session)]]
    return [it for it in its if not has_ended(it)]


def told_of(session: int) -> str:
    """The command lines of a session's processes."""
    told = [b" ".join(words_of(it)) for it in of_session(session)]
    return "; ".join(it.decode("utf-8", "backslashreplace")[:300] for it in told)


def end_session(session: int) -> None:
    """Kills what is left of a session, and waits until it has ended."""
    while left := of_session(session):
        for pid in left:
            with contextlib.suppress(ProcessLookupError):
                os.kill(pid, signal.SIGKILL)
        for pid in left:
            wait_until_ended(pid)
