"""Calls the tools, and looks at how they ended."""
import contextlib
import dataclasses
import importlib
import io
import os
import pathlib
import resource
import signal
import subprocess
import sys
import threading
from typing import IO, Mapping, Optional, Sequence, Union
from unittest import mock

from lab import OPS, ROOT

Word = Union[str, pathlib.Path, int, float]

KILLED = -signal.SIGKILL
# the environment names the step after which a tool kills itself
KILL_AFTER = "TRACEDESK_KILL_AFTER"
CALLS = threading.Lock()  # of tools in this process: each has standard output to itself
SENDER = ROOT / "clients/python/tracedesk-send"


@dataclasses.dataclass(frozen=True)
class Ended:
    """How a command ended."""

    words: tuple[str, ...]
    status: int
    out: str
    err: str

    @property
    def said(self) -> str:
        return self.out + self.err

    def expect(self, status: int = 0, *texts: str) -> "Ended":
        """Returns itself, if it ended with this status and said all these texts."""
        command = " ".join(self.words)
        assert (
            self.status == status
        ), f"status {self.status}, and not {status}: {command}\n{self.said}"
        for text in texts:
            assert text in self.said, f"it doesn't say {text!r}: {command}\n{self.said}"
        return self


def tool(name: str) -> pathlib.Path:
    """The starter of a tool, as `backup`."""
    return OPS / f"tracedesk-{name}"


def strings(words: Sequence[Word]) -> list[str]:
    return [str(word) for word in words]


def run(
    words: Sequence[Word],
    *,
    env: Optional[Mapping[str, str]] = None,
    given: Union[bytes, str] = b"",
    limit: int = 0,
    out: Optional[IO[str]] = None,
    cwd: Optional[pathlib.Path] = None,
) -> Ended:
    """Runs a command to its end. `env` is added to the environment; no file may grow beyond `limit`
    bytes."""

    def bound() -> None:
        resource.setrlimit(resource.RLIMIT_FSIZE, (limit, resource.RLIM_INFINITY))

    done = subprocess.run(
        strings(words),
        input=given.encode() if isinstance(given, str) else given,
        stdout=out or subprocess.PIPE,
        stderr=subprocess.PIPE,
        env={**os.environ, **(env or {})},
        cwd=cwd,
        preexec_fn=bound if limit else None,
    )
    texts = [
        (text or b"").decode("utf-8", "surrogateescape") for text in (done.stdout, done.stderr)
    ]
    return Ended(tuple(strings(words)), done.returncode, texts[0], texts[1])


def run_tool(name: str, *words: Word, env: Optional[Mapping[str, str]] = None) -> Ended:
    """Runs a tool to its end."""
    return run([tool(name), *words], env=env)


def call_tool(name: str, *words: Word) -> Ended:
    """Calls a tool in this process, for a test that does so hundreds of times; one at a time."""
    main = importlib.import_module(f"tracedesk_ops.cmd.{name}").main
    out, err = io.StringIO(), io.StringIO()
    command = [f"tracedesk-{name}", *strings(words)]
    with CALLS, contextlib.redirect_stdout(out), contextlib.redirect_stderr(err):
        with mock.patch.object(sys, "argv", command), mock.patch.object(os, "nice"):
            try:
                status = main() or 0
            except SystemExit as end:
                status = end.code if isinstance(end.code, int) else 1
                err.write(end.code if isinstance(end.code, str) else "")
    return Ended(tuple(command), status, out.getvalue(), err.getvalue())


def started(
    words: Sequence[Word], env: Optional[Mapping[str, str]] = None
) -> "subprocess.Popen[str]":
    """Starts a command that a test looks at on its way; what it says on standard error is kept."""
    return subprocess.Popen(
        strings(words),
        stdin=subprocess.DEVNULL,
        stdout=subprocess.DEVNULL,
        stderr=subprocess.PIPE,
        text=True,
        env={**os.environ, **(env or {})},
    )


def run_changed(name: str, words: Sequence[Word], change: str) -> Ended:
    """Runs a tool after these lines of Python, which change something in its modules."""
    lines = (
        f"import runpy, sys; sys.path.insert(0, {str(OPS)!r})",
        f"sys.argv = {strings([tool(name), *words])!r}",
        change,
        "runpy.run_path(sys.argv[0], run_name='__main__')",
    )
    return run([sys.executable, "-B", "-c", "\n".join(lines)])
