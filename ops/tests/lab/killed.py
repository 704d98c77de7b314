"""Kills a call of this process before one of its writes."""
from __future__ import annotations

import contextlib
import os
from typing import Any, Callable, Iterator, Sequence

import pytest

WRITES = ("rename", "replace", "fsync", "unlink", "ftruncate")


class Killed(BaseException):
    """The tool was killed."""


@contextlib.contextmanager
def killed_at(number: int, calls: Sequence[str] = WRITES) -> Iterator[list[str]]:
    """Kills what is called before its write of this number; the list has its writes, as far as they
    are among these calls of `os`.
    """
    writes: list[str] = []

    def counted(name: str, call: Callable[..., Any]) -> Callable[..., Any]:
        def write(*words: Any, **more: Any) -> Any:
            writes.append(name)
            if len(writes) == number:
                raise Killed
            return call(*words, **more)

        return write

    with pytest.MonkeyPatch.context() as patch, contextlib.suppress(Killed):
        for name in calls:
            patch.setattr(os, name, counted(name, getattr(os, name)))
        yield writes
