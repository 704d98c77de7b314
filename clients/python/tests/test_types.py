"""The package is typed: mypy has nothing to say of it, for the oldest Python that it is for."""
import os
import pathlib
import shutil
import subprocess

import pytest

PACKAGE = pathlib.Path(__file__).resolve().parents[1] / "tracedesk"
OLDEST = "3.8"


@pytest.mark.skipif(not PACKAGE.is_dir(), reason="the package is one file here")
@pytest.mark.skipif(not shutil.which("mypy"), reason="there is no mypy: apt-get install mypy")
def test_mypy_has_nothing_to_say() -> None:
    words = ["--strict", "--python-version", OLDEST, "--cache-dir", os.devnull, str(PACKAGE)]
    done = subprocess.run(["mypy", *words], capture_output=True, text=True)
    assert done.returncode == 0, done.stdout + done.stderr
