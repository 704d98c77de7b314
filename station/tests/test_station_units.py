"""The page's own modules, tried by node: what machines do, scans, reports, languages."""
import pathlib
import re
import subprocess

import pytest

HERE = pathlib.Path(__file__).resolve().parent


FILES = sorted((HERE / "unit").glob("*.test.mjs"))


@pytest.mark.needs("node")
@pytest.mark.parametrize("file", FILES, ids=[file.stem for file in FILES])
def test_modules(file: pathlib.Path) -> None:
    done = subprocess.run(["node", "--test", file], capture_output=True, text=True)
    assert done.returncode == 0, done.stdout[-3_000:] + done.stderr[-1_000:]
    assert int(re.findall(r"^# pass (\d+)", done.stdout, re.M)[-1]) > 0
