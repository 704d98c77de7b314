"""dev/bench/growth: what it feeds a desk has no message twice, and is taken at its first size."""
import json
import pathlib
import subprocess
import sys

import pytest
from tracedesk_dev import ROOT, trial

SHORT = "kit,unload,trace"


@pytest.mark.parametrize("name", ["kit", "unload", "trace", "removal"])
def test_a_line_defines_each_part_and_names_each_message_once(name: str) -> None:
    case = trial.loaded("dev/bench/growth.py").CASES[name][1](1)
    told = [json.loads(line) for line in case.fed]
    parts = [it["MessageBody"]["PartNumber"] for it in told if "PartDefined" in it["MessageName"]]
    assert parts and len(parts) == len({*parts})
    assert len(told) == len({it["UniqueID"] for it in told})


def test_it_measures_each_case(program: pathlib.Path) -> None:
    words = ["growth", "--program", str(program), "--times", "1", "--only", SHORT]
    done = subprocess.run(
        [sys.executable, ROOT / "dev/bench/run", *words], capture_output=True, text=True
    )
    assert (done.returncode, done.stdout.count("\n")) == (0, 2 + 3), done.stderr
