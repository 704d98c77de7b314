"""What the tests of ops/ share: the tools, a desk that is served, a line around it, and two lines
with archives.

The fixtures of ../conftest.py give tests these objects. What they find wrong is an AssertionError.
"""
import pathlib
from typing import Any

ROOT = pathlib.Path(__file__).resolve().parents[3]
OPS, TESTS = ROOT / "ops", ROOT / "ops/tests"

Answer = dict[str, Any]  # of a desk, to one message
