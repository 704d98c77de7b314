"""Each message that the bridge makes of a day acts once and in order, whatever is killed."""
import pathlib

import pytest
from bridge_day import Run

LONG = 300  # boards of the long test, with 60 kills


def test_a_day_is_traced_after_kills(
    program: pathlib.Path, tmp_path: pathlib.Path, seed: int, boards: int = 60, kills: int = 12
) -> None:
    run = Run(program, tmp_path, seed, boards, kills)
    try:
        run.go()
        run.look_at_all()
    finally:
        run.end()


@pytest.mark.whole
def test_a_long_day_is_traced_after_kills(
    program: pathlib.Path, tmp_path: pathlib.Path, seed: int
) -> None:
    test_a_day_is_traced_after_kills(program, tmp_path, seed, LONG, 60)
