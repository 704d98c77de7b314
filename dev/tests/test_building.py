"""dev/build proves crates side by side: with an rt that is made up, in a made-up repository."""
import os
import pathlib
import subprocess

import pytest
from tracedesk_dev import building

CRATES = "low: itoa\nleft: low\nright: low itoa\ntop: left right\nmain: top\n"
# It wants what is below to be proved, tells what it is asked, and does as the file of its crate.
RT = """#!/bin/sh
crate=$(basename "$PWD")
echo "begins $crate $*" >> {log}
for it in $(sed -n "s/^$crate: //p" ../../crates.txt); do
  [ $it = itoa ] || grep -q "^ends $it " {log} || exit 3
done
[ -f src/do ] && {{ . src/do || exit 1; }}
mkdir -p out/rlib && touch out/rlib/stamp
echo "ends $crate $PWD" >> {log}
"""
MEET = """for it in $(seq 6000); do
  grep -q '^begins {other} ' {log} && break
  sleep 0.1
done
[ $it -lt 6000 ]
"""


@pytest.fixture
def root(tmp_path: pathlib.Path, monkeypatch: pytest.MonkeyPatch) -> pathlib.Path:
    (tmp_path / "crates.txt").write_text(CRATES)
    (tmp_path / "HANDLES").write_text("Handles allowed: none.\n")
    for name in ("low", "left", "right", "top", "main"):
        (tmp_path / "crates" / name / "src").mkdir(parents=True)
        (tmp_path / "crates" / name / "src/lib.rt").write_text("\n" * (9 if name == "right" else 3))
    rt = tmp_path / "bin/rt"
    rt.parent.mkdir()
    rt.write_text(RT.format(log=tmp_path / "log"))
    rt.chmod(0o755)
    monkeypatch.setenv("PATH", f"{rt.parent}:{os.environ['PATH']}")
    monkeypatch.setattr(building, "lanes", lambda: 2)
    return tmp_path


def log(root: pathlib.Path, word: str) -> list[str]:
    lines = (root / "log").read_text().splitlines()
    return [it.removeprefix(f"{word} ") for it in lines if it.startswith(f"{word} ")]


def meet(root: pathlib.Path, crate: str, other: str) -> None:
    """Has a crate's proof wait until that of another has begun."""
    (root / "crates" / crate / "src/do").write_text(MEET.format(other=other, log=root / "log"))


def test_crates_that_do_not_need_one_another_are_proved_at_once(root: pathlib.Path) -> None:
    meet(root, "left", "right")
    meet(root, "right", "left")
    building.build("main", root=root)
    first, *both, top, main = log(root, "begins")
    assert [first, top, main] == ["low lib --jobs 2", "top lib --jobs 2", "main run -- --help"]
    assert {*both} == {"left lib --jobs 1", "right lib --jobs 1"}  # which writes first is by chance
    places = dict(it.split() for it in log(root, "ends"))
    assert places["right"] == str(root / "crates/right")  # the first lane: more lines behind it
    assert places["left"] == str(root / "crates/main/out/lanes/1/crates/left")
    assert not (root / "crates/main/out/lanes").exists()


def test_one_that_fails_ends_those_beside_it(root: pathlib.Path) -> None:
    (root / "crates/left/src/do").write_text("echo no goal was met; false\n")
    (root / "crates/right/src/do").write_text("sleep 600\n")
    with pytest.raises(
        building.NotProved, match="left is not proved: rt ended with status 1"
    ) as why:
        building.build("main", root=root)
    assert (why.value.status, why.value.said) == (1, "no goal was met\n")
    assert [it.split()[0] for it in log(root, "ends")] == ["low"]
    assert not (root / "crates/main/out/lanes").exists()


def test_one_that_has_just_ended_is_in_no_ones_way(root: pathlib.Path) -> None:
    at_once = building.Lanes("main", 1, root)
    ended = subprocess.Popen(["true"], start_new_session=True, text=True)
    ended.wait()
    at_once.running.add(ended)
    at_once.stop()
    assert at_once.is_stopped


def test_a_machine_for_one_proof_has_no_copies(
    root: pathlib.Path, monkeypatch: pytest.MonkeyPatch
) -> None:
    monkeypatch.setattr(building, "lanes", lambda: 1)
    building.build("main", root=root)
    assert log(root, "begins")[1:3] == ["right lib", "left lib"]
    assert {pathlib.Path(it.split()[1]).parent for it in log(root, "ends")} == {root / "crates"}


def test_a_copy_begins_with_what_is_kept(root: pathlib.Path) -> None:
    kept = root / "crates/low/out/rlib"
    kept.mkdir(parents=True)
    (kept / "stamp").write_text("sum")
    at_once = building.Lanes("main", 3, root)
    copies = [it / "crates/low/out/rlib/stamp" for it in at_once.roots[1:]]
    assert [it.read_text() for it in copies] == ["sum", "sum"]
    assert not (at_once.roots[1] / "crates/top/out").exists()
    at_once.close()
    assert (kept / "stamp").read_text() == "sum"
