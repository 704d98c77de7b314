"""The plant's command: kills, signals, and calls that hang. The sender is a process of its own
before a line that is served.
"""
from __future__ import annotations

import json
import pathlib
import random
import signal
import subprocess
import sys
import time
from typing import Dict, Iterator, List

import interlocked
import pytest
from at_port import PATIENCE, SENDER
from tracedesk import spool
from tracedesk.command import LONGEST_CALL

BY_SIGTERM = (-signal.SIGTERM, 128 + signal.SIGTERM)  # a main thread that hangs ends by the latter


@pytest.fixture
def plant(line_program: pathlib.Path, tmp_path: pathlib.Path) -> Iterator[interlocked.Plant]:
    made = interlocked.Plant(line_program, tmp_path)
    yield made
    made.end()


def test_refusals_and_kills_end_in_stop(
    plant: interlocked.Plant, request: pytest.FixtureRequest, seed: int
) -> None:
    """--refusals N of the machine, as many of a tablet, and as many kills, in any order. Prints the
    seconds from a refusal to the last moment in which the machine might work.
    """
    many, chance = request.config.getoption("--refusals"), random.Random(seed)
    took: Dict[str, List[float]] = {"by machine": [], "by tablet": []}
    deeds = ["kill", *took] * many
    chance.shuffle(deeds)
    plant.start()
    for deed in deeds:
        if deed == "kill":
            assert plant.is_stopped_by_a_kill(chance)
        else:
            took[deed].append(plant.refusal(deed == "by tablet"))
    for name, its in took.items():
        its.sort()
        figures = f"median {its[many // 2]:.3f}, 99 % {its[many * 99 // 100]:.3f}"
        print(f"{many} refused {name}: {figures}, most {its[-1]:.3f} s")


def test_a_start_that_is_handed_over_stops_while_the_desk_hangs(plant: interlocked.Plant) -> None:
    plant.start()
    plant.begin_board()
    plant.works()
    plant.line.process.send_signal(signal.SIGSTOP)
    plant.say(plant.message("MaterialsScrapped", Slot="1", Quantity=1))
    handed = time.time()
    plant.begin_board()
    stop = plant.wait_for(
        lambda: next((at for at, it, _ in plant.calls() if it == "stop" and at > handed), None)
    )
    assert not any(state == "go" for at, state, _ in plant.calls() if at > stop)


def test_a_desk_that_hangs_stops(plant: interlocked.Plant) -> None:
    plant.start()
    plant.begin_board()
    plant.works()
    time.sleep(4)  # longer than the silence after which it stops
    plant.works()  # a machine without messages may work while the desk answers
    plant.line.process.send_signal(signal.SIGSTOP)
    plant.wait_for(
        lambda: list(plant.calls())[-1][1:] == ("stop", "silent: no answer for 3 seconds")
    )


LIVES = """import sys, time; sys.path.insert(0, sys.argv[1]); from tracedesk import Spool
spool = Spool(sys.argv[2])
while True: spool.renew("the program of M1"); time.sleep(0.2)"""


def test_a_program_that_is_killed_stops_its_machine(plant: interlocked.Plant) -> None:
    """Nobody hears the machine then: the board that the desk has in work is no more that of the
    machine.
    """
    at = plant.words.index("--follow")
    plant.words[at : at + 2] = ["--stay"]
    words = [sys.executable, "-c", LIVES, str(SENDER.parent), str(plant.room / "spool")]
    with subprocess.Popen(words) as program:
        plant.start()
        plant.board = "B1"
        start = json.dumps(plant.message("WorkStarted", Board="B1")).encode()
        spool.Spool(plant.room / "spool").put(start)
        plant.works()
        program.kill()
    wanted = "silent: the program of M1 doesn't run"
    plant.wait_for(lambda: list(plant.calls())[-1][2].startswith(wanted))
    assert list(plant.calls())[-1][1] == "stop"
    assert plant.line.state()["State"] == "go", "the line doesn't know that nobody hears"


def hung(plant: interlocked.Plant, script: str) -> None:
    """The command hangs where the script says so."""
    text = (plant.room / "permit").read_text()
    (plant.room / "permit").write_text(text.replace("\n", f"\n{script}\n", 1))


def test_a_signal_ends_a_sender_in_a_call_that_hangs(plant: interlocked.Plant) -> None:
    called = plant.room / "called"
    hung(plant, f'case "$2" in go*) touch {called}; exec sleep 600;; esac')
    plant.start()
    plant.begin_board()
    plant.wait_for(called.exists)
    plant.sender.send_signal(signal.SIGTERM)
    assert plant.sender.wait(PATIENCE) in BY_SIGTERM
    assert list(plant.calls())[-1][1:] == ("stop", "ended: the sender was ended")


def test_a_signal_ends_a_sender_while_the_desk_hangs(plant: interlocked.Plant) -> None:
    plant.start()
    plant.begin_board()
    plant.works()
    plant.line.process.send_signal(signal.SIGSTOP)
    plant.say(plant.message("MaterialsScrapped", Slot="1", Quantity=1))
    time.sleep(1)
    plant.sender.send_signal(signal.SIGTERM)
    assert plant.sender.wait(PATIENCE) in BY_SIGTERM
    assert list(plant.calls())[-1][1:] == ("stop", "ended: the sender was ended")


def test_machines_do_not_wait_for_each_other(plant: interlocked.Plant) -> None:
    hung(plant, "[ $1 = M1 ] || exec sleep 600")
    for name in ("A1", "A2", "A3"):
        plant.words += ["--machine", name]
    plant.start()
    plant.begin_board()
    plant.works()
    assert plant.refusal(False) < 3 * LONGEST_CALL


def test_a_command_that_fails_stops(plant: interlocked.Plant) -> None:
    hung(plant, 'case "$2" in go*) exit 3;; esac')
    plant.start()
    plant.begin_board()
    plant.wait_for(lambda: any("ended with status 3" in why for _, _, why in plant.calls()))
    assert not any(state == "go" for _, state, _ in plant.calls())


def test_a_second_sender_of_a_machine_is_refused(plant: interlocked.Plant) -> None:
    plant.start()
    plant.wait_for(lambda: list(plant.calls()))
    words = [it if it != str(plant.room / "spool") else f"{it}2" for it in plant.words]
    words[words.index("--follow") + 1] = str(plant.room)
    done = subprocess.run(words, capture_output=True, text=True, timeout=PATIENCE)
    assert done.returncode == 2 and "another sender has its interlock" in done.stderr, done.stderr


@pytest.mark.parametrize("many", [1, pytest.param(10, marks=pytest.mark.whole)])
def test_a_stopped_sender_says_no_old_go(plant: interlocked.Plant, many: int) -> None:
    """A sender that sleeps, with its computer or without, asks before it permits anything."""
    plant.start()
    plant.begin_board()
    plant.works()
    for _ in range(many):
        plant.sender.send_signal(signal.SIGSTOP)
        plant.line.scan("MaterialsUnloaded", "1")
        time.sleep(3.2)
        woken = time.time()
        plant.sender.send_signal(signal.SIGCONT)
        plant.wait_for(lambda: any(at > woken + 0.5 for at, _, _ in plant.calls()))
        assert not any(state == "go" for at, state, _ in plant.calls() if at > woken)
        plant.line.scan("MaterialsLoaded", "1", "1-K1")
        plant.works()
