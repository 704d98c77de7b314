"""The plant's command, called for each machine by a thread of its own: no machine waits for the
command of another one.
"""
from __future__ import annotations

import contextlib
import os
import shlex
import signal
import subprocess
import threading
import time
from typing import Callable, List

from .interlock import Interlock
from .spool import clock

LONGEST_CALL = 2.0  # seconds that a call may take
SHORT, OFTEN = 0.01, 0.05  # seconds between two looks: at a call that runs, and at a state
LATE = 1.0  # seconds from a state to its call, or between two looks, after which a state is old


class Caller(threading.Thread):
    """Calls COMMAND MACHINE WORD at each change of a machine's word, and again and again with the
    same one.
    """

    def __init__(
        self, states: Interlock, machine: str, command: List[str], tell: Callable[[str], None]
    ) -> None:
        super().__init__(daemon=True, name=f"command of {machine}")
        self.states, self.machine, self.command, self.tell = states, machine, command, tell
        self.called, self.again_at, self.next_news, self.failed_until = "", 0.0, 0.0, 0.0
        self.looked = clock()

    def word(self) -> str:
        """The word now. If nobody looked for long the sender was suspended: what it knew says
        nothing of now.
        """
        now = clock()
        if now - self.looked > LATE:
            self.states.resumed = now
        self.looked = now
        return self.states.word(self.machine)

    def run(self) -> None:
        """Calls until the sender ends. Whatever a call finds, the next one comes."""
        while True:
            is_ended = bool(self.states.ended)
            try:
                word = self.word()
                if is_ended or word != self.called or clock() >= self.again_at:
                    self.again_at = clock() + self.states.every
                    self.call(word)
                    self.called = word
            except Exception as fault:
                self.say(repr(fault))
            if is_ended:
                return
            time.sleep(OFTEN)

    def call(self, word: str) -> None:
        """One call. Until one succeeds the machine is stopped, since nobody knows what came of
        it. A call with `go` is ended once that isn't true any more.
        """
        begun = clock()
        try:
            done = subprocess.Popen(
                [*self.command, self.machine, word.replace("\0", "?")],
                stdin=subprocess.DEVNULL,
                stdout=subprocess.DEVNULL,
                start_new_session=True,
            )
        except (OSError, ValueError, subprocess.SubprocessError) as fault:
            self.failed(str(fault))
            return
        is_go = word.startswith("go ")
        is_old = is_go and clock() - begun > LATE
        while not is_old and done.poll() is None and clock() - begun < LONGEST_CALL:
            time.sleep(SHORT)
            is_old = is_go and self.word() != word
        if done.poll() is None:
            with contextlib.suppress(OSError):
                os.killpg(done.pid, signal.SIGKILL)
            done.wait()
            if not is_old:
                self.failed(f"it took longer than {LONGEST_CALL:g} seconds, and was ended")
        elif done.returncode:
            self.failed(f"it ended with status {done.returncode}")
        elif clock() >= self.failed_until:
            self.states.faults.pop(self.machine, None)

    def failed(self, why: str) -> None:
        self.failed_until = clock() + self.states.every
        self.states.faults[self.machine] = f"fault: the plant's command: {why}"
        self.say(why)

    def say(self, why: str) -> None:
        if clock() >= self.next_news:
            self.next_news = clock() + 60
            self.tell(f"the interlock's command for {self.machine}: {why}")


class Command:
    """The callers of all machines, and who looks at the spool for them."""

    def __init__(self, states: Interlock, command: str, tell: Callable[[str], None]) -> None:
        self.states, self.command = states, command
        self.callers = [Caller(states, it, shlex.split(command), tell) for it in states.states]

    def begin(self) -> None:
        threading.Thread(target=self.look, daemon=True).start()
        for it in self.callers:
            it.start()

    def look(self) -> None:
        """Looks at the spool: a start that the machine has handed over stops it, whatever the
        sender waits for meanwhile.
        """
        while not self.states.ended:
            self.states.look()
            time.sleep(OFTEN)

    def end(self, why: str = "the sender has ended") -> None:
        """Stops the machines. It waits for each call as long as that may take."""
        self.states.ended = self.states.ended or f"ended: {why}"
        end = time.monotonic() + 2 * LONGEST_CALL
        for it in self.callers:
            if it.is_alive() and it is not threading.current_thread():
                it.join(max(0.0, end - time.monotonic()))


def end_at_signal(command: Command) -> None:
    """Stops the machines at SIGTERM, and then ends as the signal does. A thread does so: the main
    one may hang in a request, or hold a lock.
    """
    came, tells = os.pipe()
    os.set_blocking(tells, False)
    main = threading.main_thread().ident or 0

    def handler(*_: object) -> None:
        if command.states.ended and not any(it.is_alive() for it in command.callers):
            signal.signal(signal.SIGTERM, signal.SIG_DFL)
            os.kill(os.getpid(), signal.SIGTERM)

    def wait() -> None:
        while os.read(came, 1) != bytes([signal.SIGTERM]):
            pass
        command.end("the sender was ended")
        signal.pthread_kill(main, signal.SIGTERM)
        time.sleep(LONGEST_CALL)
        os._exit(128 + signal.SIGTERM)

    signal.set_wakeup_fd(tells, warn_on_full_buffer=False)
    signal.signal(signal.SIGTERM, handler)
    threading.Thread(target=wait, daemon=True).start()
