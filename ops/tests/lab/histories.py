"""Histories of a line's folder at random: messages, seals, roll-overs, restores, other hosts, lost
and changed files, kills and clocks. After each step the files are judged by the lists that this
model remembers, and never by what the files say.
"""
from __future__ import annotations

import contextlib
import dataclasses
import os
import pathlib
import shutil
import tempfile
from typing import Any

from hypothesis import strategies as st
from hypothesis.stateful import RuleBasedStateMachine, initialize, invariant, precondition, rule

from lab import files, folders
from lab.folders import CALLS, audit
from lab.hosts import CLOCK, Command, History, Host, Lists, covers, is_whole
from lab.killed import killed_at
from tracedesk_ops import around, change, lineage, rollover, sealed, sealing
from tracedesk_ops.line import LineFolder

Path = pathlib.Path

HOSTS = 3
HOST = st.sampled_from((0, 0, 1, 2))
KILL = st.one_of(st.none(), st.none(), st.integers(1, 16))


class Histories(RuleBasedStateMachine):
    """The folder of the first host is judged; the others' files get into it."""

    def __init__(self) -> None:
        super().__init__()
        memory = "/dev/shm" if os.access("/dev/shm", os.W_OK) else None  # no test cuts the power
        self.room = Path(tempfile.mkdtemp(prefix="histories-", dir=memory))
        self.known: dict[str, Lists] = {}  # by digits, of each file that ever was
        self.damaged: set[Path] = set()
        self.mirror = self.room / "mirror"
        self.mirror.mkdir()
        self.snapshots: list[tuple[Path, Lists]] = []
        self.count = 0

    @initialize()
    def begin(self) -> None:
        folder = self.room / "L1"
        folder.mkdir()
        self.hosts = [Host(folder, Lists())]
        files.desk(self.line.desk)
        self.hosts[0].accept(("made", "PartDefined\tP"))
        self.seal(0)

    @property
    def line(self) -> LineFolder:
        return self.hosts[0].line

    def host(self, number: int) -> Host:
        return self.hosts[number % len(self.hosts)]

    def of_folder(self, folder: Path) -> dict[Path, Lists]:
        """The files of a folder that nobody changed."""
        paths = sorted(folder.glob("*.desk")) if folder.is_dir() else []
        return {path: self.known[path.stem] for path in paths if path not in self.damaged}

    # --- What happens to desks

    @rule(host=HOST, count=st.integers(1, 3), then=st.booleans())
    def messages(self, host: int, count: int, then: bool) -> None:
        self.host(host).accept(*(self.new_command() for _ in range(count)))
        if then:
            self.seal(host)

    @rule(host=HOST, left_out=st.booleans())
    def sent_again(self, host: int, left_out: bool) -> None:
        """The senders send what the desk lacks. One that has lost its first message doesn't, and
        the clock's is at its number.
        """
        its = self.host(host)
        there = {uid for lists in self.history(its.has) for uid, _ in lists.commands}
        all_of = sorted(self.said([*self.known.values()]), key=lambda said: (len(said[0]), said))
        lacked = [*{said[0]: said for said in all_of if said[0] not in there}.values()]
        if left_out and lacked:
            self.count += 1
            lacked[0] = (f"t-{self.count}", CLOCK)
        its.accept(*lacked)

    @rule(kind=st.sampled_from(("clock", "note", "same name")), host=HOST)
    def odd(self, kind: str, host: int) -> None:
        """The clock's message, an entry of the book, or one UniqueID for a message to each host."""
        self.count += 1
        if kind == "clock":
            self.host(host).accept((f"t-{self.count}", CLOCK))
        elif kind == "note":
            self.host(host).note(f"n-{self.count}")
        else:
            for its in self.hosts:
                its.accept((f"c-{self.count}", f"PartDefined\t{its.line.name}"))

    @precondition(lambda self: len(self.hosts) < HOSTS)
    @rule(host=HOST)
    def another_host(self, host: int) -> None:
        its, folder = self.host(host), self.room / f"L1-{len(self.hosts)}"
        folder.mkdir()
        shutil.copyfile(its.line.desk, folder / "desk")
        self.hosts.append(Host(folder, its.has))

    @rule(data=st.data(), is_back=st.booleans())
    def snapshot(self, data: st.DataObject, is_back: bool) -> None:
        """The machine's disk is kept, or set back to what was kept."""
        its = self.hosts[0]
        if is_back and self.snapshots:
            path, its.has = data.draw(st.sampled_from(self.snapshots), "snapshot")
            shutil.copyfile(path, its.line.desk)
        else:
            path = self.room / f"snapshot-{len(self.snapshots)}"
            shutil.copyfile(its.line.desk, path)
            self.snapshots.append((path, its.has))

    # --- What is done with files

    @rule(host=HOST, kill=KILL)
    def seal(self, host: int, kill: int | None = None) -> None:
        its, made = self.host(host), []
        with killed_at(kill, CALLS) if kill else contextlib.nullcontext():
            made.append(sealing.seal(its.line, audit))
        self.learn(its, its.has)
        for file in made:
            assert file.path.stat().st_mode & 0o222 == 0
            assert self.known[file.digits] == its.has
            if its is self.hosts[0]:
                self.expect_set_back(file)

    def learn(self, its: Host, has: Lists) -> None:
        """What is new in a host's folder was sealed of a desk that had this."""
        for path in its.line.sealed.glob("*.desk") if its.line.sealed.is_dir() else ():
            if path.stem not in self.known:
                self.known[path.stem] = has
                shutil.copyfile(path, self.mirror / path.name)
            there = self.line.sealed / path.name
            if path != there and self.known[path.stem] == has:  # as by a mirror into one folder
                if not there.exists() or there in self.damaged:
                    shutil.copyfile(path, there)
        self.damaged = {path for path in self.damaged if not is_whole(path)}

    @rule(host=HOST, count=st.integers(0, 2), kill=KILL)
    def roll_over(self, host: int, count: int, kill: int | None) -> None:
        """The desk accepts this meanwhile. One that is refused has sealed the desk, and one that
        goes on from a kill may only start it.
        """
        its, before, done = self.host(host), self.host(host).has, []
        said = tuple(self.new_command() for _ in range(count))
        with contextlib.suppress(rollover.NotRolledOver):
            with killed_at(kill, CALLS) if kill else contextlib.nullcontext():
                done.append(folders.rolled_over(its.line, *said))
        self.learn(its, before)
        with sealed.opened(its.line.desk) as database:
            uids = {uid for (uid,) in database.execute("SELECT uid FROM accepted")}
            begun = sealed.begun_from(database)
        if begun != before.begun:
            assert self.known[begun].continues(before)
            notes = self.known[begun].notes  # nobody decides about one, so all are carried
            its.has = Lists(begun, said if self.known[begun] == before else (), notes)
        elif {uid for uid, _ in said} & uids:
            its.has = dataclasses.replace(before, commands=before.commands + said)
        after = {said for lists in self.history(its.has) for said in lists.commands}
        wanted = said if any(service.have_said for service in done) else ()
        assert after.issuperset((*before.commands, *wanted))

    def new_command(self) -> Command:
        self.count += 1
        return (f"c-{self.count}", f"PartDefined\t{self.count}")

    @rule(data=st.data(), left_out=st.sampled_from((None, False, True)), kill=KILL)
    def restored(self, data: st.DataObject, left_out: bool | None, kill: int | None) -> None:
        """A file takes the desk's place; the senders send again what it lacks, or not yet."""
        its = self.hosts[0]
        there = {**self.of_folder(self.line.sealed), **self.of_folder(self.line.lost)}
        whole = [path for path in sorted(there) if self.has_all_behind(there[path])]
        if not whole:
            return
        path, was = data.draw(st.sampled_from(whole), "file"), its.has
        plan = change.plan(self.line, sealed.read(path))
        self.expect_lacked(plan.lacked, [was, *there.values()], self.history(there[path]))
        self.known[plan.taken_off.removesuffix(sealed.SUFFIX)] = was
        its.has = there[path]
        with killed_at(kill, CALLS) if kill else contextlib.nullcontext():
            change.restore(self.line, plan, audit)
            kill = None
        if kill and sealed.digits_of(self.line.desk) != path.stem:
            its.has = was
        self.damaged = {path for path in self.damaged if path.exists() and not is_whole(path)}
        folders = (self.line.sealed, self.line.lost)
        kept = [lists for folder in folders for lists in self.of_folder(folder).values()]
        for lists in (was, *there.values()):
            assert self.said([lists]) <= self.said([*kept, its.has]), "something is in no file"
            assert noted([lists]) <= noted([*kept, its.has]), "an entry is in no file"
        if left_out is not None:
            self.sent_again(0, left_out)
            self.seal(0)

    def has_all_behind(self, last: Lists) -> bool:
        there = self.of_folder(self.line.sealed).values()
        return all(lists in there for lists in self.history(last)[:-1])

    @rule(
        data=st.data(),
        kind=st.sampled_from(("removed", "changed", "another's")),
        folder=st.sampled_from(("sealed", "sealed", "lost")),
        at=st.integers(0, 1 << 16),
    )
    def harmed(self, data: st.DataObject, kind: str, folder: str, at: int) -> None:
        if not (paths := sorted((self.line.path / folder).glob("*.desk"))):
            return
        path, *others = data.draw(st.permutations(paths), "file")
        content = bytearray((others[0] if others and kind == "another's" else path).read_bytes())
        if kind == "changed":
            content[at % len(content)] ^= 1 << at % 8
        path.unlink()
        self.damaged.discard(path)
        if kind != "removed":
            path.write_bytes(content)
            if not is_whole(path):
                self.damaged.add(path)

    @rule()
    def mended(self) -> None:
        """What is damaged or missing comes from the mirror; from lost/ it is taken away."""
        for path in self.damaged:
            path.unlink()
        self.damaged.clear()
        for path in self.mirror.iterdir():
            if not (self.line.sealed / path.name).exists():
                shutil.copyfile(path, self.line.sealed / path.name)

    @rule(data=st.data())
    def clocks(self, data: st.DataObject) -> None:
        for path in sorted(self.line.path.rglob("*.desk")):
            time = data.draw(st.integers(0, 1 << 32))
            os.utime(path, (time, time))

    @rule()
    def cleaned(self) -> None:
        """Taking away what is superfluous changes nothing that is found."""
        before = lineage.of(self.line)
        gone = lineage.superfluous(before.files, before.lost)
        for file in gone:
            file.path.unlink()
        after = lineage.of(self.line)
        assert self.names(after.chain) == self.names(before.chain)
        assert after.lacked == before.lacked and after.faults == before.faults
        assert not gone or len(after.files) >= lineage.KEPT

    @staticmethod
    def names(those: list[sealed.Sealed]) -> list[str]:
        return [file.digits for file in those]

    # --- What must hold

    def history(self, last: Lists) -> History:
        found = [last]
        while found[0].begun:
            found.insert(0, self.known[found[0].begun])
        return found

    def expect_set_back(self, made: sealed.Sealed) -> None:
        """A seal says if the desk has been set back: another file has more."""
        found = lineage.of(self.line)
        own = self.history(self.hosts[0].has)
        if not sealing.faults_since(made, found):
            chain = [self.known[file.digits] for file in found.chain]
            assert covers(own, chain) and covers(chain, own)

    @invariant()
    def is_exact_or_says_what_is_missing(self) -> None:
        if not hasattr(self, "hosts"):
            return
        found = lineage.of(self.line)
        for path in self.damaged:
            assert any(str(path) in fault for fault in found.faults), f"{path} passes"
        if self.damaged:
            return
        there = self.of_folder(self.line.sealed)
        lost = [self.history(has) for has in self.of_folder(self.line.lost).values()]
        histories = [self.history(has) for has in there.values()]
        left = [its for its in histories if not any(covers(one, its) for one in lost)]
        newest = [one for one in left if all(covers(one, other) for other in left)]
        behind = [lists for one in (*histories, *lost) for lists in one[:-1]]
        if not newest or not all(lists in there.values() for lists in behind):
            assert found.faults, f"{self.line.sealed} is no chain, and nothing says so"
            return
        assert not found.faults, f"a whole chain has {found.faults}"
        assert [self.known[file.digits] for file in found.chain] == newest[0]
        self.expect_lacking(found, newest[0])

    def expect_lacking(self, found: lineage.Lineage, chain: History) -> None:
        folders = (self.line.sealed, self.line.lost)
        there = [has for folder in folders for has in self.of_folder(folder).values()]
        self.expect_lacked(found.lacked, there, chain)

    def expect_lacked(
        self, found: list[lineage.Lacked], there: list[Lists], chain: History
    ) -> None:
        lacked = self.said(there) - self.said(chain), noted(there) - noted(chain)
        assert sum(its.commands for its in found) == len(lacked[0])
        assert sum(its.entries for its in found) == len(lacked[1])

    @invariant()
    def is_recalled_exactly_or_says_what_is_missing(self) -> None:
        """A recall asks the files behind the desk, and says what its history lacks."""
        if not hasattr(self, "hosts"):
            return
        found = around.survey(self.line)
        if self.damaged:
            assert found.faults, "a damaged file is not named"
            return
        own = self.history(self.hosts[0].has)
        there = self.of_folder(self.line.sealed)
        kept = [*there.values(), *self.of_folder(self.line.lost).values()]
        behind = [lists for one in (*kept, own[-1]) for lists in self.history(one)[:-1]]
        is_whole = all(lists in there.values() for lists in behind)
        is_lacking = bool(self.said(kept) - self.said(own) or noted(kept) - noted(own))
        assert bool(found.faults) == (not is_whole or is_lacking), f"it says {found.faults}"
        if is_whole:
            assert [self.known[Path(row.file).stem] for row in found.archives] == own[:-1]

    @staticmethod
    def said(those: list[Lists]) -> set[Command]:
        commands = {command for lists in those for command in lists.commands}
        return {command for command in commands if command[1] != CLOCK}

    def teardown(self) -> None:
        shutil.rmtree(self.room)


def noted(those: list[Lists]) -> set[str]:
    return {uid for lists in those for uid in lists.notes}


def settings_of(sequences: int, **more: Any) -> Any:
    """Deterministic, without limits of time."""
    from hypothesis import HealthCheck, Phase, settings

    return settings(
        max_examples=sequences,
        stateful_step_count=25,
        derandomize=True,
        deadline=None,
        database=None,
        phases=[Phase.explicit, Phase.generate],
        suppress_health_check=list(HealthCheck),
        **more,
    )
