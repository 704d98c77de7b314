"""The points at which a run fails: each call, allocation, change of the disk, kill and cut of the
power.
"""
import argparse
import collections
import random
from typing import Any, Iterable, Iterator, Sequence
from tracedesk_dev.trial import Difference as Found
from tracedesk_dev.fault_judging import judge, killed, stopped, unchanged
from tracedesk_dev.fault_stories import EINTR, EIO, ENOSPC, EPIPE, EVER
from tracedesk_dev.fault_stories import Change, Command, Files, Got, Seen, Story

SECTOR = 512


def changes_in(record: bytes) -> Iterator[Change]:
    """The changes of the disk and the bytes that were put out, in their order, as
    dev/faults/calls.c records them.
    """
    at = 0
    while at < len(record):
        end = record.index(b"\n", at)
        what, name, number, length = record[at:end].decode().split(" ")
        at = end + 1 + int(length)
        yield Change(what, name, int(number), record[end + 1 : at])


def apply(text: bytearray, change: Change) -> None:
    """Makes a change of a file's bytes."""
    end = change.number + len(change.text)
    text.extend(bytes(max(0, end - len(text))))
    if change.what == "length":
        del text[change.number :]
    else:
        text[change.number : end] = change.text


class Disk:
    """What a disk surely has of each file, the changes since that it may have, and the names that
    it may have.
    """

    def __init__(self, files: Files) -> None:
        self.sure = dict(files)
        self.open: dict[str, list[Any]] = collections.defaultdict(list)
        self.names: set[str] = set()

    def take(self, change: Change) -> None:
        if change.what == "create":
            self.sure[change.name] = b""
            self.names.add(change.name)
        elif change.what in ("write", "length"):
            self.open[change.name].append([change, False, False])
        elif change.name == "desk/..":
            self.names -= self.names if change.what == "synced" else set()
        elif change.what == "synced":
            self.settle(change.name)
        elif change.what == "unsynced":
            for it in self.open[change.name]:
                it[2] = not it[1]

    def settle(self, name: str) -> None:
        """A sync that went well: all is there, but for what an earlier one may have dropped."""
        for it in self.open[name]:
            it[1] = it[1] or not it[2]
        while self.open[name] and self.open[name][0][1]:
            text = bytearray(self.sure[name])
            apply(text, self.open[name].pop(0)[0])
            self.sure[name] = bytes(text)

    def unsure(self) -> list[tuple[str, int]]:
        return [
            (name, at)
            for name in sorted(self.open)
            for at, it in enumerate(self.open[name])
            if not it[1]
        ]

    def with_these(self, kept: Iterable[tuple[str, int]]) -> Files:
        """The files where of the unsure changes these are kept, each whole."""
        files, kept = dict(self.sure), set(kept)
        for name, its in self.open.items():
            text = bytearray(files[name])
            for at, (change, is_sure, _dropped) in enumerate(its):
                if is_sure or (name, at) in kept:
                    apply(text, change)
            files[name] = bytes(text)
        return files

    def pieces(self, name: str, size: int) -> Any:
        """Where the pieces of this size begin that an unsure write touches."""
        its = (it for it, is_sure, _dropped in self.open[name] if not is_sure)
        places = (
            range(it.number // size * size, it.number + len(it.text), size)
            for it in its
            if it.what == "write"
        )
        return sorted(set().union(*places))

    def mixed(self, size: int, chance: random.Random) -> Files:
        """The files where each piece of this size is old or new by chance, and past the sure end of
        a file its length is anywhere, and any byte may be anything where pieces are of a byte."""
        old, new = self.with_these(()), self.with_these(self.unsure())
        share = chance.choice((0.03, 0.5, 0.97))
        files = {}
        for name, text in new.items():
            before, both = old[name], bytearray(text)
            for at in self.pieces(name, size):
                if at < min(len(before), len(text)) and chance.random() < share:
                    both[at : at + size] = before[at : at + size][: len(both) - at]
            if len(text) > len(before):
                past = len(both) - len(before)
                if size == 1 and chance.random() < 0.5:
                    both[len(before) :] = chance.randbytes(past)
                del both[len(before) + chance.randint(0, past) :]
            files[name] = bytes(both)
        return files

    def outcomes(self, chance: random.Random) -> Iterator[Any]:
        """Files that a power cut may leave now."""
        unsure = self.unsure()
        if len(unsure) <= 3:
            numbers = range(2 ** len(unsure))
            few = [{at for bit, at in enumerate(unsure) if it >> bit & 1} for it in numbers]
        else:
            few = [set(), set(unsure)]
            few += [set(unsure) - {it} for it in chance.sample(unsure, 4)]
            few += [{it} for it in chance.sample(unsure, 4)]
            few += [{it for it in unsure if chance.random() < 0.5} for _ in range(4)]
        yield from map(self.with_these, few)
        if unsure:
            for size in (SECTOR, SECTOR, 1, 1):
                yield self.mixed(size, chance)
        for name in sorted(self.names):
            files = self.with_these(chance.choice(few))
            del files[name]
            yield files
        if self.names:
            files = self.with_these(())
            yield {name: text for name, text in files.items() if name not in self.names}


def replayed(story: Story, record: bytes, files: Files) -> Iterator[Any]:
    """Each change of a record, with what was put out until then, and what the disk has then."""
    disk, out = Disk(files), b""
    for change in changes_in(record):
        if change.what == "out":
            out += story.put_out(change)
        else:
            disk.take(change)
        yield change, out, disk


def recorded(story: Story, fail: str = "", files: Files | None = None) -> Got:
    """A recorded run, whose record has to make the files that it left."""
    got, disk = story.failed(fail, True, files), Disk(story.start if files is None else files)
    for change in changes_in(got.record):
        disk.take(change)
    if disk.with_these(disk.unsure()) != got.files:
        raise Found("the record of a run is not what it did")
    return got


def cut(story: Story, got: Got, files: Files, seen: Seen, once_more: random.Random | None) -> None:
    """A power cut that left these files; and a second one, while the file is audited after the
    first.
    """
    judge(story, got, files, seen)
    seen["power cuts"] += 1
    if once_more is None:
        return
    auditing = Command(story.asked, story.name, ["audit", "--db", "desk"], [b""], files)
    record = recorded(auditing).record
    last = once_more.randint(0, sum(1 for _change in changes_in(record)))
    for at, (_change, _out, disk) in enumerate(replayed(auditing, record, files)):
        if at == last:
            judge(story, got, once_more.choice(list(disk.outcomes(once_more))), seen)
            seen["cuts while it was opened again"] += 1


def chosen(asked: argparse.Namespace, count: int) -> Sequence[int]:
    """The numbers from 1 on, or a seeded choice where they are too many; the first and the last are
    in it.
    """
    numbers = range(1, count + 1)
    if count <= asked.most:
        return numbers
    chance = random.Random(f"{asked.seed} {count}")
    return sorted({1, count, *chance.sample(numbers, asked.most)})


def wire(story: Story, counts: dict[str, int]) -> Iterator[Any]:
    pieces = f"input 1 {EVER} short,output 1 {EVER} short"
    yield unchanged, "input", pieces
    for kind, errors in (("input", (EIO, EINTR)), ("output", (EIO, ENOSPC, EPIPE, EINTR))):
        for number in chosen(story.asked, counts[kind]):
            yield unchanged, kind, f"{kind} {number} {number} short"
            yield from ((stopped, kind, f"{kind} {number} {number} {error}") for error in errors)
            if kind == "output":
                yield stopped, kind, f"{kind} {number} {number} none"
        for number in chosen(story.asked, story.failed(pieces).counts[kind]):
            yield stopped, kind, f"{kind} {number} {number} {EIO},{pieces}"


def memory(story: Story, counts: dict[str, int]) -> Iterator[Any]:
    for number in chosen(story.asked, counts["memory"]):
        yield stopped, "memory", f"memory {number} {number} 12"
    for number in chosen(story.asked, counts["memory"])[::5]:
        yield stopped, "memory", f"memory {number} {EVER} 12"


def disk(story: Story, counts: dict[str, int]) -> Iterator[Any]:
    for number in chosen(story.asked, counts["read"]):
        for way in (EIO, "short", "half"):
            yield stopped, "read", f"read {number} {number} {way}"
        yield stopped, "read", f"read {number} {EVER} {EIO}"
    for number in chosen(story.asked, counts["write"]):
        for way in ("short", "half"):
            yield unchanged, "write", f"write {number} {number} {way}"
        for way in (EIO, ENOSPC, "torn", "late", "none"):
            yield stopped, "write", f"write {number} {number} {way}"
        for way in (EIO, ENOSPC):
            yield stopped, "write", f"write {number} {EVER} {way}"
        yield stopped, "write", f"write {number} {EVER} {EIO},sync 1 {EVER} {EIO}"
    for kind in ("sync", "call"):
        for number in chosen(story.asked, counts[kind]):
            yield stopped, kind, f"{kind} {number} {number} {EIO}"
            yield stopped, kind, f"{kind} {number} {EVER} {EIO}"
            if kind == "sync":
                yield stopped, kind, f"{kind} {number} {number} late"


def kill(story: Story, counts: dict[str, int]) -> Iterator[Any]:
    for kind, ways in (
        ("write", ("kill", "killtorn")),
        ("sync", ("kill",)),
        ("output", ("kill", "killtorn")),
        ("call", ("kill",)),
    ):
        for number in chosen(story.asked, counts[kind]):
            for way in ways:
                yield killed, kind, f"{kind} {number} {number} {way}"


def power(story: Story, counts: dict[str, int], always: Any = "", one_in: Any = 1) -> Iterator[Any]:
    """Power cuts at each change of a run, or at one in so many; and of runs in which a sync fails,
    at some changes behind it.
    """
    for number in range(1 if always else counts["sync"] + 1):
        chance = random.Random(f"{story.asked.seed} {number}")
        fail = f"sync {number} {number} {EIO}" if number else always
        got, failed = recorded(story, fail), not number
        for at, (change, out, disk) in enumerate(replayed(story, got.record, story.start)):
            failed = failed or change.what == "unsynced"
            if not failed or number and chance.random() > 0.1:
                continue
            if one_in > 1 and chance.randrange(one_in):
                continue
            answers, rest = story.split(out)
            cut_off = got._replace(answers=answers, rest=rest, status=-9, told=b"")
            told = f"{fail or 'nothing failed'}, and the power at change {at + 1}"
            outcomes = list(disk.outcomes(chance))
            for files in chance.sample(outcomes, min(4, len(outcomes))) if number else outcomes:
                again = f"{story.asked.seed} {number} {at}" if chance.random() < 0.1 else None
                yield cut, cut_off, files, again and random.Random(again), told
