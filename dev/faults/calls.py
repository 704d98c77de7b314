"""Fails each call of the program in turn, and looks whether each answered command is in its file,
and acts once when sent again.

usage: dev/faults/run calls [--program FILE] [--jobs N] [--most N] [--only WORD] [--folder FOLDER]
                            [PART..]
       dev/faults/run calls --planted    calls that report success without it, which must be found
       dev/faults/run calls --gate       the part of `make test`, in two minutes on four cores

The parts, all of them where none is named:
  wire    each read of input and each write of an answer: it fails, or one byte goes, or none; and
          the same with all of them in pieces of one byte, so that it fails at each place of the
          bytes.
  memory  each allocation is refused, alone, and together with all that come after it.
  disk    each read, write, sync and other call on the desk's file, its log and their folder: it
          fails, once or from there on; in the middle, or at its end; or it does a part of it and
          reports no error.
  kill    the program is killed at each change of the disk, in the midst of each, and at each
          answer.
  power   the power fails at each change of the disk and behind each answer: any part of the
          unsynced bytes is lost, by writes, by sectors and by bytes, and past the synced end there
          may be anything. Also while the file is opened again after that, and after a sync that
          failed, whose writes may be lost for good.

It runs `feed` (with a file, and in memory), the two imports, `migrate`, `audit`, `serve`, `report`
and `serve`, `make`, `note` and `book` of `tracedesk-line` on worked cases. Of more than --most
points in one of these a seeded choice is taken. A run goes on undisturbed, and before each point a
copy of its process is made, with copies of its files, in which the call fails. The connection of
`serve` is a pair of files.
After each failure:
  - the answers are those of an undisturbed run of the lines that were not answered Unavailable, and
    the last of them may be cut; the status and the messages are the ones for such a failure;
  - `audit` says lawful, and the tables are those of the lines that were answered, or of one more
    that was being answered;
  - everything sent again to the file that was left is answered as an undisturbed desk answers it a
    second time, and the tables are that desk's;
  - where one allocation alone was refused, at most one answer is Unavailable.

With --gate every point is tried of the stories in WHOLE, and of all others one in eight, by a seed
that is the commit's hash; then the part of --planted for `feed`, which must be found. The last line
is 'N passed, M failed', over the parts of each story and the planted faults. Without a C compiler
it is reported as skipped, with status 0.

examples:
  dev/faults/run calls --only import wire
"""
import argparse
import collections
import concurrent.futures
import os
import pathlib
import random
import re
import subprocess
import tempfile
import time
from typing import Any, Callable, Iterator

from tracedesk_dev import program
from tracedesk_dev.program import ROOT
from tracedesk_dev.trial import Difference as Found
from tracedesk_dev.trial import in_memory
from tracedesk_dev.fault_judging import stopped
from tracedesk_dev.fault_stories import EVER, Rooms, Seen, Story
from tracedesk_dev.fault_points import cut, disk, kill, memory, power, wire
from tracedesk_dev.fault_cases import stories
from tracedesk_ops import plant

Tried = tuple[int, Seen, list[str]]  # how many points, what was seen, and what was found
BATCH = 250  # points of one run
FED = "feed first_run"
FEEDS = (
    *(FED, "feed a_splice_in_mid_board", "feed a_reel_moved_to_another_slot"),
    "migrate a_file_of_version_1_is_migrated",
)
IMPORTS = (
    "import-setup a_setup_file_is_one_sheet",
    "import-counts a_count_file_is_all_or_nothing",
)
WHOLE = {
    "wire": (FED, "serve first_run"),
    "memory": (FED, "serve first_run", *IMPORTS),
    **dict.fromkeys(("disk", "kill", "power"), FEEDS),
}
ONE_IN = 8  # of the other points that --gate tries
PARTS: dict[str, Callable[..., Iterator[Any]]] = {
    **{"wire": wire, "memory": memory, "disk": disk},
    **{"kill": kill, "power": power},
}


def lies(kind: str) -> Callable[..., Iterator[Any]]:
    """Calls of a kind that are told as done, and are not."""
    return lambda _story, counts, _one_in: (
        (stopped, kind, f"{kind} {number} {number} lie") for number in range(1, counts[kind] + 1)
    )


PLANTED: dict[str, Callable[..., Iterator[Any]]] = {
    "answers that are told as written, and are not": lies("output"),
    "writes that are told as done, and are not": lies("write"),
    "syncs that are told as done, and are not, and the power failing": (
        lambda story, counts, one_in: power(story, counts, f"sync 1 {EVER} lie", one_in)
    ),
}


def judged(points: list[tuple[str, Callable[[Seen], None]]]) -> Tried:
    """Each point as how it is told and what judges it."""
    seen: Seen = collections.Counter()
    found: list[str] = []
    for told, judging in points:
        try:
            judging(seen)
        except Found as it:
            found.append(f"{told}: {it}")
    return len(points), seen, found


def one(story: Story, point: Any) -> Tried:
    """A power cut, which needs no run of the same calls."""
    _call, got, files, again, told = point
    return judged([(told, lambda seen: cut(story, got, files, seen, again))])


def many(story: Story, base: str, points: list[Any]) -> Tried:
    """Points of one run."""
    try:
        gots = story.branched(base, [fail for _call, _kind, fail in points])
    except Found as it:
        told = f"{points[0][2]} and {len(points) - 1} more: {it}"
        return len(points), collections.Counter(), [told]

    def judging(point: Any, got: Any) -> Callable[[Seen], None]:
        call, kind, fail = point
        return lambda seen: None if call(story, kind, fail, seen, got) else None

    return judged([(it[2], judging(it, got)) for it, got in zip(points, gots)])


def tasks_of(story: Story, points: Iterator[Any]) -> Iterator[Any]:
    """The runs for these points: for those that differ in what fails first alone, one run for many
    of them.
    """
    waiting = collections.defaultdict(list)
    for point in points:
        if point[0] is cut:
            yield one, story, point
            continue
        base = point[2].partition(",")[2]
        waiting[base].append(point)
        if len(waiting[base]) == BATCH:
            yield many, story, base, waiting.pop(base)
    for base, its in waiting.items():
        yield many, story, base, its


def tried(asked: argparse.Namespace, points_of: Any, story: Story) -> Tried:
    """Fails each point of a story."""
    seen: Seen = collections.Counter()
    found: list[str] = []
    count, ticks = 0, program.Ticks()
    running: set[concurrent.futures.Future[Tried]] = set()
    with concurrent.futures.ThreadPoolExecutor(asked.jobs) as pool:
        tasks = tasks_of(story, points_of(story, story.failed().counts))
        while True:
            try:
                while len(running) < 2 * asked.jobs and (task := next(tasks, None)) is not None:
                    running.add(pool.submit(*task))
            except Found as fault:
                found.append(f"no further points: {fault}")
                tasks = iter(())
            if not running:
                return count, +seen, found
            ready, running = concurrent.futures.wait(
                running, return_when=concurrent.futures.FIRST_COMPLETED
            )
            ticks.tell(f"{story.name}: {count} points so far")
            for more, own, wrong in (it.result() for it in ready):
                seen.update(own)
                found += wrong
                count += more


def points_for(asked: argparse.Namespace, name: str, story: Story) -> Any:
    """What makes the points of a part: all of them, or with --gate, outside of WHOLE, one in so
    many by the seed.
    """
    if not asked.gate or story.name in WHOLE[name]:
        return PARTS[name]
    if name == "power":
        return lambda story, counts: power(story, counts, one_in=ONE_IN)
    chance = random.Random(f"{asked.seed} {name} {story.name}")
    return lambda story, counts: (
        it for it in PARTS[name](story, counts) if chance.randrange(ONE_IN) == 0
    )


def part_of(asked: argparse.Namespace, name: str, story: Story) -> tuple[int, list[str]]:
    """Tries a part of a story, tells it in a line, and gives how many points there were and what
    was found.
    """
    begun, plain = time.monotonic(), story.known(story.all).answers
    count, seen, found = 0, collections.Counter[str](), [f"an undisturbed run answers {plain!r}"]
    if story.wanted in (None, plain):
        count, seen, found = tried(asked, points_for(asked, name, story), story)
    told = "; ".join(f"{number} {word}" for word, number in sorted(seen.items()))
    seconds = time.monotonic() - begun
    print(f"{name}, {story.name}: {count} points in {seconds:.0f} s: {told}", flush=True)
    for it in found[:20]:
        print(f"  FOUND {it[:1500]}", flush=True)
    if len(found) > 20:
        print(f"  FOUND {len(found)} in all", flush=True)
    return count, found


def parts(asked: argparse.Namespace, points: Seen, ends: Seen) -> None:
    """Tries all parts; adds up the points of each, and how many stories of parts passed and
    failed.
    """
    its = list(stories(asked))
    for name in asked.parts or PARTS:
        for story in its:
            if story.has_desk or name in ("wire", "memory"):
                count, found = part_of(asked, name, story)
                points[name] += count
                ends["failed" if found else "passed" if count else "without a point"] += 1


def planted(asked: argparse.Namespace, names: tuple[str, ...], points: Seen, ends: Seen) -> None:
    """Lies, which have to be found out; with --gate of power cuts one in so many."""
    one_in = ONE_IN if asked.gate else 1
    for story in stories(asked):
        for name, made in PLANTED.items() if story.name in names else ():
            points_of = lambda story, counts, made=made: made(story, counts, one_in)
            count, _seen, found = tried(asked, points_of, story)
            points["planted"] += count
            ends["passed" if found else "failed"] += 1
            as_told = f", as {found[0][:300]}" if found else ""
            told = f"{count} points, {len(found)} of them found out{as_told}"
            print(f"planted, {story.name}: {name}: {told}", flush=True)


def words(reader: argparse.ArgumentParser) -> None:
    program.offer(reader)
    reader.add_argument("--cases", type=pathlib.Path, default=ROOT / "cases")
    reader.add_argument("--jobs", type=int, default=max(1, (os.cpu_count() or 2) // 2))
    reader.add_argument("--most", type=int, default=1_000_000)
    reader.add_argument("--seed", type=int, help="1, and with --gate the commit's")
    reader.add_argument("--patience", type=float, default=300, help="seconds for one run")
    reader.add_argument("--only", help="the stories alone that have this in their names")
    reader.add_argument("--folder", default=in_memory(), help="where the desks are made")
    reader.add_argument("--planted", action="store_true")
    reader.add_argument("--gate", action="store_true")
    reader.add_argument("parts", nargs="*", metavar="PART")


def main(asked: argparse.Namespace, reader: argparse.ArgumentParser) -> int:
    if set(asked.parts) - set(PARTS):
        reader.error(f"the parts are {', '.join(PARTS)}")
    if asked.gate and not program.can_compile():
        why = "there is no C compiler here with the C library's headers"
        print(f"skipped: {why}: apt-get install gcc libc6-dev\n0 passed, 0 failed")
        return 0
    program.want("cc", "gcc libc6-dev")
    if asked.seed is None:
        asked.seed = program.seed_of_commit() if asked.gate else 1
    asked.program, begun = program.to_use(asked.program), time.monotonic()
    told = subprocess.run([asked.program, "--help"], capture_output=True, text=True).stdout
    asked.commands = re.findall(r"^  ([a-z-]+) ", told, re.M)
    asked.line = plant.next_to(asked.program, "line")
    if asked.line:
        asked.commands.append("line")
    else:
        why = f"tracedesk-line is not next to {asked.program}: dev/build --line, or LINE=FILE"
        print(f"skipped: {why}", flush=True)
    points: Seen = collections.Counter()
    ends: Seen = collections.Counter()
    with tempfile.TemporaryDirectory(prefix="calls-", dir=asked.folder) as folder:
        asked.library = f"{folder}/calls.so"
        options = ("-shared", "-fPIC", "-O1", "-fno-delete-null-pointer-checks")
        made = ["cc", *options, "-o", asked.library, str(ROOT / "dev/faults/calls.c")]
        subprocess.run(made, check=True)
        asked.rooms = Rooms(os.path.realpath(folder))
        if not asked.planted:
            parts(asked, points, ends)
        if asked.planted or asked.gate:
            planted(asked, (FED,) if asked.gate else (FED, "serve first_run"), points, ends)
    kinds = ", ".join(f"{name} {count:,}" for name, count in points.items())
    seconds = time.monotonic() - begun
    print(f"points: {kinds}; {points.total():,} in {seconds:.0f} s; the seed: {asked.seed}")
    print(f"{ends['passed']} passed, {ends['failed']} failed", flush=True)
    return 1 if ends["failed"] else 0
