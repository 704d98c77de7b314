"""How a run that met a fault is judged: by its answers, its status and its file."""
import re
from typing import Any
from tracedesk_dev.fault_stories import Files, Got, Seen, Story, tables
from tracedesk_dev.trial import Difference as Found

KEPT = re.compile(rb'"Answer":"(Accepted|Decided|Held)"')


def judge(story: Story, got: Got, files: Files, seen: Seen, may_be_done: bool = True) -> None:
    """Judges what a run answered, and the files that it left; where it may be, a part at hand may
    be done in them.
    """
    done = tuple(
        part for part, answer in enumerate(got.answers) if not story.is_unavailable(answer)
    )
    known = story.known(done).answers
    if [got.answers[part] for part in done] != known:
        raise Found(
            f"answers {got.answers!r}, where an undisturbed run of those that were not Unavailable"
            f" gives {known!r}"
        )
    may = [done] + [done + (part,) for part in at_hand(story, got)]
    if got.rest and not any(
        answer.startswith(got.rest)
        for answer in (*story.refusals, *(story.known(order).answers[-1] for order in may[1:]))
    ):
        raise Found(f"the last answer begins with {got.rest!r}")
    if not may_be_done or got.status in (0, 1) and len(got.answers) == len(story.parts):
        may = may[:1]
    seen["with a line that was Unavailable"] += len(done) < len(got.answers)
    seen["of these with a later line that was taken"] += any(
        part < last for part in range(len(got.answers)) if part not in done for last in done[-1:]
    )
    if story.has_desk and story.is_new(files, may):
        judge_files(story, files, may, seen)


def at_hand(story: Story, got: Got) -> list[int]:
    """The parts of which one may be done without an answer that says so: the one behind the last
    answer, and those that were answered Unavailable since the last that was surely kept."""
    kept = (at for at, it in enumerate(got.answers) if KEPT.search(it))
    parts = story.all[max(kept, default=-1) + 1 : len(got.answers) + 1]
    answers = dict(enumerate(got.answers))
    return [it for it in parts if it not in answers or story.is_unavailable(answers[it])]


def judge_files(story: Story, files: Files, may: Any, seen: Seen) -> None:
    audit, after = story.audit(files)
    if not story.start and may[0] == () and audit == (b"", b"tracedesk: NotADesk\n", 3):
        order, files = (), {}
        seen["files: no desk was made yet"] += 1
    else:
        orders = [it for it in may if story.known(it).audit == audit]
        orders = [it for it in orders if story.known(it).tables == tables(after["desk"])]
        if not orders:
            raise Found(
                f"audit says {audit!r}, and the rows are not those of any of the parts {may}"
            )
        order, as_answered = orders[0], "no more was done than was answered"
        seen[f"files: {as_answered if order == may[0] else 'the part at hand was done'}"] += 1
    wanted = story.known(order + story.all)
    answers, _status, after = story.plainly(story.all, files)
    if answers != wanted.answers[len(order) :]:
        raise Found(f"sent again after the parts {order}: {answers!r}")
    if tables(after["desk"]) != wanted.tables:
        raise Found(f"sent again after the parts {order}: other rows")


def judge_status(story: Story, got: Got, kind: str) -> None:
    """The status, and what was told, of a run whose answers are judged, and in which calls of this
    kind failed.
    """
    told = got.told.decode(errors="replace")
    if not told and story.is_whole(got) and got.status in story.statuses(got.answers):
        return
    if (told, got.status) not in story.faults(kind):
        raise Found(f"status {got.status}, {told!r}")


def stopped(story: Story, kind: str, fail: str, seen: Seen, got: Got | None = None) -> None:
    """A run in which calls fail."""
    got = got or story.failed(fail)
    may_be_done = kind not in ("memory", "input") or story.may_be_done_unsaid
    judge(story, got, got.files, seen, may_be_done)
    judge_status(story, got, kind)
    is_once = is_refused_once(fail)
    if is_once and sum(map(story.is_unavailable, got.answers)) > 1:
        raise Found(
            f"memory was refused once, and more than one answer is Unavailable: {got.answers!r}"
        )
    seen[f"status {got.status}{' ' + got.told.decode().strip() if got.told else ''}"] += 1


def is_refused_once(fail: str) -> bool:
    """Whether one allocation fails, and nothing else."""
    words = fail.split()
    return len(words) == 4 and words[0] == "memory" and words[1] == words[2]


def unchanged(story: Story, kind: str, fail: str, seen: Seen, got: Got | None = None) -> None:
    """A run in which calls do less than was asked: its answers are those of an undisturbed one."""
    got, known = got or story.failed(fail), story.known(story.all)
    if (got.answers, got.rest, got.told, got.status) != (known.answers, b"", b"", known.status):
        raise Found(f"status {got.status}, {got.told!r}, answers {got.answers!r} {got.rest!r}")
    judge(story, got, got.files, seen)
    seen["as undisturbed"] += 1


def killed(story: Story, kind: str, fail: str, seen: Seen, got: Got | None = None) -> None:
    """A run that is killed."""
    got = got or story.failed(fail)
    if got.status != -9:
        raise Found(f"status {got.status}, {got.told!r}, and the program was killed")
    judge(story, got, got.files, seen)
