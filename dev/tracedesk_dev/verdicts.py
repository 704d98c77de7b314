"""What the words of a check say of an edited crate.

A function that an edit changes may be not proved for two reasons. A goal of it does not hold: then
its contract refuses the edit. Or only a proof by hand no longer fits, since the edit took away a
name that the proof cites: `Goals has no ..`. That says nothing of the contract.
"""
import os
import re
from typing import Iterable

from tracedesk_dev import rattle
from tracedesk_dev.edits import files_of, read

PROVED, GOAL, MISFIT, CALLS = "proved", "goal", "misfit", "calls"  # of a function
LINE = re.compile(r"^(?:note: )?(?:\./)?([\w/.-]+?):(\d+):\d+: (?:error: )?(.*)$", re.M)
FUNCTION = re.compile(r"^fn (\S+): (proved|not proved|no proof)(.*)", re.M)
STATED = re.compile(r"^(?:pub )?(\S+) : goal\.", re.M)
UNREAD = re.compile(
    r"is not in scope|has no field|is no name|operand is missing|expected the end|cannot continue"
)
GONE = re.compile(r"has no field|is not in scope|has no `|was not admitted")
FALSE = "allow values at which this goal is false"


def unread(said: str, changed: Iterable[str]) -> str | None:
    """Returns what a check said of an edited text that cannot be read, as rt must-fail knows it
    from an error that only says that something is not proved."""
    for line in said.split("\n"):
        at = re.match(r"(?:\./)?(\S+?):\d+:\d+: error: (?:(`[^`]*`): )?(.*)", line)
        if not at or not (at[1] in changed or at[1].startswith(("src/", "specs/"))):
            continue
        if not at[2] or UNREAD.search(re.sub(r"`[^`]*`", "", at[3])):
            return f"the edited text cannot be read: {line}"
    return None


def first_error(said: str) -> str:
    lines = said.rstrip("\n").split("\n")
    return next((it for it in lines if re.search(r"error|not proved|no proof", it)), lines[-1])


def short(function: str) -> str:
    """Returns a method's name without its module: an impl may be in another one than its type, and
    a check tells of the type's.
    """
    owner, _, method = function.rpartition("::")
    name = owner.split("::")[-1]
    return f"{name}::{method}" if name[:1].isupper() else function


def lines_about(function: str, said: str, folder: str) -> list[str]:
    """Returns the lines that tell of a function's goals: of its proof's files, and of its code."""
    found = []
    for path, line, text in LINE.findall(said):
        at = f"{folder}/{path}"
        if path.startswith(f"proofs/{function.replace('::', '/')}/"):
            found.append(text)
        elif path.startswith("src/") and os.path.isfile(at):
            holds = rattle.source(path, read(at)).at_line(int(line))
            if holds and short(holds.full_name) == short(function):
                found.append(text)
    return found


def is_misfit(function: str, said: str, folder: str) -> bool:
    """Whether of a function that is not proved only the proof by hand no longer fits: it cites a
    name that is gone, and no goal that it answers fails, nor is one false at some values. A goal
    with a new name fails for want of an answer, whatever it says."""
    lines = lines_about(function, said, folder)
    files = files_of(folder, f"proofs/{function.replace('::', '/')}")
    answered = {name for it in files for name in STATED.findall(read(it))}
    others = [it for it in lines if not GONE.search(it)]
    fails = any(FALSE in it or answered & {*re.findall(r"`([^`]*)`", it)} for it in others)
    return len(others) < len(lines) and not fails


def told_of(said: str, crate: str, folder: str) -> dict[str, str]:
    """Returns what a check tells of each function, by its short name: that it is proved, that a
    goal fails or only a proof doesn't fit, or that it may only call one that is not proved.
    """
    told: dict[str, str] = {}
    for name, verdict, why in FUNCTION.findall(said):
        own = re.sub(r"it calls .*?, which (?:is|are) not (?:proved|stated)", "", why).strip(":; ")
        function = name.removeprefix(f"{crate}::")
        if verdict == "proved":
            told[short(function)] = PROVED
        elif why and not own:
            told[short(function)] = CALLS
        else:
            told[short(function)] = MISFIT if is_misfit(function, said, folder) else GOAL
    return told


def judged(
    status: int | None, said: str, changed: Iterable[str], crate: str, folder: str
) -> tuple[str, str]:
    """Returns what a check of the whole crate says of an edit: that a goal refuses it, that only a
    proof doesn't fit, or that it is proved; or nothing, and why."""
    if fault := unread(said, changed):
        return "", fault
    if "Run the lower steps again" in said:
        return "", "what is kept of a library could not be used"
    if status == 0:
        return PROVED, "the crate is still proved"
    if status != 1 or not re.search("^logic=not-proved", said, re.M):
        return "", f"the check ended with status {status} and no verdict: {first_error(said)}"
    errors = [text for path, _, text in LINE.findall(said) if path.startswith("proofs/")]
    told = {*told_of(said, crate, folder).values()}
    is_gone = bool(errors) and all(GONE.search(it) for it in errors)
    if GOAL in told or MISFIT not in told and not is_gone:
        return GOAL, ""
    return MISFIT, first_gone(said)


def first_gone(said: str) -> str:
    """The first line that tells of a name which is gone."""
    return next((it for it in said.split("\n") if GONE.search(it)), first_error(said))
