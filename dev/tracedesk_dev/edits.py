"""Edits of sources, as wrong bodies and wrong programs: how they are written, the texts that they
make, and the functions that they change.

A file of edits has those of one source: wrong-bodies/src/reel.edits changes src/reel.rt. Each edit
is its name in brackets and pairs of texts:

    [seal_forgets_what_was_counted]
    # why, where the name doesn't say it
    @ reel::Reel::seal
    -        self.row = self.row.sealed(at);
    +        self.row = ReelRow { used: 0, ..self.row.sealed(at) };

A text of lines with `-` occurs once in its source, and those with `+` take its place. A line with
`@` names the function that has the text, another source, or both.
"""
import dataclasses
import difflib
import itertools
import os
import re
from typing import Callable, Iterator, NamedTuple, Sequence, TypeVar

from tracedesk_dev import rattle

CALLED = re.compile(r"\b(\w+)(?:::<[^()]*>)?\(")
NAMED = re.compile(r"\[[\w.-]+\]")
KINDS = {"src": ".rt", "specs": ".antt", "proofs": ".antt"}


Judged = TypeVar("Judged")


class NotApplied(Exception):
    """Why an edit cannot be read or applied."""


class Change(NamedTuple):
    """A text of a source, or of a function of it, and what takes its place."""

    path: str
    function: str
    old: str
    new: str


@dataclasses.dataclass
class Edit:
    """An edit's name and its changes, in order, and why it is there; a sum of the texts that it is
    tried on; the functions that it changes, if nothing else, and the names of what they call; and
    whether others may call one whose contract it changes."""

    label: str
    changes: list[Change] = dataclasses.field(default_factory=list)
    notes: list[str] = dataclasses.field(default_factory=list)
    sum: str = ""
    functions: set[str] = dataclasses.field(default_factory=set)
    calls: set[str] = dataclasses.field(default_factory=set)
    is_apart: bool = False

    def meets(self, other: "Edit") -> bool:
        """Returns whether one check may not tell these two apart: they change one function, or the
        functions of one call those of the other.
        """
        own, others = ({name.split("::")[-1] for name in it.functions} for it in (self, other))
        return bool(self.functions & other.functions or self.calls & others or other.calls & own)


def read(path: str) -> str:
    with open(path, encoding="utf-8", newline="") as it:
        return it.read()


def write(path: str, text: str) -> None:
    with open(path, "w", encoding="utf-8", newline="") as it:
        it.write(text)


def files_of(folder: str, *parts: str) -> list[str]:
    return sorted(
        os.path.join(at, it)
        for part in parts or ("",)
        for at, _, found in os.walk(os.path.join(folder, part))
        for it in found
    )


# --- How edits are written


def source_of(file: str) -> str:
    """Returns the source whose edits a file has, as they are named from one folder."""
    stem = os.path.splitext(file)[0]
    return stem + KINDS.get(stem.partition("/")[0], "")


def sign_of(line: str) -> str:
    """Returns what kind of line this is: its first letter, or `?` where it is none."""
    if NAMED.fullmatch(line):
        return "["
    return line[:1] if line[:1] in ("", "-", "+", "@", "#") else "?"


def edits_in_file(owner: str, path: str, source: str) -> list[Edit]:
    """Returns the edits of a file, each named after its owner."""
    found: list[Edit] = []
    at, above, number = (source, ""), "", 1
    for sign, group in itertools.groupby(read(path).split("\n"), sign_of):
        lines = [line[1:] for line in group]
        changes = found[-1].changes if found else []
        if sign == "[":
            found += [Edit(f"{owner}/{it[:-1]}") for it in lines]
            at = (source, "")
        elif sign == "+" and above == "-":
            changes[-1] = changes[-1]._replace(new="\n".join(lines))
        elif sign == "-" and found:
            changes.append(Change(*at, "\n".join(lines), ""))
        elif sign == "@" and found:
            words = lines[-1].split()
            at = (*(it for it in words if "." in it), at[0])[0], " ".join(
                it for it in words if "." not in it
            )
        elif sign == "#" and found:
            found[-1].notes += [it.strip() for it in lines]
        elif sign:
            raise NotApplied(f"{path}:{number}: no [NAME], and no line of an edit")
        above, number = sign, number + len(lines)
    return found


def edit_of_kit(owner: str, path: str) -> Edit:
    """Returns the edit of a file as Rattle's kit reads it in must-fail, with lines `function:`."""
    name = os.path.basename(path)
    edit, at, function, old = Edit(f"{owner}/{name.removesuffix('.edit')}"), "", "", ""
    if not name.endswith(".edit"):
        raise NotApplied(f"{path}: its name does not end in .edit")
    for line in read(path).split("\n"):
        word, _, rest = line.partition(":")
        rest = rest.removeprefix(" ")
        if word == "file":
            at, function = rest.strip(), ""
        elif word == "function":
            function = rest.strip()
        elif word == "old":
            old = rest
        elif word == "new":
            if not at or not old:
                raise NotApplied(f"{path}: a 'new:' line has no 'file:' or 'old:' line before it")
            edit.changes.append(Change(at, function, old, rest))
            old = ""
        elif line:
            edit.notes.append(line)
    return edit


def edits_below(owner: str, folder: str) -> list[Edit]:
    """Returns the edits of all files in a folder: of a crate's wrong bodies, or wrong programs."""
    found: list[Edit] = []
    for path in files_of(folder):
        if not path.endswith(".edits"):
            raise NotApplied(f"{path} is no file of edits: `dev/wrong-bodies --take` takes it in")
        found += edits_in_file(owner, path, source_of(os.path.relpath(path, folder)))
    return found


def edits_of_gate(crate: str, folder: str) -> list[Edit]:
    """Returns the edits that the gate tries: what lies in must-fail and is no page."""
    at = f"{folder}/must-fail"
    names = sorted(os.listdir(at)) if os.path.isdir(at) else []
    return [edit_of_kit(crate, f"{at}/{it}") for it in names if not it.endswith(".md")]


def edits_of(crate: str, folder: str) -> list[Edit]:
    """Returns all edits of a crate: those that the gate tries, and its wrong bodies."""
    return edits_of_gate(crate, folder) + edits_below(crate, f"{folder}/wrong-bodies")


def lines_of(edit: Edit, source: str) -> Iterator[str]:
    """Yields the lines of an edit in the file of that source."""
    at = (source, "")
    yield f"[{edit.label.rpartition('/')[2]}]"
    yield from (f"# {it}" for it in edit.notes)
    for it in edit.changes:
        if (it.path, it.function) != at:
            yield " ".join(
                ("@", *[it.path] * (it.path != at[0]), *[it.function][: len(it.function)])
            )
            at = (it.path, it.function)
        yield from (f"-{line}" for line in it.old.split("\n"))
        yield from (f"+{line}" for line in it.new.split("\n") if it.new)
    yield ""


def write_edits(path: str, source: str, edits: Sequence[Edit]) -> None:
    os.makedirs(os.path.dirname(path), exist_ok=True)
    write(path, "\n".join(line for it in edits for line in lines_of(it, source)))


# --- What they make of a source


def span_of(function: str, path: str, text: str) -> tuple[int, int]:
    """Returns where a function's text begins and ends in its file, or the whole file where no
    function is named.
    """
    if not function:
        return 0, len(text)
    named = rattle.source(path, text).named(function)
    if len(named) != 1:
        raise NotApplied(f"{path} has {len(named)} functions {function}, and not one")
    return named[0].begin, named[0].end


def place_of(it: Change, text: str) -> int:
    """Returns where the old text of a change stands in its source."""
    first, last = span_of(it.function, it.path, text)
    if (count := text[first:last].count(it.old)) != 1:
        where = f"{it.function} of {it.path}" if it.function else it.path
        raise NotApplied(f"an old text is in {where} {count} times, and not once")
    return text.index(it.old, first)


def texts_of(edits: list[Edit], folder: str) -> tuple[dict[str, str], dict[str, str]]:
    """Returns the texts of the files that edits change, before and after, by their paths in the
    folder.
    """
    before: dict[str, str] = {}
    after: dict[str, str] = {}
    for it in (change for edit in edits for change in edit.changes):
        if it.path != os.path.normpath(it.path) or it.path.startswith(("/", "..")):
            raise NotApplied(f"{it.path} is no path in the folder")
        if not os.path.isfile(f"{folder}/{it.path}"):
            raise NotApplied(f"there is no file {it.path}")
        before.setdefault(it.path, read(f"{folder}/{it.path}"))
        text = after.setdefault(it.path, before[it.path])
        at = place_of(it, text)
        after[it.path] = text[:at] + it.new + text[at + len(it.old) :]
    if before == after:
        raise NotApplied("it changes nothing")
    return before, after


def with_edits(edits: list[Edit], folder: str, judge: Callable[[dict[str, str]], Judged]) -> Judged:
    """Returns what the judge finds of the folder under edits, and takes them back."""
    before, after = texts_of(edits, folder)
    try:
        for path, text in after.items():
            write(f"{folder}/{path}", text)
        return judge(after)
    finally:
        for path, text in before.items():
            write(f"{folder}/{path}", text)


def take_in(path: str) -> str:
    """Moves the edit of a file of the kit's form, right in a crate's wrong-bodies or must-fail or
    in wrong-programs, into the file of its source, in the order of the source's text. It replaces
    one of its name. Returns that file."""
    folder = os.path.dirname(os.path.abspath(path))
    base = os.path.dirname(folder)
    edit = edit_of_kit(os.path.basename(base), path)
    texts_of([edit], base)
    is_program = os.path.basename(folder) == "wrong-programs"
    place = folder if is_program else f"{base}/wrong-bodies"
    stem = "programs" if is_program else os.path.splitext(edit.changes[0].path)[0]
    target = f"{place}/{stem}.edits"
    for file in {target, *(it for it in files_of(place) if it.endswith(".edits"))}:
        source = source_of(os.path.relpath(file, place))
        old = edits_in_file("", file, source) if os.path.exists(file) else []
        new = [it for it in old if it.label.strip("/") != edit.label.split("/")[1]]
        if file == target:
            new = sorted([*new, edit], key=lambda it: order_in(base, it))
        if new and new != old:
            write_edits(file, source, new)
        elif not new:
            os.unlink(file)
    os.unlink(path)
    return target


def order_in(folder: str, edit: Edit) -> tuple[str, int]:
    """By what the edits of a file stand in order: the place of their first text."""
    it = edit.changes[0]
    try:
        return it.path, place_of(it, read(f"{folder}/{it.path}"))
    except (NotApplied, OSError):
        return it.path, -1


# --- The functions that they change


def is_named(function: str, folder: str) -> bool:
    """Returns whether more than a function's own line has its name, as what calls it would:
    comments and lists of names have it too.
    """
    rows = [row for it in files_of(folder, "src") for row in read(it).split("\n")]
    rows = [it for it in rows if not re.match(r"\s*(?://|(?:pub )?use |[\w:{}, ]+[,;]$)", it)]
    return sum(1 for it in rows if re.search(rf"\b{function.split('::')[-1]}\b", it)) > 1


def find_functions(edit: Edit, folder: str) -> None:
    """Finds the functions that an edit changes, if nothing besides, what they call, and whether
    others may call one whose contract it changes.
    """
    found: dict[str, bool] = {}
    calls: set[str] = set()
    before, after = texts_of([edit], folder)
    for path, text in after.items():
        of = rattle.source(path, before[path])
        matched = difflib.SequenceMatcher(None, of.text.split("\n"), text.split("\n"), False)
        for word, first, last, *_ in matched.get_opcodes():
            for line in range(first + 1, max(last, first + 1) + 1) if word != "equal" else ():
                function = of.at_line(line)
                if function is None:
                    return
                name = function.full_name
                found[name] = found.get(name, False) or line <= of.body_line(function)
                calls.update(CALLED.findall(of.text[function.begin : function.end]))
    edit.functions = {*found}
    edit.calls = calls.union(*(CALLED.findall(it.new) for it in edit.changes))
    edit.is_apart = any(is_above and is_named(it, folder) for it, is_above in found.items())
