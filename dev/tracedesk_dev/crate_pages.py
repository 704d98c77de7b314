"""The page of a crate, compared with its sources."""
import pathlib
import re
from typing import Any, Iterator

from tracedesk_dev import rattle

CODE = re.compile(r"`([^`]+)`")
TOPIC = re.compile(r"(?://!|--) \S")  # the first line of a source or of a definition file
NAMED = re.compile(
    r"\[`([^`.\n]+)`\]\(([^)#\s]+\.(?:antt|rt))\)"
)  # a name, and the file that has it
NAMED_FILE = re.compile(
    r"(?:(?:src|specs|proofs|must-fail|wrong-bodies)/[\w./*-]*|[\w/*-]+\.(?:rt|antt|edit))"
)


class Crate:
    """The public names of a crate, and all names in it."""

    def __init__(self, folder: pathlib.Path) -> None:
        self.folder = folder
        self.functions: set[str] = set()
        self.types: set[str] = set()
        self.read = {it.path: it for it in rattle.sources(folder) if not rattle.is_test(it.path)}
        for root in (it for it in ("src/lib.rt", "src/main.rt") if it in self.read):
            self.publish(self.read[root], None, "", root == "src/main.rt")
        methods = [
            (f"{owner}::{it.name}", it.is_public or it.block.is_trait)
            for of in self.read.values()
            for it in of.functions
            if it.block and (owner := it.block.type or it.block.trait) in self.types
            if it.is_public or it.block.trait
        ]
        self.functions |= {name for name, is_public in methods if is_public}
        self.known = self.functions | self.types | {name for name, _ in methods}

    def child(self, of: rattle.Source, name: str) -> rattle.Source | None:
        """The source of a module that another declares."""
        stem = of.path.removesuffix(".rt")
        stem = "src" if stem in ("src/lib", "src/main") else stem
        return self.read.get(f"{stem}/{name}.rt") or self.read.get(f"{stem}/{name}/mod.rt")

    def publish(
        self, of: rattle.Source, names: set[str] | None, before: str, all_of_it: bool = False
    ) -> None:
        """Adds what a module shows: the names that a `use` asks for, or all that is `pub` where
        none are asked for. Of a program, which nobody calls, that is what each of its modules shows
        to `main`."""
        shown = [it.name for it in of.functions if it.is_public and not it.block]
        self.functions |= {f"{before}{it}" for it in shown if names is None or it in names}
        public = {name for kind, name, is_public in of.items if is_public and kind != "mod"}
        self.types |= public if names is None else public & names
        for use in (it for it in of.uses if it.is_public):
            asked = {it for it in use.names.values() if names is None or it in names}
            inner: rattle.Source | None = of
            for name in use.path[use.path[0] == "self" :]:
                inner = self.child(inner, name) if inner else None
            if inner and asked:
                self.publish(inner, asked, before)
        for kind, name, is_public in of.items if names is None else []:
            inner = self.child(of, name)
            if kind == "mod" and (is_public or all_of_it) and inner:
                self.publish(inner, None, before if all_of_it else f"{before}{name}::")


def clauses_of(root: pathlib.Path) -> dict[str, set[str]]:
    """The names of the clauses of each function, by its name."""
    found: dict[str, set[str]] = {}
    for crate in rattle.crates(root):
        for of in rattle.sources(root / "crates" / crate):
            for it in of.functions:
                found.setdefault(it.name, set()).update(it.clauses)
    return found


def rows_of(text: str) -> list[list[str]]:
    """The rows of the tables of a text: of each its header and its cells."""
    header = None
    found: list[Any] = []
    for line in text.splitlines():
        if not line.startswith("|"):
            header = None
            continue
        cells = [it.strip() for it in re.split(r"(?<!\\)\|", line)[1:-1]]
        if header is None:
            header = cells
        elif not all(re.fullmatch(r":?-+:?", it) for it in cells):
            found.append((header, cells))
    return found


def sections(text: str) -> dict[str, str]:
    """The parts of a page by their headings of the second level."""
    parts = re.split(r"^## (.+)$", text, flags=re.M)
    return dict(zip(parts[1::2], parts[2::2]))


def file_faults(text: str, folder: pathlib.Path) -> Iterator[str]:
    """Files that are named and not there, and files of src/ and specs/ that don't begin with their
    topic.
    """
    for header, cells in rows_of(sections(text).get("Files", "")):
        for place, cell in zip(header, cells):
            kind = place.strip("`/")
            if kind not in ("src", "specs", "proofs"):
                continue
            named = [
                (name, other)
                for names, other in re.findall(r"\(([^)]*) of `(\w+)`\)", cell)
                for name in CODE.findall(names)
            ]
            named += [
                (name, None) for name in CODE.findall(re.sub(r"\([^)]* of `\w+`\)", "", cell))
            ]
            for name, other in named:
                whole = f"{kind}/{name}" + ("" if kind == "src" else ".antt")
                at = folder.parent / other if other else folder
                if not list(at.glob(whole)):
                    yield f"{at.name}/{whole} is not there"
    for name, other in re.findall(r"`([^`\s]+)`(?: of `(\w+)`)?", text):
        at = folder.parent / other if other and (folder.parent / other).is_dir() else folder
        if not NAMED_FILE.fullmatch(name):
            continue
        if not [
            it
            for form in (
                name,
                f"{name}.antt",
                f"src/**/{name}",
                f"specs/{name}",
                f"proofs/**/{name}",
            )
            for it in at.glob(form)
        ]:
            yield f"{at.name}/{name} is not there"
    wanted = [*(folder / "src").rglob("*.rt"), *(folder / "specs").rglob("*.antt")]
    for file in (it for it in wanted if it.name != "Lib.antt"):
        if not TOPIC.match(file.read_text(encoding="utf-8")):
            yield f"{file.relative_to(folder)} doesn't begin with a line that says its topic"


def contract_faults(text: str, crate: Crate) -> Iterator[str]:
    """Names with which a bullet or a row under "Main contracts" begins, and that the crate doesn't
    have.
    """
    part = sections(text).get("Main contracts", "")
    heads = [cells[0] for _, cells in rows_of(part)] + re.findall(
        r"^- ((?:`[^`]+`(?:, | and )?)+)", part, re.M
    )
    for head in heads:
        owner = None
        for name in CODE.findall(head):
            name = name.split()[-1] if name.startswith("impl ") else name
            if NAMED_FILE.fullmatch(name):
                continue
            if name not in crate.known and f"{owner}::{name}" in crate.known:
                name = f"{owner}::{name}"
            owner = name.rpartition("::")[0] or owner
            if name not in crate.known:
                yield f"`{name}` is no public function, type or trait of the crate"
