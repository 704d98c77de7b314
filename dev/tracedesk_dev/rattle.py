"""The one reader of Rattle's sources for the tools: the crates, and the functions, types and uses
of a file. It goes by the layout of `rt fmt`, which the gate wants: an item begins at the left, and
a method four columns in.
"""
import dataclasses
import functools
import pathlib
import re
from typing import Iterator, NamedTuple

from tracedesk_dev import ROOT

LITERAL = re.compile(
    r"""(//[^\n]*|/\*.*?\*/)|b?r(#*)".*?"\2|b?"(?:[^"\\]|\\.)*"|b?'(?:[^'\\\n]|\\[^\n][^'\n]*)'""",
    re.S,
)
GHOST = re.compile(r"\b(?:requires|ensures)\b[^{};]*\{|\bghost\b[^{};]*[{;]")
PUBLIC = r"(pub(?:\([^)]*\))? )?"
BLOCK = re.compile(rf"^{PUBLIC}(?:unsafe )?(?:impl|trait)\b[^{{;]*\{{", re.M)
FUNCTION = re.compile(rf"^( *){PUBLIC}(?:[a-z]+ )*fn (\w+)", re.M)
ITEM = re.compile(rf"^{PUBLIC}(struct|enum|trait|type|const|mod) (?!fn\b)(\w+)", re.M)
USE = re.compile(rf"^ *{PUBLIC}use ((?:\w+::)+)(?:\{{([^}}]*)\}}|(\w+(?: as \w+)?));", re.M)
ENUM = re.compile(r"^(?:pub )?enum (\w+)[^{;]*\{\n(.*?)^\}", re.M | re.S)
ENDS = re.compile(r";(?![^\[\]{}]*\])")  # not that of an array
CLAUSE = re.compile(r"^ *(?:requires|ensures)\b *(\w*)", re.M)
ABOVE = re.compile(r"(?:^ *(?:///|#\[).*\n)*\Z", re.M)
TRAIT = re.compile(r"\btrait (\w+)|(\w+)(?:<[^{]*>)? for\b")


# --- Crates


def crates(root: pathlib.Path = ROOT) -> dict[str, list[str]]:
    """The crates of crates.txt, each after those that it stands on, with the crates and the
    libraries of the kit that its line names.
    """
    rows = [
        line.partition("#")[0].partition(":")
        for line in (root / "crates.txt").read_text(encoding="utf-8").splitlines()
    ]
    named = {name.split()[0]: deps.split() for name, _, deps in rows if name.strip()}
    found: dict[str, list[str]] = {}

    def add(name: str) -> None:
        if name in named and name not in found:
            for dep in named[name]:
                add(dep)
            found[name] = named[name]

    for name in named:
        add(name)
    return found


def below(crate: str, root: pathlib.Path = ROOT) -> list[str]:
    """The repository's crates that one stands on, each after those below it."""
    known = crates(root)
    wanted = {crate}
    for name in reversed(known):
        wanted |= {*known[name]} if name in wanted else set()
    return [name for name in known if name in wanted and name != crate]


def is_test(path: str) -> bool:
    """Whether a source, by its path from the crate's folder, is read by tests alone."""
    parts = path.split("/")
    return "tests" in parts or parts[-1] == "tests.rt"


def sources(folder: pathlib.Path) -> Iterator["Source"]:
    """The sources of a crate, tests too."""
    for path in sorted((folder / "src").rglob("*.rt")):
        yield source(path.relative_to(folder).as_posix(), path.read_text(encoding="utf-8"))


@functools.lru_cache(maxsize=4096)
def source(path: str, text: str) -> "Source":
    return Source(path, text)


# --- A source


class Use(NamedTuple):
    """What a `use` brings: names of a path, by the names that they have here."""

    path: list[str]
    names: dict[str, str]
    is_public: bool


@dataclasses.dataclass(frozen=True)
class Block:
    """An `impl` or a `trait`: its head, and where it begins and ends."""

    head: str
    is_public: bool
    begin: int
    end: int

    @property
    def trait(self) -> str:
        """The name of its trait, or nothing."""
        found = TRAIT.search(self.head)
        return (found[1] or found[2]) if found else ""

    @property
    def is_trait(self) -> bool:
        return "trait" in self.head.split()[:2]

    @property
    def type(self) -> str:
        """The name of its type, without parameters; nothing for a trait."""
        if self.is_trait:
            return ""
        owner = self.head.removeprefix("impl").rpartition(" for ")[2]
        return re.sub(r"<[^<>]*>", "", owner).split("::")[-1].strip()

    @property
    def name(self) -> str:
        """The name by which a check tells of its functions."""
        return self.trait if self.is_trait else name_of_impl(self.head)


@dataclasses.dataclass(frozen=True)
class Function:
    """A function: the places of its line, of the brace of its body and of its end; what stands
    above it, and its contract with its head.

    Without a body, `body` is `end`."""

    name: str
    path: str
    block: Block | None
    is_public: bool
    begin: int
    body: int
    end: int
    line: int
    above: str
    head: str
    is_empty: bool

    @property
    def full_name(self) -> str:
        """Its name as a check prints it, within its crate."""
        parts = self.path.removeprefix("src/").removesuffix(".rt").split("/")
        module = [it for it in parts if it not in ("lib", "main")]
        owner = [self.block.name] if self.block else []
        return "::".join([*module, *owner, self.name])

    @property
    def clauses(self) -> list[str]:
        """The names of its clauses, in order."""
        return CLAUSE.findall(self.head)


class Source:
    """A file of code: its text; the code without comments and literals; the plain code, without
    contracts and ghost items too; and its literals. All have the same places."""

    def __init__(self, path: str, text: str) -> None:
        self.path, self.text = path, text
        self.code, self.literals = code_of(text)
        self.plain = without(self.code, GHOST)
        self.blocks = [
            Block(
                head=" ".join(it[0].removeprefix("pub ").rstrip("{").split()),
                is_public=it[1] == "pub ",
                begin=it.start(),
                end=closing(self.plain, it.end() - 1),
            )
            for it in BLOCK.finditer(self.plain)
        ]
        self.functions = [self.function(it) for it in FUNCTION.finditer(self.plain)]
        self.uses = [
            Use(
                it[2].strip(":").split("::"),
                {name.partition(" as ")[2] or name: name.partition(" as ")[0] for name in names},
                it[1] == "pub ",
            )
            for it in USE.finditer(self.plain)
            if (names := [name for part in (it[3] or it[4]).split(",") if (name := part.strip())])
        ]
        self.items = [(it[2], it[3], it[1] == "pub ") for it in ITEM.finditer(self.plain)]

    def function(self, found: re.Match[str]) -> Function:
        brace = self.plain.find("{", found.end())
        ends = ENDS.search(self.plain, found.end())
        if brace < 0 or ends and ends.start() < brace:
            body = end = ends.end() if ends else len(self.plain)
        else:
            body, end = brace, closing(self.plain, brace)
        at = found.start()
        return Function(
            name=found[3],
            path=self.path,
            block=next((it for it in self.blocks if found[1] and it.begin < at < it.end), None),
            is_public=found[2] == "pub ",
            begin=at,
            body=body,
            end=end,
            line=self.text.count("\n", 0, at) + 1,
            above=above[0] if (above := ABOVE.search(self.text[:at])) else "",
            head=self.text[at:body],
            is_empty=not self.text[body + 1 : end - 1].strip(),
        )

    def enums(self) -> list[tuple[str, str]]:
        """Its enums, each with its text."""
        return ENUM.findall(self.code)

    def seen_above(self) -> str:
        """Its text as a crate above sees it: without the bodies of functions that have a clause."""
        text = self.text
        for it in reversed(self.functions):
            if it.clauses:
                text = text[: it.body] + text[it.end :]
        return text

    def named(self, function: str) -> list[Function]:
        """Its functions of a full name."""
        return [it for it in self.functions if it.full_name == function]

    def at_line(self, line: int) -> Function | None:
        """The function that has a line, from 1."""
        found = (it for it in self.functions if it.line <= line <= self.last_line(it))
        return next(found, None)

    def last_line(self, function: Function) -> int:
        return function.line + self.text.count("\n", function.begin, function.end)

    def body_line(self, function: Function) -> int:
        """The line on which its body begins."""
        return function.line + self.text.count("\n", function.begin, function.body)


# --- Its code


def closing(text: str, at: int) -> int:
    """Returns where the brace at this place closes."""
    depth = 0
    for found in re.compile(r"[{}]").finditer(text, at):
        depth += 1 if found[0] == "{" else -1
        if depth == 0:
            return found.end()
    return len(text)


def code_of(text: str) -> tuple[str, dict[int, str]]:
    """Returns a text without comments and literals, and its literals by place."""
    parts, literals, at = [], {}, 0
    for found in LITERAL.finditer(text):
        parts += [text[at : found.start()], re.sub(r"[^\n]", " ", found[0])]
        at = found.end()
        if not found[1]:
            literals[found.start()] = found[0]
    return "".join([*parts, text[at:]]), literals


def without(code: str, what: re.Pattern[str]) -> str:
    """Returns a code without what is found, each up to its closing brace where it ends by one."""
    parts, at = [], 0
    while found := what.search(code, at):
        end = closing(code, found.end() - 1) if found[0].endswith("{") else found.end()
        parts += [code[at : found.start()], re.sub(r"[^\n]", " ", code[found.start() : end])]
        at = end
    return "".join([*parts, code[at:]])


# --- The names that a check prints


def owner_name(text: str) -> str:
    """Returns the name of an impl's type: of a tuple its length, then the parts that are no type
    parameters, and `Ref` before a type that is borrowed.
    """
    text = re.sub(r"^&'\w+\s", "&", text.strip())
    if text.startswith("&"):
        return "Ref" + owner_name(text[1:])
    if not text.startswith("("):
        name = re.sub(r"<.*", "", text).split("::")[-1]
        return name[:1].upper() + name[1:]
    parts = re.findall(r"(?:[^,()<>]|<[^<>]*>|\([^()]*\))+", text[1:-1])
    names = [owner_name(it) for it in parts if it.strip()]
    return f"Tuple{len(names)}" + "".join(it for it in names if len(it) > 1)


def name_of_impl(head: str) -> str:
    """Returns the name by which a check tells of an impl's functions: its type, then its trait with
    the trait's arguments.
    """
    head = re.sub(r"^impl(?:<(?:[^<>]|<[^<>]*>)*>)? ", "", head.split(" where ")[0])
    trait, _, owner = head.rpartition(" for ")
    words = re.findall(r"\w+", re.sub(r"'\w+", "", trait.partition("<")[2]))
    name = re.sub(r"<.*", "", trait).split("::")[-1]
    return owner_name(owner.rstrip(" {")) + name + "".join(it[0].upper() + it[1:] for it in words)
