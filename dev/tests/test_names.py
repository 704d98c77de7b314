"""The files, functions, types and clauses that a page names are there."""
import collections
import pathlib
import re
import subprocess

from tracedesk_dev import ROOT

WORD = re.compile(r"[A-Za-z_][A-Za-z0-9_]*")
NAME = re.compile(rf"{WORD.pattern}(?:::{WORD.pattern})*(?:\(\))?")
FILE = re.compile(
    r"[\w.-]+(?:/[\w.-]+)*\.(?:rt|antt)|[\w.-]+(?:/[\w.-]+)+\.(?:py|js|sql|json|md|edit|sh|toml)"
)
HISTORY = ("CHANGELOG.md", "docs/figures.md")  # these name what was measured or changed
ELSEWHERE = {
    "sqlite_std_file/README.md",
    "AnswerBase64",
    "RequestBase64",
}  # of the kit, or put together
MOST = 2_000_000  # bytes of a file that is looked into


def texts() -> dict[str, str]:
    """The texts of the repository, by path."""
    listed = subprocess.run(["git", "ls-files"], cwd=ROOT, capture_output=True, text=True).stdout
    found = {}
    for path in listed.splitlines():
        file = ROOT / path
        if file.is_file() and file.stat().st_size < MOST:
            found[path] = file.read_bytes().decode("utf-8", "replace")
    return found


def is_told(name: str) -> bool:
    """Whether a text in backquotes names code: it has a part of a path, an underscore or letters of
    two cases.
    """
    return bool(re.search(r"_|::|[a-z][A-Z]", name))


def missing(text: str, page: str, words: set[str], paths: set[str]) -> set[str]:
    found = set()
    for span in re.findall(r"`([^`\n]+)`", text):
        if NAME.fullmatch(span) and is_told(span):
            if not {*WORD.findall(span)} <= words:
                found.add(span)
        elif FILE.fullmatch(span) and not re.search(r"NAME|HASH|\bx\.rt", span):
            near = pathlib.PurePosixPath(page).parent / span
            if str(near) not in paths and not any(f"/{it}".endswith(f"/{span}") for it in paths):
                found.add(span)
    return found - ELSEWHERE


def test_what_a_page_names_is_there() -> None:
    all_texts = texts()
    codes = [text for path, text in all_texts.items() if not path.endswith(".md")]
    words = {word for text in codes for word in WORD.findall(text)}
    words |= {word for path in all_texts for word in WORD.findall(path)}
    faults: dict[str, set[str]] = collections.defaultdict(set)
    for page, text in all_texts.items():
        if page.endswith(".md") and page not in HISTORY:
            blocks = "\n".join(re.findall(r"```.*?```", text, re.S))
            plain = re.sub(r"```.*?```", "", text, flags=re.S)
            there = words | {*WORD.findall(blocks)}
            if found := missing(plain, page, there, {*all_texts}):
                faults[page] |= found
    assert not faults, dict(faults)
