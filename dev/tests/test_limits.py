"""Each limit is in crates/desk_types/src/limits.rt. dev/api takes it from there, for the files that
it makes. Where else its number is written is listed here: who changes a limit gets the list of all
that still has the old number.
"""
import re
import subprocess

from tracedesk_dev import ROOT
from tracedesk_dev.limits import SOURCE, limits

# tests and cases name numbers at a limit's edge on purpose, and proofs compute with them
ASIDE = re.compile(
    r"cases/|wrong-programs/|(?:.*/)?(?:tests?|wrong-bodies|must-fail)/|crates/\w+_tests/"
    r"|.*\.(?:antt|png|svg|gz|jsonl)$|packaging/(?:third-parties|tracedesk\.spdx)"
    # made by dev/api, and compared by test_api.py
    r"|docs/api/|clients/python/tracedesk/(?:limits|words)\.py|station/limits\.js"
)
ROW = re.compile(r"^\|.*\n", re.M)  # dev/api makes the tables of docs/messages.md too
PLACES = {
    "FURTHEST_AHEAD": "crates/desk_types/src/answer.rt docs/definitions.md docs/messages.md",
    "GREATEST_LABEL": (
        # level 2 has the same number
        "crates/desk_types/src/level.rt dev/tracedesk_dev/reports.py docs/lesson.md"
        " ops/tracedesk_ops/desk_tables.py"
    ),
    "GREATEST_MINUTE": "",
    "GREATEST_QUANTITY": (
        "crates/cfx_profile/src/forms.rt crates/desk_types/src/number.rt docs/files.md"
    ),
    "LONGEST_INPUT": (
        "README.md crates/chain_files/README.md crates/desk_feed/src/feeding.rt"
        " crates/http_stream/README.md crates/imports/src/fault.rt crates/imports/src/law.rt"
        " dev/memory-origins.txt docs/api.md docs/files.md docs/http.md docs/messages.md"
        " docs/operations-faults.md packaging/nginx.conf"
    ),
    "MOST_ENTRIES": (
        "README.md crates/desk_file/src/opening.rt crates/desk_words/src/command_line.rt"
        " crates/line_schema/src/fault.rt crates/line_schema/src/store.rt"
        " crates/line_schema/src/store/book.rt docs/api.md docs/messages.md"
    ),
    "MOST_READS": "docs/messages.md",
}
# their numbers are found for other reasons too
OTHERS = {
    "BLOCK": "",
    "HEAD_LIMIT": "crates/http_stream/README.md docs/http.md",
    "LONGEST_DESIGNATOR": "crates/desk_types/src/designator.rt",
    "LONGEST_ID": (
        "crates/desk_types/src/id.rt docs/connect.md docs/http.md"
        " ops/tracedesk_ops/cmd/move.py ops/tracedesk_ops/options.py station/names.js"
        " station/texts.js station/texts-de.js station/texts-es.js station/texts-zh.js"
    ),
    "LONGEST_LIST": (
        "crates/desk_types/src/count.rt crates/desk_types/src/list.rt"
        " crates/desk_types/src/sheet.rt crates/imports/src/fault.rt crates/imports/src/law.rt"
        " dev/memory-origins.txt docs/files.md docs/messages.md"
    ),
    "MOST_BOARDS": (
        "crates/desk_types/src/boards.rt docs/http.md"
        " station/texts.js station/texts-de.js station/texts-es.js station/texts-zh.js"
    ),
    "MOST_CONNECTIONS": ("crates/desk_words/src/command_line.rt docs/http.md station/setup.js"),
    "MOST_DIGITS": "",
    "MOST_HEADERS": "crates/http_stream/README.md docs/http.md",
    "MOST_PORT": "crates/desk_words/src/command_line.rt packaging/tracedesk@.service",
    "ONE_WRITE": "",
    "PAGE_SIZE": "docs/DECISIONS.md",
}


def tracked() -> dict[str, str]:
    """The texts of all tracked files that may name a limit."""
    words = ["git", "-C", str(ROOT), "ls-files"]
    names = subprocess.run(words, check=True, capture_output=True, text=True).stdout.split()
    files = {it: ROOT / it for it in names if not ASIDE.match(it) and ROOT / it != SOURCE}
    texts = {
        name: file.read_text(encoding="utf-8", errors="replace")
        for name, file in files.items()
        if file.is_file()
    }
    texts["docs/messages.md"] = ROW.sub("", texts["docs/messages.md"])
    return texts


def form(number: int) -> re.Pattern[str]:
    """The number as a page, a program or a table writes it."""
    written = (str(number), *(f"{number:,}".replace(",", it) for it in "_,."))
    forms = "|".join(map(re.escape, written))
    return re.compile(rf"(?<![\d.,_])(?:{forms})(?![\d_]|[.,]\d)")


def test_each_place_of_a_limit_has_its_number() -> None:
    its = limits()
    assert its.keys() == PLACES.keys() | OTHERS.keys()
    files = tracked()
    for name, listed in (PLACES | OTHERS).items():
        number = form(its[name].number)
        there = {file for file, text in files.items() if number.search(text)}
        lacking, unlisted = set(listed.split()) - there, there - set(listed.split())
        number_is = f"{name} is {its[name].number}"
        assert not lacking, f"{number_is}, which these don't say: {sorted(lacking)}"
        assert name in OTHERS or not unlisted, f"list where {name} stands too: {sorted(unlisted)}"
