"""Pages name no option that a tool doesn't have, and tools and units no page or heading that their
package doesn't have.
"""
import functools
import re
import subprocess
import sys

from tracedesk_dev import ROOT
from tracedesk_ops import cli

TOOLS = {
    tool.name: tool
    for folder in ("ops", "clients/python", "examples/bridge")
    for tool in (ROOT / folder).glob("tracedesk-*")
    if tool.is_file() and not tool.suffix
}
BLOCK = re.compile(r"^```(\w*)\n(.*?)^```$", re.M | re.S)
SPAN = re.compile(r"`([^`\n]+)`")
QUOTED = re.compile(r"'[^'\n]*'|\"[^\"\n]*\"")
CALL = re.compile(r"\b(tracedesk-[a-z-]+)\b([^|;&>]*)")
OPTION = re.compile(r"(?<![\w-])--[a-z][a-z-]*")


@functools.cache
def options(tool: str) -> set[str]:
    found = set()
    subcommands = (*cli.SUBCOMMANDS, *cli.APART) if tool == "tracedesk-ops" else ()
    for subcommand in ("", *subcommands):
        words = [sys.executable, str(TOOLS[tool]), *filter(None, [subcommand]), "--help"]
        found |= set(OPTION.findall(subprocess.run(words, capture_output=True, text=True).stdout))
    return found


def calls(text: str) -> list[tuple[str, str]]:
    """The tools that the code of a page calls, each with an option."""
    blocks = [code for kind, code in BLOCK.findall(text) if kind == "sh"]
    code = blocks + SPAN.findall(BLOCK.sub("", text))
    lines = [line for part in code for line in part.replace("\\\n", " ").splitlines()]
    found = [call for line in lines for call in CALL.findall(QUOTED.sub("", line))]
    return [(tool, it) for tool, rest in found if tool in TOOLS for it in OPTION.findall(rest)]


def test_a_page_names_no_option_that_the_tool_does_not_have() -> None:
    pages = [*ROOT.glob("*.md"), *ROOT.glob("docs/*.md"), *ROOT.glob("packaging/*.md")]
    named = {(page.name, *call) for page in pages for call in calls(page.read_text())}
    assert len(named) > 50
    assert not [call for call in sorted(named) if call[2] not in options(call[1])]


NAMED = re.compile(r"\b(?:docs/)?([a-z-]+)\.(?:md|html), ?(?:#\s*)?([\"'])([A-Z][^\"'\n]*)\2")
TOLD = re.compile(r"/([a-z-]+)\.html, ([A-Z][^\"'\n]*)\"")
LED_TO = re.compile(r"^Documentation=file:///usr/share/doc/([a-z-]+)/([a-z-]+)\.html$", re.M)
QUOTED_BY_ALERT = re.compile(r"^ +do: .*'([A-Z][^']*)'", re.M)


def headings(page: str) -> list[str]:
    text = BLOCK.sub("", (ROOT / f"docs/{page}.md").read_text(encoding="utf-8"))
    return re.findall(r"^#+ (.*)", text, re.M)


def test_a_text_of_a_tool_or_a_package_names_a_heading_that_is_there() -> None:
    listed = ["git", "-C", str(ROOT), "ls-files", "ops", "clients", "debian", "packaging"]
    files = subprocess.run(listed, capture_output=True, text=True, check=True).stdout.split()
    named = set()
    for file in (it for it in files if "/tests/" not in it and not it.endswith(".md")):
        text = (ROOT / file).read_text(encoding="utf-8", errors="replace")
        named |= {(file, page, heading) for page, _, heading in NAMED.findall(text)}
        named |= {(file, page, heading) for page, heading in TOLD.findall(text)}
    assert len(named) > 6
    assert not [it for it in sorted(named) if it[2] not in headings(it[1])]
    alerts = (ROOT / "packaging/prometheus/tracedesk-alerts.yml").read_text(encoding="utf-8")
    there = headings("operations-daily") + headings("operations-faults")
    assert not [it for it in QUOTED_BY_ALERT.findall(alerts) if it not in there]


def test_a_unit_leads_to_a_page_of_its_package() -> None:
    """The desk's package has all pages but those for contributors, the sender's only some."""
    rules = (ROOT / "debian/rules").read_text(encoding="utf-8")
    lists = dict(re.findall(r"^(FOR_\w+) = (.*)", rules, re.M))
    for unit in (ROOT / "packaging").glob("*.service"):
        package, page = LED_TO.findall(unit.read_text(encoding="utf-8"))[0]
        of_sender = unit.name.startswith("tracedesk-send")
        assert package == ("tracedesk-send" if of_sender else "tracedesk"), unit.name
        assert (ROOT / f"docs/{page}.md").is_file(), unit.name
        assert (page in lists["FOR_SENDERS"].split()) or not of_sender, unit.name
        assert page not in lists["FOR_CONTRIBUTORS"].split(), unit.name
