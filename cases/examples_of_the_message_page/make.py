"""Takes the examples out of docs/messages.md: the first line of each is a message and the second
its answer.

It also looks that each of the seventeen messages has one, that the page names each refusal and each
fault that some case shows, and that docs/files.md names each fault of an import that some case
shows.
"""
import pathlib
import re

from spelling import write

ROOT = pathlib.Path(__file__).resolve().parents[2]
page = (ROOT / "docs/messages.md").read_text(encoding="utf-8")
examples = [block.splitlines() for block in re.findall(r"^```json\n(.*?)^```$", page, re.M | re.S)]
assert all(len(it) == 2 for it in examples), "an example is a message and its answer"
words = {
    word
    for asked, _ in examples
    if "MessageBody" in asked
    for word in re.findall(r'"MessageName":"TraceDesk\.(\w+)"', asked)
}
assert len(words) == 17, f"of the seventeen messages {len(words)} have an example"
answers = "".join(
    it.read_text(encoding="utf-8") for it in (ROOT / "cases").glob("*/answers*.jsonl")
)
shown = set(re.findall(r'"(?:Refusal|Fault)":"(\w+)"', answers))
unnamed = [name for name in sorted(shown) if f"| `{name}` |" not in page]
assert not unnamed, f"the page does not name {', '.join(unnamed)}"
files = (ROOT / "docs/files.md").read_text(encoding="utf-8")
cases = [it.read_text(encoding="utf-8") for it in (ROOT / "cases").glob("*/case.json")]
shown = {
    name
    for case in cases
    if '"import-' in case and '"serve"' not in case
    for name in re.findall(r'"Fault": "(\w+)"', case)
}
unnamed = [name for name in sorted(shown) if f"| `{name}` |" not in files]
assert shown and not unnamed, f"docs/files.md does not name {', '.join(unnamed)}"
write(examples)
