"""The messages of all cases as stored texts, for the Rattle test that runs both desks on them."""
import datetime
import json
import re
from typing import Any

from tracedesk_dev import ROOT, limits

FILE = ROOT / "crates/desk_tests/src/tests/cases.rt"
MOST = 400  # messages of a case: the test runs each beginning of it
HEAD = '''//! The messages of the cases, made by `dev/cases --desks`.

/// Each case has a line of its products, one of its other names, and its messages: a minute and the stored text of a
/// command. An empty line ends it. One literal for all is cheap to prove; a list of them is not.
pub const CASES: &str = "'''
LISTS = {
    "Rows": ("Slot", "PartNumber", "Designators"),
    "Counts": ("Reel", "Counted"),
}  # an element's members; a count may be 0
LIMITS = {name: it.number for name, it in limits.limits().items()}
NUMBERS = {
    "Quantity": (1, LIMITS["GREATEST_QUANTITY"]),
    "Counted": (0, LIMITS["GREATEST_QUANTITY"]),
    "LabelMinutes": (1, LIMITS["GREATEST_LABEL"]),
}
FORMS = {"Designator": r"[A-Za-z0-9_.-]{1,16}", "Level": "1|2a?|3|4|5a?|6"}


def fields_of(value: Any, name: str) -> list[str]:
    """Returns the fields that a member has in a stored text: a list's length, and then those of its
    elements. A value that no desk takes is a ValueError."""
    is_list = name in (*LISTS, "Designators")
    if is_list and isinstance(value, list) and 0 < len(value) <= LIMITS["LONGEST_LIST"]:
        pairs = [
            (key, it if key == "Designator" else it["Quantity" if key == "Counted" else key])
            for it in value
            for key in LISTS.get(name, ("Designator",))
        ]
        return [str(len(value)), *(field for key, it in pairs for field in fields_of(it, key))]
    if is_list:
        is_right = False
    elif name in NUMBERS:
        is_right = type(value) is int and NUMBERS[name][0] <= value <= NUMBERS[name][1]
    else:
        is_right = isinstance(value, str) and bool(
            re.fullmatch(FORMS.get(name, r"(?=.{1,64}\Z)[!-~](?:[ -~]*[!-~])?"), value)
        )
    if not is_right:
        raise ValueError(name)
    return [str(value)]


def line_of(message: str, kinds: dict[str, list[dict[str, Any]]]) -> str | None:
    """Returns the line of a message, or None if it isn't the desk's or has a member missing or of
    another kind.
    """
    try:
        envelope = json.loads(message)
        word, body = envelope["MessageName"].removeprefix("TraceDesk."), envelope["MessageBody"]
        minute = int(datetime.datetime.fromisoformat(envelope["TimeStamp"]).timestamp() // 60)
        names = [it["name"] for it in kinds[word] if it["name"] != "LabelMinutes"]
        fields = [word, *(field for name in names for field in fields_of(body[name], name))]
        if word == "ReelReceived":
            is_told = body["Level"] == "6"
            fields += fields_of(body["LabelMinutes"], "LabelMinutes") if is_told else ["0"]
    except (ValueError, KeyError, TypeError, AttributeError):
        return None
    line = "\t".join([str(minute), *fields])
    return line if minute >= 0 and not set(line) & set('"\\\n') else None


def text() -> str:
    """Returns the text of the table."""
    kinds = {kind["word"]: kind["members"] for kind in limits.table()["messages"]}
    cases: dict[str, None] = {}
    for folder in sorted(it for it in (ROOT / "cases").iterdir() if it.is_dir()):
        lines = [
            made
            for file in sorted(folder.glob("*.jsonl"))
            for line in file.read_bytes().decode("utf-8", "replace").split("\n")
            if (made := line_of(line, kinds))
        ]
        if 1 < len(lines) <= MOST:
            cases.setdefault("\n".join(lines))
    texts = []
    for messages in cases:
        fields = [line.split("\t")[1:] for line in messages.split("\n")]
        places = {"SheetDefined": 1, "ProductSelected": 2}
        products = sorted({it[places[it[0]]] for it in fields if it[0] in places})
        parts = {part for it in fields for part in it[1:] if len(part) <= 64}
        names = sorted(parts - set(products))
        texts.append("\n".join(["\t".join(products or ["X"]), "\t".join(names or ["X"]), messages]))
    return HEAD + "\n\n".join(texts).replace("\t", "\\t") + '";\n'


def is_current() -> bool:
    """Whether the table has the messages of the cases."""
    return FILE.is_file() and FILE.read_text(encoding="utf-8") == text()


def write() -> None:
    """Writes the table, whole or not at all."""
    made = FILE.with_suffix(".new")
    made.write_text(text(), encoding="utf-8")
    made.replace(FILE)
