"""The limits of a desk, each once in crates/desk_types/src/limits.rt, and the table of messages,
which names them.

    limits.table()["values"]["quantity"]["schema"]["maximum"]
"""
import json
import re
from typing import Any, NamedTuple

from tracedesk_dev import ROOT

SOURCE = ROOT / "crates/desk_types/src/limits.rt"
TABLE = ROOT / "docs/api/messages.json"
CONSTANT = re.compile(r"((?:^/// .*\n)+)^pub const (\w+): \w+ = ([\d_]+);", re.M)
IN_A_TEXT = re.compile(r"\{([A-Z_]+)(:d)?\}")
NUMBERS = re.compile(r'^  "limits": \{.*\},$', re.M)
OF_THE_PACKAGE = ("FURTHEST_AHEAD", "GREATEST_LABEL", "GREATEST_MINUTE", "LONGEST_INPUT")
OF_THE_STATION = ("GREATEST_LABEL", "GREATEST_QUANTITY", "MOST_BOARDS")


class Limit(NamedTuple):
    number: int
    says: str


def limits() -> dict[str, Limit]:
    found = CONSTANT.findall(SOURCE.read_text(encoding="utf-8"))
    return {
        name: Limit(int(number), " ".join(says.replace("///", "").split()))
        for says, name, number in found
    }


def filled(value: Any, its: dict[str, Limit]) -> Any:
    """The value with the numbers of the limits that it names. `{LONGEST_INPUT}` in a text becomes
    its number with commas, and `{LONGEST_INPUT:d}` without.
    """
    if isinstance(value, dict):
        return {name: filled(it, its) for name, it in value.items()}
    if isinstance(value, list):
        return [filled(it, its) for it in value]
    if not isinstance(value, str):
        return value
    if value in its:
        return its[value].number
    return IN_A_TEXT.sub(lambda it: format(its[it[1]].number, "d" if it[2] else ","), value)


def table() -> dict[str, Any]:
    """The table of messages, answers and routes, with numbers."""
    its = limits()
    found: dict[str, Any] = filled(json.loads(TABLE.read_text(encoding="utf-8")), its)
    return found | {"limits": {name: it.number for name, it in its.items()}}


def with_numbers(text: str) -> str:
    """The text of the table, with the number of each limit that it names."""
    naming = NUMBERS.sub("", text)
    named = {name: it.number for name, it in limits().items() if re.search(rf"\b{name}\b", naming)}
    return NUMBERS.sub(f'  "limits": {json.dumps(named)},', text, count=1)


def package_limits() -> str:
    """The limits.py of the package for senders."""
    its = limits()
    lines = [f"# {its[name].says}\n{name} = {its[name].number:_}\n" for name in OF_THE_PACKAGE]
    told = '"""Limits of a desk. Made by dev/api from crates/desk_types/src/limits.rt."""\n\n'
    return told + "".join(lines)


def station_limits() -> str:
    """The limits.js of the station."""
    its = limits()
    lines = [
        f"/** {its[name].says} */\nexport const {name} = {its[name].number:_};\n"
        for name in OF_THE_STATION
    ]
    return "// Made by dev/api from crates/desk_types/src/limits.rt.\n\n" + "".join(lines)
