"""Messages of all words, good and faulty, made up from the table docs/api/messages.json."""
from typing import Any, Iterator

Member = dict[str, Any]
Table = dict[str, Any]

GOOD = {"name": "A", "designator": "C1", "quantity": 5, "counted": 5, "level": "6", "label": 60}
NAMES = (" x", "x ", "x x", "\u00fc", "x\n", "x\t", "~", "\u007f", "x-_.9", "x/y")
STAMPS: tuple[Any, ...] = (
    (None, 7, "", [], {}, "x" * 64, "x" * 65, " x", "\u00fc")
    + tuple("yesterday 2026-03-02 2026-03-02T06:00 20260302T060000Z".split())
    + ("01.04.2026 12:15",)
)
# Texts beside the forms of a time, good and bad: a date, a time of day, an offset, a zone
DAYS = (
    "2026-0302 202603-02 -002026-03-02 2026-3-2 2026-061 2026-03 +002026-03-02 +0020260302"
    " +010000-01-01 2026-02-30 2026-04-31 2026-13-01 2026-00-10 2026-01-00 1969-12-30"
).split()
OF_DAY = (
    "|T06|T0600|t06:00| 06:00|_06:00|T24:00|T23:59:60|T23:59:61|T06:60|T6:00|T06:00.5|T06.5"
    "|T06:00:00,5|T06:00:00.|T06:00:00.123456789|T06:00:00.1234567890|T06:0000|T0600:00|T"
).split("|")
OFFSETS = (
    "z|+01|+0100|+01:00:30|+010030|+25:59|+26:00|+1|+01:60|+01:0030| Z|ZZ|Z |[Europe/Berlin]|Z[UTC]"
    "|Z[]|Z[UTC|Z[a b]|Z[u-ca=iso8601]|Z[u-ca=iso8601][UTC]|[+01:00]"
).split("|")
TIMES = (
    *(f"{it}T06:00:00Z" for it in DAYS),
    *(f"2026-03-02{it}{end}" for it in OF_DAY for end in ("", "Z")),
    *(f"2026-03-02T06:00{it}" for it in OFFSETS),
)


def good_value(member: Member) -> Any:
    if "row" in member:
        return [{it["name"]: good_value(it) for it in member["members"]}]
    one = GOOD[member["value"]]
    return [one] if "most" in member else one


def values_of(table: Table, member: Member) -> Iterator[Any]:
    """Values of a member beside its limits, on both sides; what comes of them the schema and the
    program say.
    """
    yield from (None, True, [], {}, 1.5, -1, "", "x" * 65)
    if "most" in member:
        good = good_value(member)
        yield from (good * member["most"], good * (member["most"] + 1), [7], [None], [{}], good[0])
        return
    schema = table["values"][member["value"]]["schema"]
    if "pattern" in schema:
        yield from ("x" * schema["maxLength"], "x" * (schema["maxLength"] + 1), *NAMES)
    elif "enum" in schema:
        yield from (*schema["enum"], "2A", "7", 6)
    else:
        for limit in (schema["minimum"], schema["maximum"]):
            yield from (limit - 1, limit, limit + 1, str(limit), 2**64)


def changed(table: Table, members: list[Member], body: Member) -> Iterator[Member]:
    """Bodies with one member other than it was, and the way to it."""
    for it in members:
        name = it["name"]
        yield {key: value for key, value in body.items() if key != name}
        yield from ({**body, name: value} for value in values_of(table, it))
        if "row" in it:
            for row in changed(table, it["members"], body[name][0]):
                yield {**body, name: [row]}
                yield {**body, name: [body[name][0], row]}


def made_up(table: Table) -> Iterator[Any]:
    """Messages of all words, good and faulty. A desk without a part refuses the good ones, and so
    keeps none of most of them.
    """
    stamp = {"UniqueID": "u", "Source": "S", "TimeStamp": "2026-03-02T06:00:00Z"}
    for message in table["messages"]:
        body = {it["name"]: good_value(it) for it in message["members"]}
        whole = {"MessageName": table["prefix"] + message["word"], **stamp, "MessageBody": body}
        yield whole
        yield {**whole, "More": 1, "MessageBody": {**body, "More": [None]}}
        yield from ({**whole, "MessageBody": it} for it in changed(table, message["members"], body))
        if message["word"] == "ReelReceived":
            for value in (None, 0, "x"):
                yield {**whole, "MessageBody": {**body, "Level": "3", "LabelMinutes": value}}
    for name in ("UniqueID", "Source", "TimeStamp", "MessageBody"):
        yield {key: it for key, it in whole.items() if key != name}
        yield from ({**whole, name: value} for value in STAMPS)
    yield from ({**whole, "TimeStamp": it} for it in TIMES)
    yield from ([], None, "TraceDesk.ClockSet", {})
    yield from ({**whole, "MessageName": it} for it in (7, "ClockSet", "TraceDesk.clockSet"))
