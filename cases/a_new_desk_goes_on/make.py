"""A desk with a reel for each thing that has to be kept, and the messages with which a new one
begins where it ended.

The old desk ends at minute 2,000. K1 was out of its bag for 100 minutes, and lies on slot 1 since
300: 1,800 minutes, more than the 1,440 of level 5a, so it has expired on its slot. K2, behind it,
is out since 400, and has 8,480 of level 3's 10,080 minutes. K3 was baked, and has used up its
label's 60 minutes. K4 is spent. K5 was out from 500 to 800, so 4,020 of level 4's 4,320 minutes are
left.
"""
import pathlib
from typing import Any, Iterator

from spelling import accepted, answer, message, refused, stamp, text

SHEET = [
    {"Slot": "1", "PartNumber": "P", "Designators": ["R1"]},
    {"Slot": "2", "PartNumber": "P", "Designators": ["R2"]},
]
SETUP = [
    ("PartDefined", {"PartNumber": "P"}),
    ("PartDefined", {"PartNumber": "Q"}),
    ("AlternateAllowed", {"PartNumber": "P", "Alternate": "Q"}),
    ("SheetDefined", {"Product": "PR", "Machine": "M", "Rows": SHEET}),
    ("ProductSelected", {"Machine": "M", "Product": "PR"}),
]


def receipt(reel: str, part: str, lot: str, level: str, quantity: int, **label: int) -> Any:
    return (
        "ReelReceived",
        {
            "Reel": reel,
            "PartNumber": part,
            "Lot": lot,
            "Level": level,
            "Quantity": quantity,
            **label,
        },
    )


def mount(word: str, slot: str, reel: str) -> Any:
    return (word, {"Machine": "M", "Slot": slot, "Reel": reel})


def work(word: str, **more: Any) -> Any:
    return (word, {"Machine": "M", "Board": "B1", **more})


# of the old desk: minute, word and body, and what the answer tells
OLD: list[Any] = [(0, *it, {}) for it in SETUP] + [
    (0, *receipt("K1", "P", "L1", "5a", 10), {}),
    (0, *receipt("K2", "P", "L1", "3", 30), {}),
    (0, *receipt("K3", "P", "L2", "6", 5, LabelMinutes=60), {}),
    (0, *receipt("K4", "P", "L2", "1", 1), {}),
    (0, *receipt("K5", "Q", "L3", "4", 7), {}),
    (100, "ReelOpened", {"Reel": "K1"}, {}),
    (200, "ReelSealed", {"Reel": "K1"}, {}),
    (200, "ReelBaked", {"Reel": "K3"}, {}),
    (210, "ReelOpened", {"Reel": "K3"}, {}),
    (300, *mount("MaterialsLoaded", "1", "K1"), {"MinutesLeft": 1340}),
    (400, *mount("MaterialsSpliced", "1", "K2"), {"MinutesLeft": 10080}),
    (400, *mount("MaterialsLoaded", "2", "K4"), {"MinutesLeft": None}),
    (400, *work("WorkStarted"), {}),
    (400, *work("MaterialsInstalled", Designators=["R2", "R1"]), {"Reels": ["K4", "K1"]}),
    (400, *work("WorkCompleted"), {}),
    (500, "ReelOpened", {"Reel": "K5"}, {}),
    (800, "ReelSealed", {"Reel": "K5"}, {}),
    (2000, "ClockSet", {}, {}),
]

# of the new one: K2's exposure of 1,600 minutes is the longest, so it begins at minute 400. K1 is
# told as out for its whole floor life, from 560 on, and K2 can't stand behind it before
NEW: list[Any] = [(400, *it, {}) for it in SETUP] + [
    (400, *receipt("K1", "P", "L1", "5a", 9), {}),
    (400, *receipt("K2", "P", "L1", "3", 30), {}),
    (400, *receipt("K3", "P", "L2", "6", 5, LabelMinutes=60), {}),
    (400, "ReelBaked", {"Reel": "K3"}, {}),
    (400, *receipt("K5", "Q", "L3", "4", 7), {}),
    (400, "ReelOpened", {"Reel": "K2"}, {}),
    (560, *mount("MaterialsLoaded", "1", "K1"), {"MinutesLeft": 1440}),
    (560, *mount("MaterialsSpliced", "1", "K2"), {"MinutesLeft": 9920}),
    (1700, "ReelOpened", {"Reel": "K5"}, {}),
    (1940, "ReelOpened", {"Reel": "K3"}, {}),
    (2000, "ReelSealed", {"Reel": "K5"}, {}),
    (2000, "ClockSet", {}, {}),  # without it u20 would have number 20 in both
]
KNOWN = [
    (f"u{n}", minute) for n, (minute, *_) in reversed(list(enumerate(OLD, 1)))
]  # the old one's UniqueIDs, the newest first
ALL = len(NEW) + len(KNOWN) + 1  # the last command is a ClockSet of its own


def own(number: int) -> str:
    """The UniqueID of a message that begins the new desk: it names the checksum of the old desk's
    file, which is the same in each run.
    """
    return f"begin-fd09d4110d58226e648b787d-{number}"


def begun(uid: str, minute: int, word: str, body: Any, source: str = "begin") -> str:
    """A message of dev/begin."""
    envelope = {
        "MessageName": "TraceDesk." + word,
        "UniqueID": uid,
        "Source": source,
    }
    return text({**envelope, "TimeStamp": stamp(minute).removesuffix("Z"), "MessageBody": body})


def lines(name: str, them: Any) -> None:
    pathlib.Path(name).write_text("".join(it + "\n" for it in them))


def later(first: int) -> Iterator[Any]:
    """What both desks are told afterwards, of which the second is one number behind the first, and
    their answers.
    """
    yield message("v1", "MaterialsLoaded", 2000, Machine="M", Slot="2", Reel="K3"), refused(
        "v1", "Expired", "K3"
    )
    yield message("v2", "WorkStarted", 2000, Machine="M", Board="B2"), refused("v2", "Expired", "1")
    yield message("v3", "MaterialsLoaded", 2010, Machine="M", Slot="2", Reel="K5"), accepted(
        first, "v3", MinutesLeft=4020
    )
    yield message("v4", "MaterialsScrapped", 2010, Machine="M", Slot="1", Quantity=9), accepted(
        first + 1, "v4", Taken=9
    )
    yield message("v5", "WorkStarted", 10479, Machine="M", Board="B2"), refused(
        "v5", "Expired", "2"
    )
    yield message("v6", "MaterialsUnloaded", 6000, Machine="M", Slot="1"), accepted(first + 2, "v6")
    yield message("v7", "MaterialsLoaded", 10479, Machine="M", Slot="1", Reel="K2"), accepted(
        first + 3, "v7", MinutesLeft=1
    )
    yield message("v8", "MaterialsUnloaded", 10480, Machine="M", Slot="1"), accepted(
        first + 4, "v8"
    )
    yield message("v9", "MaterialsLoaded", 10480, Machine="M", Slot="1", Reel="K2"), refused(
        "v9", "Expired", "K2"
    )


def again() -> Iterator[Any]:
    """What the old desk accepted is sent to the new one, and once more as a ClockSet, by which the
    message is known.
    """
    for place, (uid, minute) in enumerate(KNOWN, len(NEW) + 1):
        _, word, body, _ = OLD[int(uid[1:]) - 1]
        if word != "ClockSet":
            yield message(uid, word, minute, **body), answer(
                Answer="Refused", Number=place, Refusal="IdReused", UniqueID=uid
            )
        yield message(uid, "ClockSet", minute), accepted(place, uid)


lines(
    "messages.jsonl",
    [message(f"u{n}", word, minute, **body) for n, (minute, word, body, _) in enumerate(OLD, 1)],
)
lines("answers.jsonl", [accepted(n, f"u{n}", **detail) for n, (*_, detail) in enumerate(OLD, 1)])
lines(
    "begin.jsonl",
    [
        *(begun(own(n), minute, word, body) for n, (minute, word, body, _) in enumerate(NEW, 1)),
        *(begun(uid, minute, "ClockSet", {}, "S") for uid, minute in KNOWN),
        begun(own(ALL), 2000, "ClockSet", {}),
    ],
)
lines(
    "begun.jsonl",
    [
        *(accepted(n, own(n), **detail) for n, (*_, detail) in enumerate(NEW, 1)),
        *(accepted(n, uid) for n, (uid, _) in enumerate(KNOWN, len(NEW) + 1)),
        accepted(ALL, own(ALL)),
    ],
)
lines("again.jsonl", [asked for asked, _ in again()])
lines("again_new.jsonl", [told for _, told in again()])
lines("later.jsonl", [asked for asked, _ in later(1)])
lines("later_old.jsonl", [told for _, told in later(len(OLD) + 1)])
lines("later_new.jsonl", [told for _, told in later(ALL + 1)])
# of both desks: K3 is expired, so of the free reels K5 alone is for the kit, with more than the 5
# pieces of slot 1
lines(
    "slots.csv",
    [
        "slot,position,reel,part,lot,remaining,minutes_left",
        "1,1,K1,P,L1,9,0",
        "1,2,K2,P,L1,30,8480",
    ],
)
lines("kit.csv", ["slot,part,needed,reel,pieces,minutes_left", "1,P,5,K5,7,4020", "2,P,5,,5,short"])
CARD = "reel,part,lot,level,received,placed,scrapped,remaining,minutes_left,state"
lines("K3.csv", [CARD, "K3,P,L2,6,5,0,0,5,0,open"])
lines("K5.csv", [CARD, "K5,Q,L3,4,7,0,0,7,4020,sealed"])
