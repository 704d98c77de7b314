"""The words of a desk, with their ranges. Made by dev/api from docs/api/messages.json: change that one, and run dev/api."""
from __future__ import annotations

import dataclasses
from typing import ClassVar, Dict, Optional, Sequence, Tuple, Type

from . import forms

PREFIX = "TraceDesk."
LONGEST_LIST = 5000
NAME = forms.Text(
    64,
    "^[!-~]([ -~]*[!-~])?$",
    "a text of 1 to 64 bytes of printable ASCII and spaces, with no space at its ends",
)
Name = str
DESIGNATOR = forms.Text(
    16, "^[A-Za-z0-9_.-]+$", "a text of 1 to 16 ASCII letters, digits, _, . and -"
)
Designator = str
QUANTITY = forms.Whole(1, 10000000)
Quantity = int
LEVEL = forms.OneOf(("1", "2", "2a", "3", "4", "5", "5a", "6"))
Level = str
LABEL = forms.Whole(1, 525600)
Label = int
ATTRIBUTE = forms.Text(
    200,
    "^[^\\u0000-\\u001f\\u007f]+$",
    "a text of 1 to 200 characters, none of which is a control character",
)
Attribute = str
COUNTED = forms.Whole(0, 10000000)
Counted = int


@dataclasses.dataclass(frozen=True)
class SheetRow(forms.Part):
    """A row of SheetDefined."""

    slot: Name
    part_number: Name
    designators: Sequence[Designator]


@dataclasses.dataclass(frozen=True)
class CountRow(forms.Part):
    """A row of CountsTaken."""

    reel: Name
    quantity: Counted


@dataclasses.dataclass(frozen=True)
class PartDefined(forms.Command):
    """PartDefined makes a part number known. Refused for PartExists."""

    part_number: Name


@dataclasses.dataclass(frozen=True)
class AlternateAllowed(forms.Command):
    """AlternateAllowed allows Alternate in place of PartNumber on every sheet. It works in this
    direction only. Alternates don't chain: an alternate of Alternate is not thereby allowed in
    place of PartNumber. Refused for UnknownPart."""

    part_number: Name
    alternate: Name


@dataclasses.dataclass(frozen=True)
class SheetDefined(forms.Command):
    """SheetDefined defines, for a product on a machine, the part that each slot feeds and its
    designators. A new sheet replaces the old one completely. Refused for MachineBusy, SlotTwice,
    DesignatorTwice, UnknownPart."""

    product: Name
    machine: Name
    rows: Sequence[SheetRow]


@dataclasses.dataclass(frozen=True)
class ProductSelected(forms.Command):
    """ProductSelected selects the product that a machine makes from now on, and so its sheet.
    Refused for UnknownSheet, MachineBusy."""

    machine: Name
    product: Name


@dataclasses.dataclass(frozen=True)
class ReelReceived(forms.Command):
    """ReelReceived receives a reel, sealed in its bag. Trays and tubes are reels too. Refused for
    UnknownPart, ReelExists."""

    reel: Name
    part_number: Name
    lot: Name
    level: Level
    quantity: Quantity
    label_minutes: Optional[Label] = None
    date_code: Optional[Attribute] = None
    supplier: Optional[Attribute] = None
    maker_part: Optional[Attribute] = None
    order: Optional[Attribute] = None
    OF: ClassVar[Dict[str, Tuple[str, ...]]] = {"label_minutes": ("level", "6")}


@dataclasses.dataclass(frozen=True)
class ReelOpened(forms.Command):
    """ReelOpened takes a reel out of its bag: its floor life runs from now on. An open reel may be
    opened again; its floor life goes on. Refused for UnknownReel."""

    reel: Name


@dataclasses.dataclass(frozen=True)
class ReelSealed(forms.Command):
    """ReelSealed puts a reel back into its bag: its floor life stops, and the minutes so far stay
    counted. Refused for UnknownReel, ReelMounted."""

    reel: Name


@dataclasses.dataclass(frozen=True)
class ReelBaked(forms.Command):
    """ReelBaked gives a reel its whole floor life again, and leaves it sealed. Refused for
    UnknownReel, ReelMounted."""

    reel: Name


@dataclasses.dataclass(frozen=True)
class MaterialsLoaded(forms.Command):
    """MaterialsLoaded puts a reel on an empty slot and opens it. MinutesLeft is its remaining floor
    life, null at level 1. Accepted tells MinutesLeft. Refused for NoProduct, SlotNotOnSheet,
    SlotTaken, UnknownReel, ReelMounted, ReelEmpty, WrongPart, NotBaked, Expired."""

    machine: Name
    slot: Name
    reel: Name


@dataclasses.dataclass(frozen=True)
class MaterialsSpliced(forms.Command):
    """MaterialsSpliced joins a reel to the end of the tape on a slot, and opens it. Accepted tells
    MinutesLeft. Refused for NoProduct, SlotNotOnSheet, SlotEmpty, UnknownReel, ReelMounted,
    ReelEmpty, WrongPart, NotBaked, Expired."""

    machine: Name
    slot: Name
    reel: Name


@dataclasses.dataclass(frozen=True)
class MaterialsUnloaded(forms.Command):
    """MaterialsUnloaded takes all reels off a slot. They stay open. Refused for SlotEmpty."""

    machine: Name
    slot: Name


@dataclasses.dataclass(frozen=True)
class WorkStarted(forms.Command):
    """WorkStarted asks whether a board may be started. The front reel of each slot of the sheet
    must be of an allowed part, and not expired. Refused for NoProduct, MachineBusy, BoardBusy,
    OtherProduct, SlotEmpty, WrongPart, Expired."""

    machine: Name
    board: Name


@dataclasses.dataclass(frozen=True)
class WorkCompleted(forms.Command):
    """WorkCompleted ends the work on the board. Refused for NotInWork."""

    machine: Name
    board: Name


@dataclasses.dataclass(frozen=True)
class MaterialsInstalled(forms.Command):
    """MaterialsInstalled reports the designators that were placed. Each takes one piece off the
    reel feeding its slot at that moment. Reels names the reel of each piece, in the order of the
    designators. Pieces of an expired reel are accepted, since they are on the board, and recorded
    as overdue. Accepted tells Reels. Refused for NotInWork, DesignatorNotOnSheet, DesignatorTwice,
    AlreadyPlaced, ReelShort."""

    machine: Name
    board: Name
    designators: Sequence[Designator]
    machine_reels: Optional[Sequence[Optional[Name]]] = None
    OF: ClassVar[Dict[str, Tuple[str, ...]]] = {"machine_reels": ("designators",)}


@dataclasses.dataclass(frozen=True)
class MaterialsScrapped(forms.Command):
    """MaterialsScrapped reports pieces of a slot that were thrown away. Taken is their number.
    Accepted tells Taken. Refused for SlotEmpty, ReelShort."""

    machine: Name
    slot: Name
    quantity: Quantity


@dataclasses.dataclass(frozen=True)
class CountsTaken(forms.Command):
    """CountsTaken reports counted pieces of reels that are on no slot. Missing pieces are taken off
    as scrapped, and Taken is their sum. Extra pieces count as received, and add nothing to Taken. A
    reel without pieces stays spent, and may only be counted as 0. Accepted tells Taken. Refused for
    UnknownReel, ReelTwice, ReelMounted, CountAbove."""

    counts: Sequence[CountRow]


@dataclasses.dataclass(frozen=True)
class ClockSet(forms.Command):
    """ClockSet moves the desk's time forward to its time stamp."""


MESSAGES: Tuple[Type[forms.Command], ...] = (
    PartDefined,
    AlternateAllowed,
    SheetDefined,
    ProductSelected,
    ReelReceived,
    ReelOpened,
    ReelSealed,
    ReelBaked,
    MaterialsLoaded,
    MaterialsSpliced,
    MaterialsUnloaded,
    WorkStarted,
    WorkCompleted,
    MaterialsInstalled,
    MaterialsScrapped,
    CountsTaken,
    ClockSet,
)

# Messages about what was done: after a refusal they are not sent again.
REPORTS_OF_WORK: Tuple[str, ...] = (
    "TraceDesk.WorkStarted",
    "TraceDesk.WorkCompleted",
    "TraceDesk.MaterialsInstalled",
    "TraceDesk.MaterialsScrapped",
)
# These, and messages that handle reels: the line's book has an entry of a refusal.
RECORDED: Tuple[str, ...] = (
    "TraceDesk.MaterialsLoaded",
    "TraceDesk.MaterialsSpliced",
    "TraceDesk.MaterialsUnloaded",
    "TraceDesk.WorkStarted",
    "TraceDesk.WorkCompleted",
    "TraceDesk.MaterialsInstalled",
    "TraceDesk.MaterialsScrapped",
)

# What to do about a refusal, and about a fault.
REFUSALS: Dict[str, str] = {
    "IdReused": "programmer: give each message a UniqueID of its own. If the message was sent before a roll-over and got no answer, send one ClockSet with its UniqueID, Source and TimeStamp: Accepted means that the archive has the message",
    "DeskFull": "begin a new desk by tracedesk-ops rollover (operations-daily.md)",
    "TooFarAhead": "set the sender's clock right; if it is right and the line was idle, send ClockSet first",
    "PartExists": "nothing",
    "UnknownPart": "correct the part number, or define the part",
    "ReelExists": "check whether its label was scanned twice; each reel needs a name of its own",
    "UnknownReel": "scan it again, or receive it",
    "UnknownSheet": "select another product, or define the sheet",
    "MachineBusy": "complete that board",
    "SlotTwice": "correct the sheet",
    "DesignatorTwice": "correct the sheet or the install",
    "NoProduct": "select one",
    "SlotNotOnSheet": "check which slot was meant, and which product is selected",
    "SlotTaken": "splice the reel, or unload the slot first",
    "SlotEmpty": "load one",
    "ReelMounted": "unload that slot first",
    "ReelEmpty": "take another reel",
    "WrongPart": "take a reel of the right part, or allow the alternate",
    "NotBaked": "bake it",
    "Expired": "take another reel; bake this one, off the machine",
    "BoardBusy": "complete it there",
    "OtherProduct": "check its serial number, or select its product",
    "NotInWork": "start it, or check its serial number",
    "DesignatorNotOnSheet": "correct the sheet or the placement program",
    "AlreadyPlaced": "nothing, if the sender reported one placement in two messages. Its programmer has to correct that: a message sent again keeps its UniqueID",
    "ReelShort": "for an install: report the load or the splice that the desk doesn't know of, and decide about the board, which is untraced work. For a scrap: report the right number",
    "ReelTwice": "correct the counts",
    "CountAbove": "check whether it is the right reel; if it is, receive the pieces as a new reel",
}
FAULTS: Dict[str, str] = {
    "LineTooLong": "leave out the spaces; split the installs or the counts into several messages",
    "NotJson": "send one whole JSON object per line",
    "NotObject": "the same",
    "EnvelopeMember": "add or correct it",
    "BadTime": "write it as 2026-03-02T06:00:00Z",
    "BodyMember": "add or correct it; numbers are whole, and not texts",
    "OverLimit": "correct the number; split the installs or the counts into several messages",
}

# What a status says to a sender: an answer of this kind, once more, or stop and tell a person why.
ANSWERS: Dict[int, str] = {
    200: "Accepted",
    202: "Ignored",
    400: "Faulty",
    409: "Refused",
    422: "Faulty",
}
STOPS: Dict[int, str] = {
    401: "the log-in is refused: look at the user and the password",
    403: "this user or address may not send here",
    404: "no path of a desk: look at --url",
    405: "no path of a desk that takes messages: look at --url",
    411: "the request has no length: something between takes it away",
    413: "the message is too long: a desk takes at most 1,048,576 bytes. Split it",
    415: "the proxy takes messages as application/json and files as text/csv: send that Content-Type",
}
AGAIN: Tuple[int, ...] = (408, 429, 500, 502, 503, 504)
FAULTS_OF_A_REQUEST: Tuple[str, ...] = (
    "BadQuery",
    "BadMethod",
    "BadHead",
    "HeadTooLarge",
    "LengthRequired",
    "BadLength",
    "BodyTooLarge",
)

# The columns of reports, and what they have.
COLUMNS: Dict[str, str] = {
    "part": "text",
    "lot": "text",
    "reel": "text",
    "designator": "text",
    "machine": "text",
    "slot": "text",
    "overdue": "yes or no",
    "board": "text",
    "level": "text",
    "received": "number",
    "placed": "number",
    "scrapped": "number",
    "remaining": "number",
    "minutes_left": "minutes",
    "state": "text",
    "position": "number",
    "needed": "number",
    "pieces": "number",
    "minute": "text",
}
