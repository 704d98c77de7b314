"""A client of a trace desk, on Python's standard library alone.

    from tracedesk import Desk, MaterialsLoaded, Refused, trust_of

    with Desk("https://desk.plant", trust_of("server.crt"), ("m1", password)) as desk:
        answer = desk.send(MaterialsLoaded(machine="M1", slot="1", reel="K-01").message("M1"))
        if isinstance(answer, Refused):
            print(answer.refusal, answer.at)
        for row in desk.slots("M1"):
            print(row.slot, row.reel, row.remaining)

A machine that may be switched off between making a message and its answer puts it into a Spool
first, and tracedesk-send sends it from there: `Spool("/var/spool/m1").put(message)`.
"""
from .answers import (
    Accepted,
    Answer,
    Faulty,
    Ignored,
    Meaning,
    NotFound,
    Refused,
    Unavailable,
    Verdict,
    is_taken,
    verdict,
    why,
)
from .desk import Desk, GivenUp, NotTaken, NotThere, trust_of
from .forms import Command, Message, OutOfRange
from .sender import Sender
from .disk import SpoolError
from .spool import Spool
from .words import (
    AlternateAllowed,
    ClockSet,
    CountRow,
    CountsTaken,
    MESSAGES,
    MaterialsInstalled,
    MaterialsLoaded,
    MaterialsScrapped,
    MaterialsSpliced,
    MaterialsUnloaded,
    PartDefined,
    ProductSelected,
    ReelBaked,
    ReelOpened,
    ReelReceived,
    ReelSealed,
    SheetDefined,
    SheetRow,
    WorkCompleted,
    WorkStarted,
)

__version__ = "1.0.0"
__all__ = [
    "Accepted",
    "Answer",
    "Command",
    "Desk",
    "Faulty",
    "GivenUp",
    "Ignored",
    "Meaning",
    "Message",
    "NotFound",
    "NotTaken",
    "NotThere",
    "OutOfRange",
    "Refused",
    "Sender",
    "Spool",
    "SpoolError",
    "Unavailable",
    "Verdict",
    "is_taken",
    "trust_of",
    "verdict",
    "why",
    "MESSAGES",
    "CountRow",
    "SheetRow",
    "AlternateAllowed",
    "ClockSet",
    "CountsTaken",
    "MaterialsInstalled",
    "MaterialsLoaded",
    "MaterialsScrapped",
    "MaterialsSpliced",
    "MaterialsUnloaded",
    "PartDefined",
    "ProductSelected",
    "ReelBaked",
    "ReelOpened",
    "ReelReceived",
    "ReelSealed",
    "SheetDefined",
    "WorkCompleted",
    "WorkStarted",
]
