"""As many counts in a message as may be, and one more."""
from typing import Any
from spelling import accepted, faulty, message, refused, write


def counts(uid: str, rows: Any) -> str:
    return message(
        uid, "CountsTaken", Counts=[{"Reel": reel, "Quantity": quantity} for reel, quantity in rows]
    )


def reel(n: int) -> Any:
    asked = message(
        f"r{n}", "ReelReceived", Reel=f"K{n}", PartNumber="P", Lot="L1", Level="1", Quantity=10
    )
    return asked, accepted(1 + n, f"r{n}")


rows = [(f"K{n}", 7) for n in range(1, 5_001)]
write(
    [
        (message("u1", "PartDefined", PartNumber="P"), accepted(1, "u1")),
        *(reel(n) for n in range(1, 5_001)),
        (counts("u2", [*rows, ("K1", 7)]), faulty("OverLimit", Member="Counts")),
        (counts("u2", [*rows[:4_999], ("K1", 7)]), refused("u2", "ReelTwice", "K1")),
        (
            counts("u2", rows),
            accepted(5_002, "u2", Taken=15_000),
        ),  # 3 pieces off each of 5,000 reels
        (counts("u3", rows), accepted(5_003, "u3", Taken=0)),
    ]
)
