"""A sheet of as many rows as may be, by turns of two parts, and the kit of it for two boards.

Of P there are a hundred reels with one piece each, so the first fifty rows of P get two reels each.
Of Q there is one reel: the first row of Q gets it whole, and none of the others has one.
"""
import pathlib

from spelling import accepted, message, write

slots = range(1, 5_001)
parts = {n: "P" if n % 2 else "Q" for n in slots}
rows = [{"Slot": str(n), "PartNumber": parts[n], "Designators": [f"R{n}"]} for n in slots]
reels = [(f"K{n:03}", "P", 1) for n in range(1, 101)] + [("Q1", "Q", 3_000)]


def received(number: int, reel: str, part: str, quantity: int) -> tuple[str, str]:
    asked = message(
        f"u{number}",
        "ReelReceived",
        Reel=reel,
        PartNumber=part,
        Lot="L1",
        Level="1",
        Quantity=quantity,
    )
    return asked, accepted(number, f"u{number}")


def kit_rows(n: int) -> list[str]:
    if parts[n] == "P" and n < 100:
        return [f"{n},P,2,K{n:03},1,unlimited", f"{n},P,2,K{n + 1:03},1,unlimited"]
    if n == 2:
        return ["2,Q,2,Q1,3000,unlimited"]
    return [f"{n},{parts[n]},2,,2,short"]


write(
    [
        (message("u1", "PartDefined", PartNumber="P"), accepted(1, "u1")),
        (message("u2", "PartDefined", PartNumber="Q"), accepted(2, "u2")),
        (message("u3", "SheetDefined", Product="PR", Machine="M", Rows=rows), accepted(3, "u3")),
        *(received(number, *reel) for number, reel in enumerate(reels, 4)),
    ]
)
lines = ["slot,part,needed,reel,pieces,minutes_left", *(row for n in slots for row in kit_rows(n))]
pathlib.Path("kit.csv").write_text("".join(f"{line}\n" for line in lines))
