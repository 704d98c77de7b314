"""1,100 commands."""
from spelling import accepted, message, write

write(
    [
        (message(f"u{n}", "PartDefined", PartNumber=f"P{n}"), accepted(n, f"u{n}"))
        for n in range(1, 1_101)
    ]
)
