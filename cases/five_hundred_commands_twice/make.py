"""Five hundred commands, and the same once more."""
from spelling import accepted, message, write


def pair(n: int) -> tuple[str, str]:
    return message(f"u{n}", "PartDefined", PartNumber=f"P{n}"), accepted(n, f"u{n}")


write([pair(n) for _ in range(2) for n in range(1, 501)])
