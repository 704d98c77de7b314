"""Ten thousand commands on one desk, and repeats of some of them."""
from spelling import accepted, message, write


def pair(n: int) -> tuple[str, str]:
    return message(f"u{n}", "PartDefined", PartNumber=f"P{n}"), accepted(n, f"u{n}")


write([*(pair(n) for n in range(1, 10_001)), *(pair(n) for n in (1, 5_000, 10_000))])
