"""Messages made as long as a line may be, and one byte longer, by the spaces after them."""
import pathlib

from spelling import accepted, faulty, message

MOST = 1_048_576


def line(number: int, length: int) -> str:
    return message(f"u{number}", "PartDefined", PartNumber=f"P{number}").ljust(length)


too_long = faulty("LineTooLong")
lines = [
    (line(1, MOST) + "\n", accepted(1, "u1")),
    (line(2, MOST + 1) + "\n", too_long),
    (line(2, MOST) + "\r\n", accepted(2, "u2")),  # the carriage return is no part of the line
    (line(3, MOST + 1) + "\r\n", too_long),
    (line(3, MOST) + "\r\r\n", too_long),  # of two carriage returns one is
    ("{" * (3 * MOST) + "\n", too_long),
    (line(3, MOST), accepted(3, "u3")),  # the last line needs no end
]
pathlib.Path("messages.jsonl").write_bytes("".join(sent for sent, _ in lines).encode())
pathlib.Path("answers.jsonl").write_text("".join(told + "\n" for _, told in lines))
