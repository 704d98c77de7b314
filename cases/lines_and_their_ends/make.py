"""Line ends as different systems write them, and lines with nothing in them."""
import pathlib

from spelling import accepted, faulty, message

parts = [message(f"u{n}", "PartDefined", PartNumber=f"P{n}") for n in range(1, 5)]
first = f"{parts[0]}\n\n\r\n\n{parts[1]}\r\n{parts[2]}\r\r\n \n{parts[3]}\r"
told = [
    accepted(1, "u1"),
    accepted(2, "u2"),
    accepted(3, "u3"),
    faulty("NotJson"),
    accepted(4, "u4"),
]
pathlib.Path("messages_1.jsonl").write_bytes(first.encode())
pathlib.Path("answers_1.jsonl").write_text("".join(it + "\n" for it in told))
pathlib.Path("messages_2.jsonl").write_bytes(b"\r\n\n\r\n\r")
pathlib.Path("messages_3.jsonl").write_bytes(
    parts[0].encode() + b"\n\x00\n\xff\n" + parts[1].replace("P2", "\u00e9").encode("latin-1")
)
pathlib.Path("answers_3.jsonl").write_text(
    "".join(it + "\n" for it in (told[0], told[3], told[3], told[3]))
)
