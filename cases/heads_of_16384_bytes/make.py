"""Heads of as many bytes, and of as many lines, as may be, and of one more."""
import pathlib

begin = "GET /overdue HTTP/1.1\r\nX: "
end = "\r\n\r\n"


def put(name: str, text: str) -> None:
    pathlib.Path(name).write_text(text, newline="")


put("as_long_as_may_be.bin", begin.ljust(16_384 - len(end), "a") + end)
put("one_byte_more.bin", begin.ljust(16_385 - len(end), "a") + end)
put("no_end.bin", begin.ljust(16_384, "a"))
put("64_lines.bin", "GET /overdue HTTP/1.1\r\n" + "X: a\r\n" * 64 + "\r\n")
put("65_lines.bin", "GET /overdue HTTP/1.1\r\n" + "X: a\r\n" * 65 + "\r\n")
