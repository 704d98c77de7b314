"""A request whose body is as long as may be, by the spaces after its message."""
import pathlib

from spelling import message

body = message("u1", "PartDefined", PartNumber="P").ljust(1_048_576)
pathlib.Path("as_long_as_may_be.bin").write_text(
    f"POST /messages HTTP/1.1\r\nContent-Length: {len(body)}\r\n\r\n" + body
)
