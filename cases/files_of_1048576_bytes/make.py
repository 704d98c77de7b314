"""Files of as many bytes as may be, and of one byte more, by the lines of no byte after what they
say.
"""
import pathlib
from typing import Any

MOST = 1_048_576


def put(name: str, text: str, length: int = MOST, end: Any = "\n") -> None:
    data = text.encode()
    pathlib.Path(name).write_bytes(data + end.encode() * (length - len(data)))


rows = "K3,5\nK4,5\n"
counts = "reel,quantity\n" + rows
mark = "\ufeff"
put("as_long_as_may_be.csv", counts)
put("as_long_as_may_be_with_a_mark.csv", mark + counts)
put("as_long_as_may_be_after_a_bad_header.csv", "reel;quantity\n" + rows)
put("a_long_number.csv", "reel,quantity\nK3,", end="3")
put("an_open_quote.csv", 'reel,quantity\n"K3')
put("a_long_line_of_commas.csv", "reel,quantity\nK3", end=",")
put("one_byte_more.csv", counts, MOST + 1)
put("one_byte_more_with_a_mark.csv", mark + counts, MOST + 1)
put("one_byte_more_after_a_bad_header.csv", "reel;quantity\n" + rows, MOST + 1)
put("one_byte_more_after_a_short_row.csv", "reel,quantity\nK3\n" + rows, MOST + 1)
put("one_byte_more_of_zeros.csv", "", MOST + 1, "\0")
put("three_times_as_long.csv", counts, 3 * MOST)
