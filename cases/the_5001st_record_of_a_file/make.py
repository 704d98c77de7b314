"""Files of as many records as may be, and of one more."""
import pathlib


def put(name: str, text: str) -> None:
    pathlib.Path(name).write_bytes(text.encode("utf-8", "surrogateescape"))


counts = "reel,quantity\n"
put("5000_rows.csv", counts + "K3,5\n" * 5_000)
put("5000_rows_and_blank_lines.csv", counts + "K3,5\r\n\n" * 5_000)
put("5001_rows.csv", counts + "K3,5\n" * 5_001)
put("a_short_row_5001.csv", counts + "K3,5\n" * 5_000 + "K3\n")
put("a_row_5001_that_is_no_text.csv", counts + "K3,5\n" * 5_000 + "\udcff,5\n")
put("an_open_quote_in_row_5001.csv", counts + "K3,5\n" * 5_000 + '"')
put("a_short_row_5000.csv", counts + "K3,5\n" * 4_999 + "K3\n")
put("a_short_row_5000_of_5001.csv", counts + "K3,5\n" * 4_999 + "K3\nK3,5\n")
put("a_bad_quantity_in_row_5000_of_5001.csv", counts + "K3,5\n" * 4_999 + "K3,x\nK3,5\n")
put("5001_rows_and_no_header.csv", "K3,5\n" * 5_001)

setup = "slot,part,designators\n"
slots = "".join(f"s{n:04},P,R{n:04}\n" for n in range(1, 5_001))
put("5000_slots.csv", setup + slots)
put("5001_slots.csv", setup + slots + "more,P,R5001\n")
designators = " ".join(f"R{n:04}" for n in range(1, 5_001))
put("5000_designators.csv", setup + f"1,P,{designators}\n")
put("5001_designators.csv", setup + f"1,P,{designators} R5001\n")
