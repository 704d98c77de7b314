"""A line of one byte more than a line may have, and a message after it."""
import pathlib

from spelling import message

after = message("u1", "PartDefined", PartNumber="P")
pathlib.Path("messages.jsonl").write_text("a" * 1_048_577 + "\n" + after + "\n")
