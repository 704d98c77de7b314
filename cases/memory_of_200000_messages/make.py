"""A part, a reel, and 200,000 messages that change nothing: ignored, refused and repeated ones by
turns.
"""
import pathlib

from spelling import accepted, answer, message, refused, text, write

part = (message("u1", "PartDefined", PartNumber="P"), accepted(1, "u1"))
reel = (
    message("u2", "ReelReceived", Reel="K1", PartNumber="P", Lot="L1", Level="1", Quantity=9),
    accepted(2, "u2"),
)
pairs = [part, reel]
for n in range(200_000):
    pairs.append(
        (
            (
                text({"MessageName": f"CFX.Heartbeat{n}", "Left": "x" * 200}),
                answer(Answer="Ignored", MessageName=f"CFX.Heartbeat{n}"),
            ),
            (message(f"r{n}", "PartDefined", PartNumber="P"), refused(f"r{n}", "PartExists", "P")),
            part,
        )[n % 3]
    )
write(pairs)
pathlib.Path("reports.txt").write_text("200000 reports\n")
