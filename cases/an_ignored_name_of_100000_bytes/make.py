"""A name of 100,000 letters that is none of the desk's."""
from spelling import answer, text, write

names = ("a" * 100_000, "TraceDesk.PartDefined" + "d" * 99_979)
write([(text({"MessageName": name}), answer(Answer="Ignored", MessageName=name)) for name in names])
