"""Ignored messages whose names, and so whose answers, have each length up to 2,100 bytes, and some
longer ones.
"""
from spelling import answer, text, write

names = [
    "X" * n for n in [*range(2_100), *range(2_200, 20_000, 100), *range(30_000, 70_001, 5_000)]
]
write([(text({"MessageName": name}), answer(Answer="Ignored", MessageName=name)) for name in names])
