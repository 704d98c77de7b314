"""Labels in ZPL, the language of many label printers: a name as a Data Matrix, and text."""
from __future__ import annotations

import re
from collections.abc import Sequence
from typing import NamedTuple

# A Data Matrix of so many modules a side takes so many codewords (ISO/IEC 16022, ECC 200).
SIDES = {
    **{10: 3, 12: 5, 14: 8, 16: 12, 18: 18, 20: 22, 22: 30, 24: 36, 26: 44},
    **{32: 62, 36: 86, 40: 114},
}
MARGIN = 2.0  # millimetres around the code, and between it and the text
TALLEST, LEAST = 4.0, 1.0  # millimetres of a letter
SLIM = 0.6  # of a letter's height, its width at most
ESCAPED = re.compile(r"[\^~_]")
MARKS = "\\|{}!$%&"  # one that isn't in a name: behind it a printer would look for a command


class Paper(NamedTuple):
    """A label, in millimetres, and how many dots a printer has in one."""

    width: float
    height: float
    dots: int

    def at(self, millimetres: float) -> int:
        return round(millimetres * self.dots)


def escaped(text: str) -> str:
    """A text as the field of ^FH has it, in which no sign begins a command."""
    return ESCAPED.sub(lambda it: f"_{ord(it[0]):02X}", text)


def side_of(name: str) -> int:
    """The modules of a side: two digits are one codeword, and each other letter is one."""
    count = len(re.findall(r"\d\d|.", name))
    return next(side for side, most in SIDES.items() if most >= count)


def label(name: str, lines: Sequence[str], paper: Paper) -> str:
    """A label with a name and more lines of text. ValueError where the paper is too small."""
    side, margin = side_of(name), paper.at(MARGIN)
    module = (paper.at(paper.height) - 2 * margin) // side
    left = 2 * margin + side * module
    room = paper.at(paper.width) - left - margin
    texts = [name, *lines]
    step = (paper.at(paper.height) - 2 * margin) // len(texts)
    tall = [min(paper.at(TALLEST), step, int(room / len(it) / SLIM)) for it in texts]
    if module < 2 or min(tall) < paper.at(LEAST):
        raise ValueError(f"{name}: a label of {paper.width:g} x {paper.height:g} mm is too small")
    mark = next(it for it in MARKS if it not in name)
    code = f"^FO{margin},{margin}^BXN,{module},200,,,,{mark}^FH_^FD{escaped(name)}^FS"
    fields = [
        f"^FO{left},{margin + row * step}^A0N,{tall[row]},{round(tall[row] * SLIM)}"
        f"^FH_^FD{escaped(text)}^FS"
        for row, text in enumerate(texts)
    ]
    size = f"^PW{paper.at(paper.width)}^LL{paper.at(paper.height)}"
    return "\n".join(["^XA", f"{size}^LH0,0", code, *fields, "^XZ", ""])
