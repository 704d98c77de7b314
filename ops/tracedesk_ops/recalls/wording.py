"""The sentence of an answer, which the tool, its evidence and the page say: whether it is complete,
and how much was found.
"""
from __future__ import annotations

from tracedesk_ops.firstlook import Question
from tracedesk_ops.recalls.recall import Recall


def count(number: int, one: str) -> str:
    return f"{number:,} {one if number == 1 else one + 's'}"


def named(question: Question) -> str:
    its = question.about()
    name = its["name"] if its["kind"] == "reels" else f"{its['kind']} {its['name']}"
    return f"{name} of part {its['part']}" if "part" in its else name


def title(question: Question) -> str:
    """What is asked, in words."""
    within = question.about().get("within", "")
    return named(question) + (f", in doubt within {within}" if within else "")


def begin(recall: Recall) -> str:
    """How the sentence begins: whether the answer is complete."""
    if recall.status() in (1, 3):
        return "NOT FOUND" if recall.status() == 1 else "NOT COMPLETE"
    about = recall.question.about()
    return f"Complete as of {about['as_of']}" if "as_of" in about else "Complete"


def sentence(recall: Recall) -> str:
    its, status, is_board = named(recall.question), recall.status(), recall.question.kind == "board"
    boards = len({piece.board for piece in recall.pieces})
    found = f"{count(boards, 'board')} {'holds' if boards == 1 else 'hold'} a piece of {its}"
    if is_board:
        found = f"{its} has {count(len(recall.pieces), 'piece')}"
    rest = "." if is_board else ", and no other board of these lines does."
    if status == 1:
        found, rest = f"none of these lines knows {its}", ". Look at how it is spelled."
    if status == 3:
        rest = ", and more may be missing."
    if status == 5:
        pieces = count(len(recall.doubtful), "piece")
        rest = f". {pieces} may be of another reel: look at them too."
    return f"{begin(recall)}: {found}{rest}"
