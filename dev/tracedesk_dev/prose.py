"""Habits that make technical English hard to read, and where a page has them.

dev/pages uses it. A finding is a place to look at: some of these words are right in their sentence,
and a text without any of them can still be bad. So a page may have some.
"""
import re
from typing import Iterator

HABITS = {  # what is found: what to write in its place
    "tell, told": ("report, return, print, name", r"\b(?:tells?|told|telling)\b"),
    "stand, stood": (
        "is, appears, holds, is stored",
        r"\b(?:stands?|stood|standing)\b(?! for\b| in for\b)",
    ),
    "beside": ("next to, besides, alongside, as well as", r"\bbeside\b"),
    "of which, by which": ("two sentences", r"\b(?:of|by|in|to|from|on) which\b"),
    "Of the, By these at the start": (
        "the subject first",
        r"(?:^|[.:] )(?:Of|From|By|To) (?:a|an|the|each|these|those|them|what|which|it|this)\b",
    ),
    "is to be, has to be": ("who does it, and a verb", r"\b(?:is|are|was|were|has|have) to be\b"),
    "as it is, as they stand": (
        "unchanged, or the state by name",
        r"\bas (?:it|they) (?:is|are|was|were|stands?|stood)\b",
    ),
    "such a one": (
        "one, or the thing by name",
        r"\bsuch an? one\b|\bsuch as (?:the|a|it) \w+ has\b",
    ),
    "want of, wants": ("lack, needs", r"\bwant of\b|\bwants\b|\bis wanting\b"),
    "at hand, let be": ("loaded, current, left alone", r"\bat hand\b|\blet be\b|\blets? \w+ be\b"),
    "but for, but that": ("except", r"\bbut (?:for|that)\b|; and so\b"),
    "what it keeps": ("a noun", r"\b[Ww]hat (?:it|they|a|an|the|each|was|is|stands|comes|goes)\b"),
    "also where, also by": ("even if, including", r"\balso (?:where|of|by|in|at)\b"),
    "has none": ("has no, with a noun", r"\b(?:has|have|is|are) none\b"),
    "that is there": (
        "exists, or its place",
        r"\b(?:is|are|was|were) there\b(?! (?:a|an|any|no)\b)",
    ),
}


def running_text(page: str) -> Iterator[tuple[int, str]]:
    """Yields each line of a page that isn't code, with its number. Link targets are left out, and
    names in backquotes are one word.
    """
    fenced = False
    for number, line in enumerate(page.splitlines(), 1):
        if line.lstrip().startswith("```"):
            fenced = not fenced
        elif not fenced and not re.fullmatch(r"[\s|:-]*", line):
            yield number, re.sub(r"\]\([^)]*\)", "]", re.sub(r"`[^`]*`", "CODE", line)).strip()


def words_of(page: str) -> int:
    return sum(len(text.split()) for _, text in running_text(page))


def findings(page: str) -> Iterator[tuple[int, str, str]]:
    """Yields the number of a line, what was found there with the words around it, and what to write
    instead.
    """
    for number, text in running_text(page):
        for better, pattern in HABITS.values():
            for found in re.finditer(pattern, text):
                yield number, text[max(0, found.start() - 30) : found.end() + 30].strip(), better
