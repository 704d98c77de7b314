"""The names by which the files of a line know one another, and by which a desk is asked for them.

A desk names, in its first command, the sealed file from which it was begun.

    first_uid("9f2c..")      # what the desk has that was begun from this file
"""
from __future__ import annotations

SOURCE = "tracedesk"
SEALED = "sealed"  # the folder of a line's sealed files
STATUS = "status"  # next to it: what senders say of themselves
DIGITS = 24  # of a file's SHA-256: in its name, and in the desk that was begun from it
LONGEST_NAME = 59  # letters of a line's name


def first_uid(digits: str) -> str:
    """The first UniqueID of the desk that was begun from the file with these digits."""
    return f"begin-{digits[:DIGITS]}-1"
