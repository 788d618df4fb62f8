"""What can go wrong: one line for the reader, and the status of the program."""
from __future__ import annotations

import os
import sys

DONE = 0
REFUSED = 1
WORDS = 2
TEXT = 3
DIFFERENT = 4
FAULT = 5


class Trouble(Exception):
    """A call that ends with one line on standard error and `status`."""

    def __init__(self, message: str, status: int = FAULT) -> None:
        super().__init__(message)
        self.status = status


class Refused(Trouble):
    """A stream that is refused at the offset `at`, in the section `where` or in none, for `reason`."""

    def __init__(self, at: int, where: str, reason: str) -> None:
        super().__init__(f"refused at {at} in {where or '-'}: {reason}", REFUSED)
        self.at = at
        self.where = where
        self.reason = reason


def note(text: str) -> None:
    """Writes a line on standard error. Where that fails, nothing more is written there."""
    try:
        print(text, file=sys.stderr, flush=True)
    except OSError:
        os.dup2(os.open(os.devnull, os.O_WRONLY), 2)


def printable(name: str) -> str:
    """Returns `name` with every control character escaped, so that it stays on one line."""
    return "".join(char if char.isprintable() else char.encode("unicode_escape", "surrogatepass").decode()
                   for char in name)
