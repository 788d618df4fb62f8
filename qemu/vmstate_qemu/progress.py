"""A line on standard error that says how far a call is, if standard error is a terminal."""
from __future__ import annotations

import sys
import time
from typing import Optional

WIDTH = 30


class Progress:
    """A line that is written anew, at most ten times a second."""

    def __init__(self, is_shown: Optional[bool] = None) -> None:
        self.is_shown = sys.stderr.isatty() if is_shown is None else is_shown
        self.started = self.written = time.monotonic()
        self.length = 0

    def say(self, text: str, at_once: bool = False) -> None:
        """Writes `text` over the line, unless a text was written less than a tenth of a second ago."""
        now = time.monotonic()
        if self.is_shown and (at_once or now - self.written >= 0.1):
            print("\r" + text.ljust(self.length), end="", file=sys.stderr, flush=True)
            self.length, self.written = len(text), now

    def bar(self, done: int, total: int, more: str = "") -> None:
        """Writes a bar, with the time that is left if the rest is as quick as what is done."""
        passed = time.monotonic() - self.started
        left = f"{passed / done * (total - done):.0f} s left" if done else "-"
        filled = WIDTH * done // max(total, 1)
        self.say(f"[{'#' * filled}{'.' * (WIDTH - filled)}] {done}/{total} {more}, {left}", done == total)

    def clear(self) -> None:
        """Takes the line away."""
        if self.is_shown and self.length:
            print("\r" + " " * self.length + "\r", end="", file=sys.stderr, flush=True)
            self.length = 0
