"""RAM in a stream: its records are passed over one by one, and no page is read."""
from __future__ import annotations

from dataclasses import dataclass
from typing import Optional

from .errors import Refused
from .source import Source

ZERO, MEM_SIZE, PAGE, END, CONTINUE, XBZRLE, COMPRESSED = 0x02, 0x04, 0x08, 0x10, 0x20, 0x40, 0x100
MULTIFD_FLUSH = 0x200
FLAGS = 0xFFF
WINDOW = 512


@dataclass
class Window:
    """A few bytes of a stream around the record that is read, so that short records don't need a read each."""

    source: Source
    start: int = 0
    some: bytes = b""

    def number(self, at: int, length: int) -> int:
        """Returns the big-endian number of `length` bytes at offset `at`."""
        inside = at - self.start
        if inside < 0 or inside + length > len(self.some):
            self.start, self.some, inside = at, self.source.read_some(at, WINDOW), 0
        if inside + length > len(self.some):
            raise Refused(at, "ram", "the stream ends here")
        return int.from_bytes(self.some[inside:inside + length], "big")


def past_records(source: Source, at: int, page_size: int, ignores_shared: bool = False) -> int:
    """Returns the offset after the records of RAM at offset `at`, with pages of `page_size` bytes.

    # Errors

    Refused: a record has a flag that QEMU doesn't write to a file, or the stream ends.
    """
    window = Window(source)
    while True:
        word = window.number(at, 8)
        flags, start = word & FLAGS, at
        at += 8
        if flags & MEM_SIZE:
            at = past_blocks(window, at, word & ~FLAGS, ignores_shared)
            continue
        if flags & (ZERO | PAGE | XBZRLE | COMPRESSED) and not flags & CONTINUE:
            at += 1 + window.number(at, 1)
        if flags & ZERO:
            at += 1
        elif flags & PAGE:
            at += page_size
        elif flags & XBZRLE:
            at += 3 + window.number(at + 1, 2)
        elif flags & COMPRESSED:
            at += 4 + window.number(at, 4)
        elif flags == END:
            return at
        elif flags != MULTIFD_FLUSH:
            raise Refused(start, "ram", f"no record of RAM begins with the flags {flags:#x}")


def past_blocks(window: Window, at: int, total: int, ignores_shared: bool) -> int:
    """Returns the offset after the list of RAM blocks at `at`, which have `total` bytes together."""
    plain = 8 if ignores_shared else 0
    for extra in (plain, plain + 8):
        end = end_of_blocks(window, at, total, extra)
        if end is not None:
            return end
    raise Refused(at, "ram", "the lengths of the RAM blocks don't add up")


def end_of_blocks(window: Window, at: int, total: int, extra: int) -> Optional[int]:
    """Returns the offset after a list of blocks with `extra` bytes behind each, or none if the list isn't that."""
    while total > 0:
        at += 1 + window.number(at, 1)
        length = window.number(at, 8)
        if not 0 < length <= total:
            return None
        total -= length
        at += 8 + extra
    return at if window.number(at, 8) & FLAGS in (END, MULTIFD_FLUSH) else None
