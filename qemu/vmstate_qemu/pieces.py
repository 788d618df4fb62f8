"""Pieces of a section, each small enough for a set of its own, through which its numbers are edited."""
from __future__ import annotations

import re
from dataclasses import dataclass
from typing import Any, Dict, List

from .description import Leaf
from .errors import FAULT, TEXT, Trouble, printable
from .program import Shelf

MOST_FIELDS = 250
MOST_NUMBERS = 16000
NAME = b"piece"
HEAD = b"QEVM\0\0\0\3"
SECTION = b"\4\0\0\0\0" + bytes([len(NAME)]) + NAME + b"\0\0\0\0" + b"\0\0\0\1"
FOOTER = b"\x7e\0\0\0\0"


@dataclass(frozen=True)
class Item:
    """A run of a leaf in a piece: its elements from `first` on, of one `kind` each, `at` in the section's body."""

    leaf: Leaf
    kind: str
    first: int
    count: int
    at: int
    width: int

    @property
    def length(self) -> int:
        """The number of bytes."""
        return self.count * self.width


def items_of(leaves: List[Leaf]) -> List[Item]:
    """Returns the leaves as items of at most 16,000 numbers each. What has no numbers is bytes."""
    items = []
    for leaf in leaves:
        is_bytes = leaf.kind in ("bytes", "unused", "sub")
        kind, width = ("u8", 1) if is_bytes else (leaf.kind, leaf.size)
        whole = leaf.length // width
        for first in range(0, whole, MOST_NUMBERS):
            count = min(MOST_NUMBERS, whole - first)
            items.append(Item(leaf, kind, first, count, leaf.at + first * width, width))
    return items


def pieces_of(leaves: List[Leaf]) -> List[List[Item]]:
    """Returns the items in pieces that a set can describe, in the order of the stream."""
    pieces: List[List[Item]] = []
    room = 0
    for item in items_of(leaves):
        if not pieces or len(pieces[-1]) >= MOST_FIELDS or item.count > room:
            pieces.append([])
            room = MOST_NUMBERS
        pieces[-1].append(item)
        room -= item.count
    return pieces


def set_of(piece: List[Item]) -> Dict[str, Any]:
    """Returns a set for a piece, with the fields `f0`, `f1` and so on."""
    fields = [{"name": f"f{index}", "kind": item.kind, "count": item.count} for index, item in enumerate(piece)]
    return {"machines": [], "structs": [],
            "devices": [{"instance": 0, "desc": {"name": NAME.decode(), "version": 1, "fields": fields}}]}


def changed(shelf: Shelf, piece: List[Item], body: bytes, numbers: Dict[int, int]) -> bytes:
    """Returns the bytes of a piece with other numbers, by `vmstate show` and `vmstate pack`.

    `numbers` has the new numbers by their offsets in the section's body.

    # Errors

    Trouble: the program refuses a number, as one that its kind doesn't have.
    """
    start = piece[0].at
    old = body[start:start + sum(item.length for item in piece)]
    shelf.put("piece.json", set_of(piece))
    shown = shelf.call("show", "piece.json", given=HEAD + SECTION + old + FOOTER + b"\0")
    if shown.status:
        raise Trouble(f"vmstate show: {explained(shown.notes, piece)}", TEXT)
    lines = shown.out.decode().splitlines(keepends=True)
    for line, item, at in lines_of(piece):
        if at in numbers:
            lines[line] = re.sub("= .*", f"= {numbers[at]}", lines[line])
    shelf.put("values", "".join(lines).encode())
    packed = shelf.call("pack", "piece.json", "values")
    if packed.status:
        raise Trouble(f"{explained(packed.notes, piece)}", TEXT)
    front, end = len(HEAD + SECTION), len(HEAD + SECTION) + len(old)
    if packed.out[:front] != HEAD + SECTION or packed.out[end:end + 6] != FOOTER + b"\0":
        raise Trouble("vmstate pack gave another section than it was given", FAULT)
    return packed.out[front:end]


def lines_of(piece: List[Item]):
    """Yields each number of a piece: its line in the text, counted from 0, its item, and its offset in the body."""
    line = 1
    for item in piece:
        for index in range(item.count):
            yield line, item, item.at + index * item.width
            line += 1


def explained(notes: str, piece: List[Item]) -> str:
    """Returns a line of the program with the name of the number that it is about."""
    found = re.match(r"values line (\d+): (\w+)", notes)
    for line, item, at in lines_of(piece) if found else ():
        if line + 1 == int(found[1]):
            return f"{printable(path_at(item.leaf, at))}: not in the range of {item.kind} (vmstate: {notes})"
    return notes


def path_at(leaf: Leaf, at: int) -> str:
    """Returns the path of the number of a leaf that is at this offset of the body."""
    if leaf.count is None and leaf.kind != "bytes":
        return leaf.path
    width = 1 if leaf.kind == "bytes" else leaf.size
    return f"{leaf.path}[{(at - leaf.at) // width}]"
