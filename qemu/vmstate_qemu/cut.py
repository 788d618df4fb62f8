"""Sections cut out of a stream under the names of their descriptions, and put back."""
from __future__ import annotations

import re
from typing import List, Tuple

from .errors import REFUSED, Trouble, printable
from .stream import Section, Stream

HEAD = b"QEVM\0\0\0\3"
LONGEST_NAME = 100


def plain_name(section: Section) -> str:
    """Returns the name of the section's description, in the letters that a set has."""
    return re.sub(r"[^A-Za-z0-9_.-]", ".", section.part.name or section.name)[:LONGEST_NAME] or "section"


def own_names(sections: List[Section]) -> List[Tuple[str, int]]:
    """Returns a name and instance for each section: those of its description, or the next free instance."""
    names: List[Tuple[str, int]] = []
    for section in sections:
        name, instance = plain_name(section), section.instance
        while (name, instance) in names:
            instance += 1
        names.append((name, instance))
    return names


def head_of(identity: bytes, name: str, instance: int, version: int) -> bytes:
    """Returns the head of a full section."""
    return (b"\4" + identity + bytes([len(name)]) + name.encode() + instance.to_bytes(4, "big")
            + version.to_bytes(4, "big"))


def cut(stream: Stream, sections: List[Section]) -> bytes:
    """Returns a stream of these sections alone, each under the name of its description, as `set` names them."""
    parts = [HEAD]
    for section, (name, instance) in zip(sections, own_names(sections)):
        parts += [head_of(section.identity, name, instance, section.version), stream.body(section),
                  b"\x7e" + section.identity]
    return b"".join(parts) + b"\0"


def body_of_packed(packed: bytes, stream: Stream, section: Section, name: str) -> bytes:
    """Returns the body of the one section in a packed stream, to be put in the place of `section`.

    # Errors

    Trouble: it isn't a stream of that section alone, or the body has another length.
    """
    start, end = section.body
    at = 8 + len(head_of(b"\0\0\0\0", *own_names([section])[0], section.version))
    if packed[8:9] == b"\7":
        at += 5 + int.from_bytes(packed[9:13], "big")
    last = at + end - start
    head = head_of(packed[at - len(head_of(bytes(4), *own_names([section])[0], 0)) + 1:][:4],
                   *own_names([section])[0], section.version)
    if packed[:8] != HEAD or packed[at - len(head):at] != head or packed[last:last + 6] != b"\x7e" + head[1:5] + b"\0":
        raise Trouble(f"{name}: no stream of {printable(section.word)} alone, with {end - start} bytes", REFUSED)
    return packed[at:last]
