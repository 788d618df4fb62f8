"""Values of a section: as numbers, as lines of text, and as JSON."""
from __future__ import annotations

from typing import Any, Dict, Iterator, List, Tuple, Union

from .description import Leaf
from .errors import printable
from .stream import Section, Stream

Value = Union[int, str, List[int]]
SIGNED = {"i8", "i16", "i32", "i64"}


def value_of(leaf: Leaf, body: bytes) -> Value:
    """Returns the value of a leaf in the body of a section: a number, a list of them, or bytes as `0x..`."""
    some = body[leaf.at:leaf.at + leaf.length]
    if leaf.kind == "bytes":
        return "0x" + some.hex()
    numbers = [int.from_bytes(some[at:at + leaf.size], "big", signed=leaf.kind in SIGNED)
               for at in range(0, len(some), leaf.size)]
    return numbers[0] if leaf.count is None else numbers


def values(section: Section, body: bytes) -> Iterator[Tuple[str, Value]]:
    """Yields the path and the value of each number and each run of bytes of a section."""
    for leaf in section.leaves():
        if leaf.kind not in ("unused", "sub"):
            yield leaf.path, value_of(leaf, body)


def text_lines(stream: Stream, section: Section) -> Iterator[str]:
    """Yields the lines of a section: its name, the subsections that came, and each number as `PATH = VALUE`."""
    yield f"section {printable(section.name)} {section.instance} v{section.version}"
    body = stream.body(section)
    for leaf in section.leaves():
        path = printable(leaf.path)
        if leaf.kind == "sub":
            yield f"sub {path} v{leaf.version}"
        elif leaf.kind != "unused":
            value = value_of(leaf, body)
            if isinstance(value, list):
                yield from (f"{path}[{index}] = {number}" for index, number in enumerate(value))
            else:
                yield f"{path} = {value}"


def as_object(stream: Stream, section: Section) -> Dict[str, Any]:
    """Returns a section with its values, for JSON."""
    return {"name": section.name, "instance": section.instance, "version": section.version,
            "description": section.part.name, "offset": section.at, "length": section.length,
            "subsections": [leaf.path for leaf in section.leaves() if leaf.kind == "sub"],
            "values": dict(values(section, stream.body(section)))}
