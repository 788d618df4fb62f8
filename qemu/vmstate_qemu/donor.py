"""Sections of a stream without a description, read by that of another stream, or measured by the program and a set."""
from __future__ import annotations

from dataclasses import dataclass, replace
from typing import Dict, List, Optional, Protocol, Tuple

from .description import MOST_LEAVES, Device, Entry, Part
from .errors import Refused, printable
from .source import Source

SUBSECTION = 0x05
FURTHEST = 1 << 24


@dataclass(frozen=True)
class Head:
    """The head of a section: its offset `at`, and that of the body after it."""

    name: str
    instance: int
    version: int
    identity: bytes
    at: int
    body: int


class Fits(Protocol):
    """What knows where the body of a section ends."""

    def body(self, source: Source, head: Head) -> Tuple[Part, int]:
        """Returns what is in the body of the section with this head, and where it ends."""


class Donor:
    """The description of another stream, of a VM with the same devices."""

    def __init__(self, devices: Tuple[Device, ...]) -> None:
        self.exact: Dict[Tuple[str, int], List[Part]] = {}
        self.named: Dict[str, Part] = {}
        for device in devices:
            self.exact.setdefault((device.name, device.instance), []).append(device.part)
            self.named.setdefault(device.name, device.part)

    def body(self, source: Source, head: Head) -> Tuple[Part, int]:
        """Returns the part of the donor that fits, with the subsections that came here, and where the body ends.

        # Errors

        Refused: the donor has no such section, or one of another version.
        """
        same = self.exact.get((head.name, head.instance), [])
        known = same.pop(0) if len(same) > 1 else same[0] if same else self.named.get(head.name)
        where = printable(head.name)
        if known is None:
            raise Refused(head.at, where, "the other stream has no section of this name")
        if known.version and known.version != head.version:
            raise Refused(head.at, where, f"it has version {head.version}, and {known.version} in the other stream")
        part, end = fitted(known, source, head.body, where)
        if part.entries and part.entries[-1].is_open and not part.subsections \
                and source.read_some(end, 5) != b"\x7e" + head.identity:
            return self.with_other_length(part, source, end, head)
        if source.read_some(end, 1) == bytes([SUBSECTION]):
            return self.with_unknown(part, source, end, head)
        return part, end

    def with_other_length(self, part: Part, source: Source, end: int, head: Head) -> Tuple[Part, int]:
        """Returns the part with its last field, which a function of QEMU writes, as far as the footer.

        Without such a footer it is returned as it was.
        """
        start = end - part.entries[-1].length
        length = self.to_the_footer(source, start, head.identity)
        if length is None:
            return part, end
        last = replace(part.entries[-1], size=length, count=None)
        return replace(part, entries=part.entries[:-1] + (last,)), start + length

    def with_unknown(self, part: Part, source: Source, at: int, head: Head) -> Tuple[Part, int]:
        """Returns the part with a subsection at `at` that the donor doesn't have, as bytes up to the footer.

        # Errors

        Refused: there is none within 16 MiB.
        """
        where = printable(head.name)
        length = source.number_at(at + 1, 1, where)
        sub = source.read(at + 2, length, where).decode("utf-8", "surrogateescape")
        version, body = source.number_at(at + 2 + length, 4, where), at + 6 + length
        found = self.to_the_footer(source, body, head.identity)
        if found is None:
            raise Refused(at, where, f"a subsection {printable(sub)}, which the other stream doesn't have")
        unknown = Part(sub, version, (Entry("data", "buffer", found, None, None, None),), ())
        return replace(part, subsections=part.subsections + (unknown,)), body + found

    def to_the_footer(self, source: Source, at: int, identity: bytes) -> Optional[int]:
        """Returns how far from `at` the footer of a section is, or none if it isn't within 16 MiB.

        It is the first footer of this section after which the end mark or a section of the donor follows.
        """
        some, footer = source.read_some(at, FURTHEST), b"\x7e" + identity
        found = some.find(footer)
        while found >= 0 and not self.goes_on(source, at + found + 5):
            found = some.find(footer, found + 1)
        return found if found >= 0 else None

    def goes_on(self, source: Source, at: int) -> bool:
        """Whether the end of the stream is at `at`, or a section that the donor has."""
        head = source.read_some(at, 270)
        if head == b"\0":
            return True
        name = head[6:6 + head[5]].decode("utf-8", "surrogateescape") if len(head) > 6 else ""
        return head[:1] == b"\4" and name in self.named


def fitted(part: Part, source: Source, at: int, where: str) -> Tuple[Part, int]:
    """Returns `part` with those of its subsections that came at `at`, and where it ends."""
    entries: List[Entry] = []
    for entry in part.entries:
        if entry.part is None or not holds_subsections(entry.part):
            entries.append(entry)
            at += entry.length
            continue
        if entry.count is not None and entry.count > MOST_LEAVES:
            raise Refused(at, where, "the other stream has more than a million structures in an array of it")
        for index in range(1 if entry.count is None else entry.count):
            inner, end = fitted(entry.part, source, at, where)
            number = index if entry.count is not None else entry.index
            entries.append(replace(entry, part=inner, size=end - at, count=None, index=number))
            at = end
    came: List[Part] = []
    known = {sub.name.encode(): sub for sub in part.subsections}
    while known and source.read_some(at, 1) == bytes([SUBSECTION]):
        length = source.number_at(at + 1, 1, where)
        sub = known.pop(source.read(at + 2, length, where), None)
        if sub is None:
            break
        inner, at = fitted(sub, source, at + 6 + length, where)
        came.append(inner)
    return replace(part, entries=tuple(entries), subsections=tuple(came)), at


def holds_subsections(part: Part) -> bool:
    """Whether the part or a structure in it has subsections."""
    return bool(part.subsections) or any(entry.part is not None and holds_subsections(entry.part)
                                         for entry in part.entries)


def opaque(name: str, version: int, length: int) -> Part:
    """Returns the part of a section of which only the length is known, and that a set has names for its bytes."""
    return Part(name, version, (Entry("data", "uint8", 1, length, None, None),), ())
