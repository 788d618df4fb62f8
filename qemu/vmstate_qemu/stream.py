"""The sections of a migration stream: where each begins, how long it is, and what is said of its bytes."""
from __future__ import annotations

from dataclasses import dataclass, field
from itertools import islice
from typing import Dict, Iterator, List, Optional, Tuple

from . import donor as donors
from . import ram
from .description import MOST_LEAVES, Description, Device, Leaf, Part, find, last_byte, leaves
from .donor import Head
from .errors import WORDS, Refused, Trouble, printable
from .source import MAGIC, Source

START, PART, END, FULL, SUBSECTION, DESCRIPTION, CONFIGURATION, COMMAND, FOOTER = 1, 2, 3, 4, 5, 6, 7, 8, 0x7E
IGNORE_SHARED = b"x-ignore-shared"
LONGEST_BODY = 100_000_000


@dataclass(frozen=True)
class Section:
    """A device's section: `at` and `length` are those of the whole, with its head and footer."""

    name: str
    instance: int
    version: int
    identity: bytes
    at: int
    length: int
    is_footed: bool
    part: Part

    @property
    def head(self) -> int:
        """The length of the head."""
        return 14 + len(self.name.encode("utf-8", "surrogateescape"))

    @property
    def body(self) -> Tuple[int, int]:
        """The offsets of the first byte after the head, and of the first one after the fields and subsections."""
        return self.at + self.head, self.at + self.length - 5 * self.is_footed

    @property
    def word(self) -> str:
        """The name as a word of a command, with the instance where it isn't 0."""
        return self.name + (f"@{self.instance}" if self.instance else "")

    def leaves(self) -> List[Leaf]:
        """Returns what is in the section, in the order of the stream.

        # Errors

        Refused: there are more than a million numbers or runs of them.
        """
        found = list(islice(leaves(self.part), MOST_LEAVES + 1))
        if len(found) > MOST_LEAVES:
            raise Refused(self.at, printable(self.word), "the description has more than a million fields of it")
        return found


@dataclass(frozen=True)
class Front:
    """A unit before the devices: `what` it is, its offset and length."""

    what: str
    at: int
    length: int


@dataclass
class Stream:
    """A stream whose sections are found: `end` is the offset of its end mark."""

    source: Source
    machine: Optional[str]
    start: int
    end: int
    sections: List[Section]
    page_size: int = 4096
    ignores_shared: bool = False
    front: List[Front] = field(default_factory=list)

    def body(self, section: Section) -> bytes:
        """Returns the bytes of the fields and subsections of a section.

        # Errors

        Refused: they are more than 100,000,000.
        """
        start, end = section.body
        if end - start > LONGEST_BODY:
            raise Refused(section.at, printable(section.word), "it has more than 100,000,000 bytes, and isn't read")
        return self.source.read(start, end - start)

    def find(self, word: str) -> Section:
        """Returns the section that `word` names.

        A word is NAME, NAME@INSTANCE, NAME@INSTANCE#NTH, or the name of the section's description.

        # Errors

        Trouble: there is none, or several.
        """
        for named in (by_name(self.sections, word), by_description(self.sections, word)):
            if len(named) == 1:
                return named[0]
            if named:
                words = ", ".join(printable(each) for each in self.words_of(named))
                raise Trouble(f"{self.source.name}: several sections are {printable(word)}: {words}", WORDS)
        raise Trouble(f"{self.source.name}: no section is {printable(word)}; `list` has the names", WORDS)

    def words_of(self, sections: List[Section]) -> Iterator[str]:
        """Yields a word for each of the sections, with `#2` for the second one of a name and instance."""
        for section in sections:
            same = [each for each in self.sections if (each.name, each.instance) == (section.name, section.instance)]
            nth = [each.at for each in same].index(section.at) + 1
            yield section.word if len(same) == 1 else f"{section.name}@{section.instance}#{nth}"

    def word_of(self, section: Section) -> str:
        """Returns the word that names `section` alone."""
        return next(self.words_of([section]))


def by_name(sections: List[Section], word: str) -> List[Section]:
    """Returns the sections of this name, where `@INSTANCE` and `#NTH` may follow. Without them it's the instance 0."""
    exact = [each for each in sections if each.name == word]
    if exact:
        return [each for each in exact if each.instance == 0] or exact
    front, mark, nth = word.rpartition("#")
    if not mark or not nth.isdigit():
        front, nth = word, ""
    name, mark, instance = front.rpartition("@")
    if not mark or not instance.isdigit():
        name, instance = front, ""
    found = [each for each in sections if each.name == name and (not instance or each.instance == int(instance))]
    if nth:
        return found[int(nth) - 1:int(nth)] if int(nth) else []
    return found


def by_description(sections: List[Section], word: str) -> List[Section]:
    """Returns the sections whose description has this name."""
    return [each for each in sections if each.part.name == word]


def open_stream(path: str, like: Optional[str] = None, snapshot: Optional[str] = None,
                sizes: Optional[donors.Fits] = None) -> Stream:
    """Opens the stream at `path` and finds its sections.

    They are found by the description after its end mark. A stream without one, as `xen-save-devices-state` writes it,
    is read by the description of the stream `like`, of a VM with the same devices, or else by `sizes`.

    # Errors

    Refused: the stream isn't as QEMU writes it, or doesn't fit the description. Trouble: a file can't be read.
    """
    devices = donor_devices(like) if like is not None else None
    return read_stream(Source(path, snapshot), devices, sizes)


def read_stream(source: Source, like: Optional[Tuple[Device, ...]] = None,
                sizes: Optional[donors.Fits] = None) -> Stream:
    """Finds the sections of a stream, by its own description, by the devices of another one, or by `sizes`.

    # Errors

    Refused: the stream isn't as QEMU writes it, or doesn't fit the description.
    """
    stream = opened(source)
    found = find(source)
    if found is not None:
        stream.page_size = found.page_size
        stream.end = found.at - 1
        if stream.end < stream.start or source.read(stream.end, 1) != b"\0":
            raise Refused(stream.end, "", "no end mark is before the description")
        stream.sections = backwards(source, found, stream.start)
        return stream
    if like is None and sizes is None:
        raise Refused(source.size, "", "no description is at the end; give a stream like it (--like) or a set (--set)")
    forwards(stream, sizes if sizes is not None else donors.Donor(like))
    return stream


def donor_devices(path: str) -> Tuple[Device, ...]:
    """Returns the devices that the stream at `path` describes."""
    found = find(Source(path))
    if found is None:
        raise Trouble(f"{printable(path)}: no description is at its end, so no other stream is read by it", WORDS)
    return found.devices


def opened(source: Source) -> Stream:
    """Reads the head and the configuration of a stream."""
    if source.read_some(0, 4) != MAGIC:
        raise Refused(0, "", "this is no migration stream: it doesn't begin with QEVM")
    version = source.number_at(4, 4)
    if version != 3:
        raise Refused(4, "", f"the stream has version {version}, not 3")
    stream = Stream(source, None, 8, source.size, [])
    if source.read_some(8, 1) == bytes([CONFIGURATION]):
        length = source.number_at(9, 4)
        if length > 255:
            raise Refused(8, "", "the name of the machine has more than 255 bytes")
        stream.machine = source.read(13, length).decode("utf-8", "replace")
        stream.start = 13 + length
        read_extras(stream)
    return stream


def read_extras(stream: Stream) -> None:
    """Passes over the subsections of the configuration, of which QEMU 7.2 has three."""
    source = stream.source
    while source.read_some(stream.start, 1) == bytes([SUBSECTION]):
        at = stream.start
        length = source.number_at(at + 1, 1)
        name = source.read(at + 2, length)
        at += 6 + length
        if name == b"configuration/target-page-bits":
            stream.page_size = 1 << min(source.number_at(at, 4), 30)
            at += 4
        elif name == b"configuration/uuid":
            at += 16
        elif name == b"configuration/capabilities":
            count, at = source.number_at(at, 4), at + 4
            for _ in range(count):
                length = source.number_at(at, 1)
                stream.ignores_shared |= source.read(at + 1, length) == IGNORE_SHARED
                at += 1 + length
        else:
            raise Refused(stream.start, "", f"the configuration has an unknown part {printable(name.decode('latin-1'))}"
                          )
        stream.start = at


def backwards(source: Source, found: Description, start: int) -> List[Section]:
    """Finds the sections from the end mark on to the front, each by its exact length, with footers or without."""
    troubles = []
    for is_footed in (True, False):
        sections, at = [], found.at - 1
        try:
            for device in reversed(found.devices):
                section = section_before(source, device, at, is_footed)
                sections.append(section)
                at = section.at
            if at < start:
                raise Refused(at, "", "the description says more than the stream has")
            return sections[::-1]
        except Refused as error:
            troubles.append((len(sections), error))
    raise max(troubles, key=lambda each: each[0])[1]


def section_before(source: Source, device: Device, end: int, is_footed: bool) -> Section:
    """Returns the section of `device` that ends at `end`.

    # Errors

    Refused: the bytes there aren't a section of this device, of the length that the description says.
    """
    name = device.name.encode("utf-8", "surrogateescape")
    length = 14 + len(name) + device.part.length + 5 * is_footed
    at = end - length
    word = printable(device.name)
    if at < 8:
        raise Refused(8, word, f"the description says {length} bytes of it, more than are there")
    head = source.read(at, 14 + len(name), word)
    expected = bytes([FULL]) + head[1:5] + bytes([len(name)]) + name + device.instance.to_bytes(6, "big")[2:]
    if head[:-4] != expected:
        raise Refused(at, word, "the description doesn't fit: no section of this name and instance begins here")
    if is_footed and source.read(end - 5, 5) != bytes([FOOTER]) + head[1:5]:
        raise Refused(end - 5, word, "the description doesn't fit: the section has no footer here")
    version = int.from_bytes(head[-4:], "big")
    return Section(device.name, device.instance, version, head[1:5], at, length, is_footed, device.part)


def forwards(stream: Stream, fits: donors.Fits) -> None:
    """Finds the sections of a stream without a description, from the front on, by what `fits` knows of them."""
    source = stream.source
    at = stream.start
    is_footed: Optional[bool] = None
    for unit in front_units(stream, source.size):
        stream.front.append(unit)
        at = unit.at + unit.length
    while source.read_some(at, 1) == bytes([FULL]):
        head = head_at(source, at)
        part, end = fits.body(source, head)
        if end > source.size:
            raise Refused(source.size, printable(head.name), "the stream ends here")
        footer = source.read_some(end, 5)
        if is_footed is None:
            is_footed = footer[:1] == bytes([FOOTER])
        if is_footed and footer != bytes([FOOTER]) + head.identity:
            raise Refused(end, printable(head.name), "the section doesn't fit what is known of it: no footer is here")
        end += 5 * is_footed
        stream.sections.append(Section(head.name, head.instance, head.version, head.identity, at, end - at, is_footed,
                                       part))
        at = end
    if source.read_some(at, 1) != b"\0":
        raise Refused(at, "", "no section and no end mark begins here")
    if last_byte(source) > at + 1:
        raise Refused(at + 1, "", "more than zeros follow the end mark")
    stream.end = at


def head_at(source: Source, at: int) -> Head:
    """Returns the head of the section that begins at `at`."""
    length = source.number_at(at + 5, 1)
    name = source.read(at + 6, length).decode("utf-8", "surrogateescape")
    after = at + 6 + length
    return Head(name, source.number_at(after, 4), source.number_at(after + 4, 4), source.read(at + 1, 4), at, after + 8)


def front_units(stream: Stream, stop: int) -> Iterator[Front]:
    """Yields the units after the configuration, up to `stop` or the first full section, where the devices begin."""
    source, at = stream.source, stream.start
    names: Dict[bytes, str] = {}
    while at < stop:
        mark = source.number_at(at, 1)
        if mark == COMMAND:
            end, what = at + 5 + source.number_at(at + 3, 2), "command"
        elif mark in (START, PART, END):
            identity = source.read(at + 1, 4)
            body = at + 5
            if mark == START:
                head = head_at(source, at)
                names[identity], body = head.name, head.body
            what = names.get(identity, "")
            if what != "ram":
                raise Refused(at, printable(what), "a section of another kind than RAM, which isn't read")
            end = ram.past_records(source, body, stream.page_size, stream.ignores_shared)
            end += 5 * (source.read_some(end, 5) == bytes([FOOTER]) + identity)
        else:
            return
        yield Front(what, at, end - at)
        at = end
