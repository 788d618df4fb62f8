"""What differs between two streams, by device and name."""
from __future__ import annotations

from dataclasses import asdict, dataclass
from typing import Dict, Iterator, List, Optional

from .errors import printable
from .stream import Section, Stream
from .values import Value, values


@dataclass(frozen=True)
class Difference:
    """A value that differs; without a path the whole section is on one side alone."""

    section: str
    path: Optional[str]
    old: Optional[Value]
    new: Optional[Value]

    def text(self) -> str:
        """Returns the difference as a line."""
        if self.path is None:
            return f"{printable(self.section)}: only in {'A' if self.new is None else 'B'}"
        sides = " -> ".join("-" if value is None else str(value) for value in (self.old, self.new))
        return f"{printable(self.section)} {printable(self.path)}: {sides}"

    def as_object(self) -> Dict[str, object]:
        """Returns the difference for JSON."""
        return asdict(self)


def numbered(section: Section, stream: Stream) -> Dict[str, Value]:
    """Returns the values of a section by their paths, with one for each element of an array."""
    found: Dict[str, Value] = {}
    for path, value in values(section, stream.body(section)):
        if isinstance(value, list):
            found.update((f"{path}[{index}]", number) for index, number in enumerate(value))
        else:
            found[path] = value
    return found


def differences(old: Stream, new: Stream, names: List[str]) -> Iterator[Difference]:
    """Yields what differs between the sections of two streams, or between those that `names` name."""
    sides = []
    for stream in (old, new):
        sections = [stream.find(name) for name in names] if names else stream.sections
        sides.append(dict(zip(stream.words_of(sections), sections)))
    for word in dict.fromkeys([*sides[0], *sides[1]]):
        one, other = sides[0].get(word), sides[1].get(word)
        if one is None or other is None:
            yield Difference(word, None, *("there" if each else None for each in (one, other)))
        elif (one.version, one.part, old.body(one)) != (other.version, other.part, new.body(other)):
            yield from in_section(word, one, old, other, new)


def in_section(word: str, one: Section, old: Stream, other: Section, new: Stream) -> Iterator[Difference]:
    """Yields what differs between two sections: the version, and each number or run of bytes."""
    if one.version != other.version:
        yield Difference(word, "version", one.version, other.version)
    mine, its = numbered(one, old), numbered(other, new)
    for path in dict.fromkeys([*mine, *its]):
        if mine.get(path) != its.get(path):
            yield Difference(word, path, mine.get(path), its.get(path))
