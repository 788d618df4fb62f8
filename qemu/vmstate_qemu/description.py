"""QEMU's own description of a migration stream: what it says of each section, and where each number is."""
from __future__ import annotations

import json
import re
from dataclasses import dataclass
from functools import cached_property
from itertools import accumulate
from typing import Any, Dict, Iterator, List, Optional, Tuple

from .errors import Refused
from .source import Source

WIDTHS = {"u8": 1, "u16": 2, "u32": 4, "u64": 8, "i8": 1, "i16": 2, "i32": 4, "i64": 8, "bool": 1, "timer": 8}
KINDS = {"uint8": "u8", "uint16": "u16", "uint32": "u32", "uint64": "u64", "int8": "i8", "int16": "i16",
         "int32": "i32", "int64": "i64", "bool": "bool", "timer": "timer"}
FIXED = {"buffer", "bitmap", "pci config", "pci irq state", "float64", "CPU_Double_U", "unused_buffer"}
MARK = 0x06
NO_CONTROL = bytes(range(0x20, 0x100))
LONGEST_TEXT = 1 << 26
MOST_ZEROS = 1 << 30
MOST_BYTES = 1 << 48
MOST_LEAVES = 1 << 20
BLOCK = 1 << 20
DEEPEST = 48


class Damaged(Exception):
    """A description that isn't as QEMU writes it."""


@dataclass(frozen=True)
class Entry:
    """A field as QEMU describes it: `count` elements of `size` bytes each, or the element `index` of an array."""

    name: str
    type: str
    size: int
    count: Optional[int]
    index: Optional[int]
    part: Optional["Part"]

    @cached_property
    def kind(self) -> Optional[str]:
        """The kind of its numbers, or none if QEMU itself only calls them bytes."""
        kind = KINDS.get(re.sub(" (equal|le)$", "", self.type))
        return kind if kind and WIDTHS[kind] == self.size else None

    @property
    def is_open(self) -> bool:
        """Whether a function of QEMU writes it, as many bytes as the state needs."""
        return self.kind is None and self.part is None and self.type not in FIXED

    @property
    def length(self) -> int:
        """The number of bytes in the stream."""
        return self.size * (1 if self.count is None else self.count)


@dataclass(frozen=True)
class Part:
    """A device, structure or subsection: its fields in the order of the stream, then the subsections that came."""

    name: str
    version: int
    entries: Tuple[Entry, ...]
    subsections: Tuple["Part", ...]

    @cached_property
    def length(self) -> int:
        """The number of bytes of the fields and subsections in the stream."""
        return sum(entry.length for entry in self.entries) + sum(sub.headed for sub in self.subsections)

    @cached_property
    def filled(self) -> Tuple[Tuple[int, Entry], ...]:
        """The fields that have bytes, each with its offset."""
        ends = accumulate(entry.length for entry in self.entries)
        return tuple((end - entry.length, entry) for entry, end in zip(self.entries, ends) if entry.length)

    @property
    def headed(self) -> int:
        """The number of bytes of a subsection with its head."""
        return 6 + len(self.name.encode()) + self.length


@dataclass(frozen=True)
class Leaf:
    """A number, an array of numbers, or bytes without a name, `at` so many bytes behind the start of a section's body.

    `kind` is that of a number, `bytes`, `unused`, or `sub` for the head of a subsection. `size` is that of one number,
    or of all the bytes. `named` is false where QEMU itself only calls it bytes.
    """

    path: str
    at: int
    size: int
    count: Optional[int]
    kind: str
    named: bool = True
    version: int = 0

    @property
    def length(self) -> int:
        """The number of bytes in the stream."""
        return self.size * (1 if self.count is None else self.count)


@dataclass(frozen=True)
class Device:
    """A section that the description lists."""

    name: str
    instance: int
    part: Part


@dataclass(frozen=True)
class Description:
    """What a stream says of itself, and the offset of the mark before it."""

    at: int
    page_size: int
    devices: Tuple[Device, ...]


def member(value: Dict[str, Any], key: str, kind: type, default: Any = None) -> Any:
    """Returns the member `key` of a JSON object, which has to be of this kind and no negative number."""
    found = value.get(key, default)
    if not isinstance(found, kind) or isinstance(found, bool) or (kind is int and not 0 <= found < MOST_BYTES):
        raise Damaged(f"its member {key!r} isn't as QEMU writes it")
    return found


def part_of(value: Any, name: str, depth: int = 0) -> Part:
    """Returns the part that a JSON object describes; `name` is its own where the object has none."""
    if not isinstance(value, dict) or depth > DEEPEST:
        raise Damaged("a part of it isn't as QEMU writes it")
    entries = tuple(entry_of(each, depth) for each in member(value, "fields", list, []))
    subsections = tuple(part_of(each, "", depth + 1) for each in member(value, "subsections", list, []))
    return Part(member(value, "vmsd_name", str, name), member(value, "version", int, 0), entries, subsections)


def entry_of(value: Any, depth: int) -> Entry:
    """Returns the field that a JSON object describes: a structure only if its length is that of its parts."""
    if not isinstance(value, dict):
        raise Damaged("a field of it isn't as QEMU writes it")
    type_name, size = member(value, "type", str), member(value, "size", int)
    inner = value.get("struct") if type_name == "struct" else value if type_name == "vstruct" else None
    part = part_of(inner, "", depth + 1) if inner is not None else None
    if part is not None and part.length != size:
        part = None
    count = member(value, "array_len", int) if "array_len" in value else None
    index = member(value, "index", int) if "index" in value else None
    if size * (1 if count is None else count) > MOST_BYTES:
        raise Damaged("a field of it is longer than any stream")
    return Entry(member(value, "name", str), type_name, size, count, index, part)


def devices_of(text: bytes) -> Tuple[int, Tuple[Device, ...]]:
    """Returns the size of a page and the devices that QEMU's JSON text describes.

    # Errors

    Damaged: it is no JSON, or isn't as QEMU writes it.
    """
    try:
        whole = json.loads(text.decode("utf-8", "surrogateescape"))
    except (ValueError, RecursionError) as error:
        raise Damaged(f"no JSON: {error}") from None
    if not isinstance(whole, dict):
        raise Damaged("no JSON object")
    if "page_size" not in whole:
        raise Damaged("it is vmstate's own, not QEMU's, and `vmstate analyze` reads it")
    found: List[Device] = []
    for value in member(whole, "devices", list):
        if not isinstance(value, dict):
            raise Damaged("a device of it isn't as QEMU writes it")
        name = member(value, "name", str)
        if not 1 <= len(name.encode("utf-8", "surrogateescape")) <= 255:
            raise Damaged("a device of it has no name, or one of more than 255 bytes")
        instance = member(value, "instance_id", int)
        if instance >> 32:
            raise Damaged("a device of it has an instance of more than 32 bits")
        found.append(Device(name, instance, part_of(value, name)))
    return member(whole, "page_size", int), tuple(found)


def find(source: Source) -> Optional[Description]:
    """Returns the description at the end of `source`, or none if there is none. Zeros after it are passed over.

    # Errors

    Refused: there is one, but it isn't as QEMU writes it.
    """
    end = last_byte(source)
    at = max(last_control(source, end) - 4, 0)
    for mark in range(at, at + 5):
        head = source.read_some(mark, 5)
        if len(head) == 5 and head[0] == MARK and int.from_bytes(head[1:], "big") == end - mark - 5:
            try:
                page_size, devices = devices_of(source.read(mark + 5, end - mark - 5))
            except (Damaged, UnicodeEncodeError) as error:
                raise Refused(mark, "", f"the description isn't as QEMU writes it: {error}") from None
            return Description(mark, page_size, devices)
    return None


def last_byte(source: Source) -> int:
    """Returns the offset after the last byte that isn't zero.

    # Errors

    Refused: more than 1 GiB of zeros are at the end.
    """
    end = source.size
    while end > 0:
        start = max(end - BLOCK, 0)
        some = source.read(start, end - start).rstrip(b"\0")
        if some:
            return start + len(some)
        if source.size - start > MOST_ZEROS:
            raise Refused(start, "", "more than 1 GiB of zeros are at the end")
        end = start
    return 0


def last_control(source: Source, end: int) -> int:
    """Returns the offset of the last control character before `end`; QEMU's JSON has none. Looks back 64 MiB."""
    stop = max(end - LONGEST_TEXT, 0)
    while end > stop:
        start = max(end - 65536, stop)
        some = source.read(start, end - start).rstrip(NO_CONTROL)
        if some:
            return start + len(some) - 1
        end = start
    return 0


def leaves(part: Part, path: str = "", at: int = 0) -> Iterator[Leaf]:
    """Yields what is in a part, in the order of the stream: its numbers, its bytes, and the heads of subsections.

    A number of a subsection has the subsection's name and a colon before its own: `serial/recv_fifo:recv_fifo.num`.
    """
    for inside, entry in part.filled:
        base = path + entry.name + ("" if entry.index is None else f"[{entry.index}]")
        if entry.part is not None:
            yield from elements(entry, entry.part, base, at + inside)
        else:
            yield leaf_of(entry, base, at + inside)
    at += part.length - sum(sub.headed for sub in part.subsections)
    for sub in part.subsections:
        head = 6 + len(sub.name.encode())
        yield Leaf(path + sub.name, at, head, None, "sub", True, sub.version)
        yield from leaves(sub, path + sub.name + ":", at + head)
        at += head + sub.length


def elements(entry: Entry, part: Part, base: str, at: int) -> Iterator[Leaf]:
    """Yields what is in a structure, or in each element of an array of structures."""
    if entry.count is None:
        yield from leaves(part, base + ".", at)
        return
    for index in range(entry.count):
        yield from leaves(part, f"{base}[{index}].", at + index * part.length)


def leaf_of(entry: Entry, path: str, at: int) -> Leaf:
    """Returns the leaf for a field that is no structure: bytes are one, and so is an array of `uint8`."""
    kind = entry.kind
    if entry.type == "unused_buffer":
        return Leaf(path, at, entry.length, None, "unused")
    if kind is None or (kind == "u8" and entry.count is not None):
        return Leaf(path, at, entry.length, None, "bytes", kind is not None)
    return Leaf(path, at, entry.size, entry.count, kind)
