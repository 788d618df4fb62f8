"""What `check` compares: descriptions from a stream, from `-dump-vmstate`, or from both joined."""
from __future__ import annotations

import re
from dataclasses import dataclass, field, replace
from typing import Any, Dict, List, Optional, Tuple

from .description import Entry, Part
from .errors import TEXT, Trouble, printable

BY_SIZE = {1: "u8", 2: "u16", 4: "u32", 8: "u64"}


@dataclass(frozen=True)
class NodeField:
    """A field: `size` bytes for each of `count` elements, of one `kind`: a number's, `bytes`, `unused` or `struct`.

    `is_tested` is true if a function of QEMU says whether it is there, and `is_open` if one writes as many bytes as the
    state needs.
    """

    name: str
    kind: str
    size: int
    count: Optional[int] = None
    since: int = 0
    node: Optional["Node"] = None
    is_tested: bool = False
    is_open: bool = False


@dataclass(frozen=True)
class Node:
    """A device, structure or subsection, of a stream or of a dump.

    `is_whole` is false if there may be subsections that aren't listed. `said` is what a dump says of one of a stream.
    """

    name: str
    version: int
    minimum: int
    fields: Tuple[NodeField, ...]
    subsections: Tuple["Node", ...]
    is_whole: bool
    is_stream: bool = False
    said: Optional["Node"] = field(default=None, compare=False)


@dataclass(frozen=True)
class Dump:
    """What `-dump-vmstate` wrote: the machine, and for each type of device its description and its versions."""

    machine: str
    types: Dict[str, Node]
    versions: Dict[str, Tuple[int, int]]

    def named(self, name: str) -> Optional[Node]:
        """Returns the first description of this name."""
        return next((node for node in self.types.values() if node.name == name), None)


def is_dump(value: Any) -> bool:
    """Whether a JSON value is what `-dump-vmstate` writes."""
    return isinstance(value, dict) and "vmschkmachine" in value


def dump_of(value: Dict[str, Any], name: str) -> Dump:
    """Returns the dump that a JSON value is.

    # Errors

    Trouble: a part of it isn't as QEMU writes it.
    """
    types: Dict[str, Node] = {}
    versions: Dict[str, Tuple[int, int]] = {}
    try:
        machine = str(value["vmschkmachine"]["Name"])
        for key, each in value.items():
            if key != "vmschkmachine" and "Description" in each:
                types[key] = dumped(each["Description"])
                versions[key] = (int(each["version_id"]), int(each["minimum_version_id"]))
    except (KeyError, TypeError, ValueError, OverflowError, AttributeError, RecursionError) as error:
        raise Trouble(f"{name}: not as -dump-vmstate writes it: {printable(str(error))}", TEXT) from None
    return Dump(machine, types, versions)


def dumped(value: Dict[str, Any]) -> Node:
    """Returns the node for a description in a dump, where a field's kind is guessed from its size."""
    fields = []
    for each in value.get("Fields", []):
        size, inner = int(each["size"]), each.get("Description")
        kind = "struct" if inner else "unused" if each["field"] == "unused" else BY_SIZE.get(size, "bytes")
        node = dumped(inner) if inner else None
        fields.append(NodeField(str(each["field"]), kind, size, None, int(each["version_id"]), node,
                                bool(each["field_exists"])))
    subs = tuple(dumped(each) for each in value.get("Subsections", []))
    versions = int(value["version_id"]), int(value["minimum_version_id"])
    return Node(str(value["name"]), *versions, tuple(fields), subs, True)


def node_of(part: Part, known: Optional[Node] = None) -> Node:
    """Returns the node for a part of a stream, joined with what a dump says of it.

    Kinds, lengths and which fields are there come from the stream; the minimum version, the versions of fields and the
    subsections that didn't come from the dump.
    """
    fields, waiting = [], list(known.fields) if known else []
    for run in runs_of(part.entries):
        name = run[0].name
        said = take(waiting, base_name(name))
        fields += joined_fields(run, said)
    came = tuple(node_of(sub, named(known, sub.name)) for sub in part.subsections)
    names = {sub.name for sub in came}
    more = tuple(sub for sub in known.subsections if sub.name not in names) if known else ()
    minimum = known.minimum if known and known.minimum <= part.version else part.version
    return Node(part.name, part.version, minimum, tuple(fields), came + more, known is not None, True, known)


def named(known: Optional[Node], name: str) -> Optional[Node]:
    """Returns the subsection of this name."""
    return next((sub for sub in known.subsections if sub.name == name), None) if known else None


def base_name(name: str) -> str:
    """Returns a field's name without the number that QEMU adds where a name isn't the only one."""
    return re.sub(r"\[\d+\]$", "", name)


def take(waiting: List[NodeField], name: str) -> Optional[NodeField]:
    """Takes the next field of this name, and those before it, from the fields of a dump."""
    for index, each in enumerate(waiting):
        if base_name(each.name) == name:
            del waiting[:index + 1]
            return each
    return None


def runs_of(entries: Tuple[Entry, ...]) -> List[List[Entry]]:
    """Returns the entries in runs: the elements of an array that have an entry each are one run."""
    runs: List[List[Entry]] = []
    for entry in entries:
        if entry.index and runs and runs[-1][0].name == entry.name and runs[-1][0].index is not None:
            runs[-1].append(entry)
        else:
            runs.append([entry])
    return runs


def joined_fields(run: List[Entry], said: Optional[NodeField]) -> List[NodeField]:
    """Returns the field for a run of entries, or one for each element if the elements differ."""
    first = run[0]
    since, inner, is_tested = (said.since, said.node, said.is_tested) if said else (0, None, False)
    if first.part is not None:
        nodes = [node_of(entry.part, inner) for entry in run if entry.part is not None]
        count = first.count if first.index is None else len(run)
        node: Optional[Node] = nodes[0]
        for other in nodes[1:]:
            node = merged(node, other) if node is not None else None
        if node is not None and len(nodes) == len(run):
            return [NodeField(first.name, "struct", 0, count, since, node, is_tested)]
        return [NodeField(f"{first.name}[{index}]", "struct", 0, None, since, each, is_tested)
                for index, each in enumerate(nodes)]
    length = sum(entry.length for entry in run)
    if length == 0:
        return []
    if first.type == "unused_buffer":
        return [NodeField(first.name, "unused", length, None, since, None, is_tested)]
    if first.kind is None:
        return [NodeField(first.name, "bytes", length, None, since, None, is_tested, first.is_open)]
    count = first.count if first.index is None else len(run)
    return [NodeField(first.name, first.kind, first.size, count, since, None, is_tested)]


def merged(one: Node, other: Node) -> Optional[Node]:
    """Returns the node of elements of an array that differ in which subsections came, or none if they differ more."""
    if (one.name, one.version, len(one.fields)) != (other.name, other.version, len(other.fields)):
        return None
    fields = []
    for mine, its in zip(one.fields, other.fields):
        node = merged(mine.node, its.node) if mine.node is not None and its.node is not None else None
        if replace(mine, node=None) != replace(its, node=None) or (node is None and mine.node is not None):
            return None
        fields.append(replace(mine, node=node))
    known = {sub.name for sub in one.subsections}
    more = tuple(sub for sub in other.subsections if sub.name not in known)
    return replace(one, fields=tuple(fields), subsections=one.subsections + more)


def without_versions(node: Node) -> Node:
    """Returns the node as one of version 1 with the fields that are there at its own version."""
    fields = tuple(replace(each, since=0) for each in node.fields if each.since <= node.version)
    return replace(node, version=1, minimum=1, fields=fields)


def opened_structures(node: Node, other: Node) -> Node:
    """Returns `node` with the fields of a structure in its place, where `other` has them without the structure.

    They take the same bytes: QEMU has moved fields into structures, and out of them, between versions.
    """
    names, there = {each.name for each in node.fields}, {each.name for each in other.fields}
    fields: List[NodeField] = []
    for each in node.fields:
        inner = each.node.fields if each.node is not None and each.count is None else ()
        moved = each.name not in there and inner and inner[0].name in there - names
        fields += [one for one in inner if one.since <= each.node.version] if moved else [each]
    return replace(node, fields=tuple(fields))
