"""Description sets for `vmstate`, of sections of a stream, of a dump, or of both joined."""
from __future__ import annotations

import re
from dataclasses import dataclass, field, replace
from typing import Any, Dict, List, Optional, Set, Tuple

from .cut import own_names
from .description import Entry, Part
from .errors import TEXT, Trouble, printable
from .nodes import Dump, Node, NodeField, runs_of, take, base_name
from .stream import Section, Stream

LONGEST_NAME = 32
MOST_UNUSED = 4096
LONG_BYTES = 4096
MOST_FIELDS = 256
MOST_ITEMS = 16384
MOST_STRUCTS = 64
LEVELS = 3
NEVER = {"not": {"at_least": 0}}
ALWAYS = {"at_least": 0}
Field = Dict[str, Any]


class NotSaid(Exception):
    """A section that a set has no way to describe by its fields."""


@dataclass
class Maker:
    """The set that is being made, and what has to be said about it."""

    machines: List[str]
    structs: List[Dict[str, Any]] = field(default_factory=list)
    devices: List[Dict[str, Any]] = field(default_factory=list)
    notes: List[str] = field(default_factory=list)

    def whole(self) -> Dict[str, Any]:
        """Returns the set."""
        return {"machines": self.machines, "structs": self.structs, "devices": self.devices}

    def structure(self, name: str, version: int, fields: List[Field]) -> int:
        """Returns the number of a structure with these fields, a new one where there is none yet."""
        for number, known in enumerate(self.structs):
            if (known["version"], known["fields"]) == (version, fields):
                return number
        used = {each["name"] for each in self.structs}
        self.structs.append({"name": unused_name(plain(name), used), "version": version, "fields": fields})
        if len(self.structs) > MOST_STRUCTS:
            raise NotSaid
        return len(self.structs) - 1

    def add(self, section: Section, name: str, instance: int, known: Optional[Node]) -> None:
        """Adds the device for a section, by its fields where a set can have them, and else as its bytes."""
        desc: Dict[str, Any] = {"name": name, "version": section.version}
        structs = list(self.structs)
        try:
            desc.update(self.described(section, name, known))
            if items_of(desc["fields"], self.structs) > MOST_ITEMS:
                raise NotSaid
        except NotSaid:
            self.structs = structs
            self.notes.append(f"{printable(section.word)}: described as its bytes, for this length alone")
            desc = {"name": name, "version": section.version, "fields": bytes_alone(section.part.length)}
        self.devices.append({"instance": instance, "desc": desc})

    def described(self, section: Section, name: str, known: Optional[Node]) -> Dict[str, Any]:
        """Returns the members of a description by its fields."""
        part, known = hoisted(section.part), hoisted_node(known)
        inline = last_inline(part, name)
        fields = self.fields(part.entries, known, 0)
        for sub in part.subsections[:inline]:
            fields += self.headed(sub, "", 0)
        subs = [self.subsection(sub, known) for sub in part.subsections[inline:]]
        came = {sub.name for sub in part.subsections}
        subs += [self.absent(sub) for sub in (known.subsections if known else ()) if sub.name not in came
                 and is_tail(sub.name, name)]
        made: Dict[str, Any] = {"fields": self.grouped(distinct(fields), part.name, section.version)}
        if known and known.minimum <= section.version:
            made["minimum"] = known.minimum
        return {**made, **({"subsections": subs} if subs else {})}

    def subsection(self, sub: Part, known: Optional[Node]) -> Dict[str, Any]:
        """Returns the subsection of a set for one that came, which is written always."""
        said = next((each for each in known.subsections if each.name == sub.name), None) if known else None
        fields = self.fields(sub.entries, said, 0)
        for inner in sub.subsections:
            fields += self.headed(inner, "", 0)
        minimum = {"minimum": said.minimum} if said and said.minimum <= sub.version else {}
        return {"name": sub.name, "version": sub.version, **minimum, "needed": ALWAYS,
                "fields": self.grouped(distinct(fields), sub.name, sub.version)}

    def absent(self, sub: Node) -> Dict[str, Any]:
        """Returns the subsection of a set for one that a dump knows and that didn't come: it is never written."""
        return {"name": sub.name, "version": sub.version, "minimum": min(sub.minimum, sub.version), "needed": NEVER,
                "fields": self.grouped(distinct(self.dumped(sub, 0)), sub.name, sub.version)}

    def fields(self, entries: Tuple[Entry, ...], known: Optional[Node], level: int) -> List[Field]:
        """Returns the fields for entries of a stream, with the versions that a dump knows."""
        waiting = list(known.fields) if known else []
        made: List[Field] = []
        for run in runs_of(entries):
            said = take(waiting, base_name(run[0].name))
            since = {"since": said.since} if said and 0 < said.since <= known.version else {}
            made += [{**each, **since} for each in self.run(run, said.node if said else None, level)]
        return made

    def run(self, run: List[Entry], known: Optional[Node], level: int) -> List[Field]:
        """Returns the fields for a field of a stream, or for the elements of an array."""
        first, name = run[0], plain(run[0].name)
        count = first.count if first.index is None else len(run)
        counted = {} if count is None else {"count": count}
        length = sum(entry.length for entry in run)
        if length == 0:
            return []
        if first.part is not None:
            return self.structs_of(run, known, level, counted)
        if first.type == "unused_buffer" and count is None and length <= MOST_UNUSED:
            return [{"name": name, "kind": "unused", "size": length}]
        if first.kind is not None and not (first.kind == "u8" and length > LONG_BYTES):
            return [{"name": name, "kind": first.kind, **counted}]
        return bytes_of(name, length)

    def structs_of(self, run: List[Entry], known: Optional[Node], level: int, counted: Dict[str, int]) -> List[Field]:
        """Returns the field for structures that are alike, or else the fields of each in its place."""
        first = run[0].part
        is_alike = all(entry.part is not None and entry.part == first for entry in run)
        if is_alike and not first.subsections and level < LEVELS:
            inner = self.grouped(distinct(self.fields(first.entries, known, level + 1)), first.name, first.version)
            return [{"name": plain(run[0].name), "kind": "struct",
                     "struct": self.structure(first.name, first.version, inner), **counted}]
        made: List[Field] = []
        for index, entry in enumerate(run):
            if entry.part is None or entry.count is not None:
                raise NotSaid
            prefix = f"{entry.name}.{index}." if entry.index is not None else entry.name + "."
            each = self.fields(entry.part.entries, None, level)
            for sub in entry.part.subsections:
                each += self.headed(sub, "", level)
            made += [{**one, "name": plain(prefix + one["name"])} for one in each]
        return made

    def headed(self, sub: Part, prefix: str, level: int) -> List[Field]:
        """Returns the fields for a subsection in the place where a set can't have one: its head is bytes."""
        tail = sub.name.rpartition("/")[2]
        made = [{"name": plain(f"{prefix}{tail}.head"), "kind": "u8", "count": 6 + len(sub.name.encode())}]
        made += self.fields(sub.entries, None, level)
        for inner in sub.subsections:
            made += self.headed(inner, "", level)
        return made

    def dumped(self, node: Node, level: int) -> List[Field]:
        """Returns the fields for a description of a dump, with kinds by their sizes."""
        made: List[Field] = []
        for each in node.fields:
            since = {"since": each.since} if 0 < each.since else {}
            if each.node is not None:
                node = each.node
                inner = self.grouped(distinct(self.dumped(node, level + 1)), node.name, node.version)
                if inner and level < LEVELS:
                    made.append({"name": plain(each.name), "kind": "struct",
                                 "struct": self.structure(node.name, node.version, inner), **since})
            elif each.size:
                made += [{**one, **since} for one in dumped_field(each)]
        return made

    def grouped(self, fields: List[Field], name: str, version: int) -> List[Field]:
        """Returns the fields, or structures of 200 each where there are more than a description can have."""
        if len(fields) <= MOST_FIELDS:
            return fields
        return [{"name": f"part.{index}", "kind": "struct",
                 "struct": self.structure(f"{name}.{index}", version, fields[at:at + 200])}
                for index, at in enumerate(range(0, len(fields), 200))]


def hoisted(part: Part) -> Part:
    """Returns the part with the subsections of its last field as its own, where that is a structure: the same bytes."""
    last = part.entries[-1] if part.entries else None
    if last is None or last.part is None or last.count is not None or last.index is not None:
        return part
    inner = replace(last.part, subsections=())
    return replace(part, entries=part.entries[:-1] + (replace(last, part=inner, size=inner.length),),
                   subsections=last.part.subsections + part.subsections)


def hoisted_node(node: Optional[Node]) -> Optional[Node]:
    """Returns the same of what a dump says."""
    last = node.fields[-1] if node is not None and node.fields else None
    if last is None or last.node is None:
        return node
    inner = replace(last.node, subsections=())
    return replace(node, fields=node.fields[:-1] + (replace(last, node=inner),),
                   subsections=last.node.subsections + node.subsections)


def plain(name: str) -> str:
    """Returns the name of a field in the letters that a set has, `a[0]` as `a.0`."""
    return re.sub(r"[^A-Za-z0-9_.-]", "_", re.sub(r"\[([^]]*)\]", r".\1", name))[-LONGEST_NAME:] or "_"


def unused_name(name: str, used: Set[str]) -> str:
    """Returns `name`, or one like it that isn't used."""
    index, wanted = 2, name
    while name in used:
        name, index = f"{wanted[:LONGEST_NAME - 5]}-{index}", index + 1
    return name


def distinct(fields: List[Field]) -> List[Field]:
    """Returns the fields with names that are distinct."""
    used: Set[str] = set()
    made = []
    for each in fields:
        name = unused_name(each["name"], used)
        used.add(name)
        made.append({**each, "name": name})
    return made


def is_tail(name: str, device: str) -> bool:
    """Whether a set can have a subsection of this name in this device."""
    return name.startswith(device + "/") and bool(re.fullmatch("[A-Za-z0-9_.-]{1,64}", name[len(device) + 1:]))


def last_inline(part: Part, name: str) -> int:
    """Returns how many of the subsections, the first ones, are described as fields."""
    said = [is_tail(sub.name, name) for sub in part.subsections]
    return len(said) - said[::-1].index(False) if False in said else 0


def bytes_of(name: str, length: int) -> List[Field]:
    """Returns a field for so many bytes, or two of which the first takes eight at a time."""
    if length <= LONG_BYTES:
        return [{"name": name, "kind": "u8", "count": length}]
    return bytes_alone(length, name + ".")


def bytes_alone(length: int, before: str = "") -> List[Field]:
    """Returns the fields for so many bytes, eight at a time, and what is left over."""
    wide, rest = divmod(length, 8)
    made = [{"name": (before + "wide")[-LONGEST_NAME:], "kind": "u64", "count": wide},
            {"name": (before + "bytes")[-LONGEST_NAME:], "kind": "u8", "count": rest}]
    return [each for each in made if each["count"]]


def dumped_field(each: NodeField) -> List[Field]:
    """Returns the fields for a field of a dump."""
    if each.kind == "unused" and each.size <= MOST_UNUSED:
        return [{"name": plain(each.name), "kind": "unused", "size": each.size}]
    if each.kind in ("bytes", "unused"):
        return bytes_of(plain(each.name), each.size)
    return [{"name": plain(each.name), "kind": each.kind}]


def items_of(fields: List[Field], structs: List[Dict[str, Any]]) -> int:
    """Returns how many numbers, constants and unused items the fields have."""
    count = 0
    for each in fields:
        one = items_of(structs[each["struct"]]["fields"], structs) if each["kind"] == "struct" else 1
        count += one * each.get("count", 1)
    return count


def of_stream(stream: Stream, sections: List[Section], dump: Optional[Dump]) -> Maker:
    """Returns a set of these sections, named as `cut` names them.

    # Errors

    Trouble: a section is longer than any set can describe.
    """
    maker = Maker([stream.machine] if stream.machine else [])
    for section, (name, instance) in zip(sections, own_names(sections)):
        if section.part.length > 8 * MOST_ITEMS:
            raise Trouble(f"{printable(section.word)} has {section.part.length} bytes, more than a set can describe; "
                          "`edit` and `show` take it as it is", TEXT)
        maker.add(section, name, instance, dump.named(section.part.name) if dump else None)
    return maker


def of_dump(dump: Dump, names: List[str]) -> Maker:
    """Returns a set of types of devices, or of descriptions, that a dump has: kinds are guessed from sizes.

    # Errors

    Trouble: there is no such name, or a description has more than a set can say.
    """
    maker = Maker([])
    for name in names:
        node = dump.types.get(name) or dump.named(name)
        if node is None:
            raise Trouble(f"the dump has no {printable(name)}", TEXT)
        device = re.sub(r"[^A-Za-z0-9_.-]", ".", node.name)
        try:
            subs = [maker.absent(sub) for sub in node.subsections if is_tail(sub.name, device)]
            desc = {"name": device, "version": node.version, "minimum": min(node.minimum, node.version),
                    "fields": maker.grouped(distinct(maker.dumped(node, 0)), node.name, node.version)}
        except NotSaid:
            raise Trouble(f"{printable(name)} has more structures than a set can describe", TEXT) from None
        maker.devices.append({"instance": 0, "desc": {**desc, **({"subsections": subs} if subs else {})}})
    maker.notes.append("kinds are guessed from sizes, and the lengths of arrays are unknown: a dump doesn't have them")
    return maker
