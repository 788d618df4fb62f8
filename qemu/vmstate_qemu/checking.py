"""Whether a newer QEMU reads what an older one writes: two dumps, two streams or two sets, fault by fault."""
from __future__ import annotations

import re
from dataclasses import asdict, dataclass, field, replace
from typing import Any, Dict, Iterator, List, Optional, Tuple

from .errors import printable
from .mending import RULES, Fault, Set, all_faults
from .nodes import Dump, Node, NodeField, opened_structures, without_versions
from .program import Shelf

MOST_FIELDS = 250
MOST_SUBSECTIONS = 30
MOST_DEVICES = 60
MOST_UNUSED = 4096
RENAMED_TYPES = {"ICH9 LPC": "ICH9-LPC", "ICH9-LPC": "ICH9 LPC", "e1000-82540em": "e1000", "e1000": "e1000-82540em"}


@dataclass
class Finding:
    """A fault, by the rule of `vmstate check` that fails, or a remark, which no rule is about."""

    section: str
    description: str
    says: str
    old: str = ""
    new: str = ""
    rule: Optional[int] = None

    def text(self) -> str:
        """Returns the finding as a line."""
        where = printable(self.section)
        if self.description and self.description != self.section:
            where += ", " + printable(self.description)
        sides = [f"{side} {printable(each)}" for side, each in (("OLD", self.old), ("NEW", self.new)) if each]
        end = f" (rule {self.rule})" if self.rule else ""
        return f"{'fault' if self.rule else 'remark'}: {where}: {self.says}" + ": ".join(["", ", ".join(sides)]) * bool(
            sides) + end


@dataclass
class Report:
    """All findings, and how much was compared."""

    findings: List[Finding] = field(default_factory=list)
    compared: int = 0
    is_whole: bool = True

    @property
    def faults(self) -> List[Finding]:
        """The findings that are faults."""
        return [each for each in self.findings if each.rule is not None]

    def remark(self, section: str, description: str, says: str, old: str = "", new: str = "") -> None:
        """Adds a remark."""
        self.findings.append(Finding(section, description, says, old, new))

    def as_object(self) -> Dict[str, Any]:
        """Returns the report for JSON."""
        return {"compatible": not self.faults, "complete": self.is_whole, "compared": self.compared,
                "findings": [asdict(each) for each in self.findings]}

    def as_text(self) -> str:
        """Returns a line for each finding, and one that counts them."""
        lines = [each.text() for each in self.findings]
        faults, remarks = len(self.faults), len(self.findings) - len(self.faults)
        lines.append(f"{'not compatible' if faults else 'compatible'}: {counted(faults, 'fault')}, "
                     f"{counted(remarks, 'remark')}, {counted(self.compared, 'section')} compared"
                     + ("" if self.is_whole else "; there may be more faults"))
        return "\n".join(lines) + "\n"


def counted(number: int, what: str) -> str:
    """Returns `1 fault` or `2 faults`."""
    return f"{number} {what}" + "s" * (number != 1)


class Pair:
    """Two descriptions as two sets, with names and lengths that a set has."""

    def __init__(self, old: Node, new: Node) -> None:
        self.nodes = (old, new)
        self.names: Dict[Tuple[str, int], str] = {}
        self.fields: Dict[str, str] = {}
        self.codes: Dict[int, int] = {}
        subs = {sub.name: None for node in self.nodes for sub in node.subsections}
        self.subsections = {name: f"d/s{index}" for index, name in enumerate(subs)}

    def name(self, wanted: str, used: Dict[str, int]) -> str:
        """Returns a name of a set for the next field of this name, the same on both sides."""
        used[wanted] = used.get(wanted, 0) + 1
        key = (wanted, used[wanted])
        if key not in self.names:
            plain = re.sub(r"[^A-Za-z0-9_.-]", ".", wanted)[:20]
            self.names[key] = f"{plain}-{len(self.names)}"
            self.fields[self.names[key]] = wanted
        return self.names[key]

    def code(self, length: int) -> int:
        """Returns a short length that stands for `length`, the same on both sides."""
        return self.codes.setdefault(length, len(self.codes) + 2)

    def item(self, each: NodeField) -> Dict[str, Any]:
        """Returns the keys of a field but its name."""
        keys: Dict[str, Any] = {"since": each.since} if each.since else {}
        if each.kind == "struct":
            keys.update(kind="struct", struct=0)
        elif each.is_open:
            return {"kind": "u8", "count": self.code(0), **keys}
        elif each.kind == "unused" and each.size <= MOST_UNUSED:
            return {"kind": "unused", "size": max(each.size, 1), **keys}
        elif each.kind in ("bytes", "unused") or (each.kind == "u8" and each.count is not None):
            return {"kind": "u8", "count": self.code(each.size * (each.count or 1)), **keys}
        else:
            keys["kind"] = each.kind
        return keys if each.count is None else {**keys, "count": self.code(each.count)}

    def sets(self) -> Iterator[Tuple[Set, Set]]:
        """Yields sets for both sides: of 250 fields each, and the first with 30 subsections, or more where needed."""
        sides = []
        for node in self.nodes:
            used: Dict[str, int] = {}
            sides.append([{"name": self.name(each.name, used), **self.item(each)} for each in node.fields])
        longest = max(len(side) for side in sides)
        groups = list(self.subsections.items())
        for start in range(0, max(longest, 1), MOST_FIELDS):
            yield tuple(self.one(node, side[start:start + MOST_FIELDS], groups[:MOST_SUBSECTIONS] if not start else [])
                        for node, side in zip(self.nodes, sides))
        for start in range(MOST_SUBSECTIONS, len(groups), MOST_SUBSECTIONS):
            yield tuple(self.one(node, [], groups[start:start + MOST_SUBSECTIONS]) for node in self.nodes)

    def one(self, node: Node, fields: List[Dict[str, Any]], names: List[Tuple[str, str]]) -> Set:
        """Returns the set of one side with these fields and subsections."""
        known = {sub.name: sub for sub in node.subsections}
        subs = [{"name": token, "version": known[name].version, "fields": [], "needed": {"at_least": 0},
                 "minimum": min(known[name].minimum, known[name].version)} for name, token in names if name in known]
        desc = {"name": "d", "version": node.version, "minimum": min(node.minimum, node.version), "fields": fields}
        structs = [{"name": "s", "version": 1, "fields": [{"name": "x", "kind": "u8"}]}]
        return {"machines": [], "structs": structs,
                "devices": [{"instance": 0, "desc": {**desc, **({"subsections": subs} if subs else {})}}]}

    def told(self, names: List[str], side: int) -> str:
        """Returns the name of a field or subsection, with what it is, or nothing."""
        back = {token: name for name, token in self.subsections.items()}
        last = names[-1] if len(names) > 1 else ""
        if last in back:
            return back[last]
        wanted = self.fields.get(last)
        index = [key[1] for key, token in self.names.items() if token == last]
        same = [each for each in self.nodes[side].fields if each.name == wanted]
        return f"{wanted} ({described(same[index[0] - 1])})" if wanted and len(same) >= index[0] else wanted or ""


def described(each: NodeField) -> str:
    """Returns what a field is, as `u8[16]` or `256 bytes`."""
    if each.kind in ("bytes", "unused"):
        return f"{each.size} bytes" + " unused" * (each.kind == "unused")
    return each.kind + ("" if each.count is None else f"[{each.count}]")


def compare(shelf: Shelf, old: Node, new: Node, section: str, path: str, report: Report) -> None:
    """Adds the findings of two descriptions, and of the structures and subsections in them.

    Two equal descriptions have none: `vmstate check` accepts each set against itself.
    """
    if old == new:
        return
    old = known_alone(old, new, section, path, report)
    old, new = opened_structures(old, new), opened_structures(new, old)
    old, new = without_tested(old, new, section, path, report, 0), without_tested(new, old, section, path, report, 1)
    pair = Pair(old, new)
    for sets in pair.sets():
        faults, is_whole = all_faults(shelf, *sets)
        report.is_whole &= is_whole
        report.findings += [finding(fault, pair, section, path) for fault in faults]
    for mine, other in paired_fields(old, new):
        if mine.since > other.since:
            report.remark(section, path, "NEW has the field in older versions too",
                          f"{mine.name} from version {mine.since}", f"from version {other.since}")
        if mine.is_open and other.is_open and mine.size != other.size:
            report.remark(section, path, "a function of QEMU writes it, with another length in each state",
                          *(f"{each.name} ({described(each)})" for each in (mine, other)))
        if mine.node is not None and other.node is not None:
            inner = f"{path}.{mine.name}"
            structure_remarks(mine.node, other.node, section, inner, report)
            compare(shelf, without_versions(mine.node), without_versions(other.node), section, inner, report)
    for sub in old.subsections:
        its = next((each for each in new.subsections if each.name == sub.name), None)
        if its is not None and sub.is_stream == its.is_stream:
            compare(shelf, sub, its, section, sub.name, report)
        elif its is not None:
            compare(shelf, sub.said or sub, its.said or its, section, sub.name, report)


def known_alone(old: Node, new: Node, section: str, path: str, report: Report) -> Node:
    """Returns OLD without the subsections of which NEW's stream says nothing, which are remarks."""
    if new.is_whole:
        return old
    known = {sub.name for sub in new.subsections}
    for sub in old.subsections:
        if sub.name not in known:
            report.remark(section, path, "the subsection didn't come in NEW; whether NEW knows it, a dump says",
                          sub.name)
    return replace(old, subsections=tuple(sub for sub in old.subsections if sub.name in known))


def without_tested(node: Node, other: Node, section: str, path: str, report: Report, side: int) -> Node:
    """Returns the node without fields that a function of QEMU asks for and `other` doesn't have, which are remarks.

    A dump has all fields. So this is about streams, of which each has the fields that its VM needs.
    """
    there = {each.name for each in other.fields}
    alone = [each for each in node.fields if each.is_tested and each.name not in there]
    if not alone or not (node.is_stream or other.is_stream):
        return node
    for each in alone:
        report.remark(section, path, "the field is in one stream alone; a function of QEMU decides",
                      *("", each.name)[1 - side:])
    return replace(node, fields=tuple(each for each in node.fields if each not in alone))


def structure_remarks(old: Node, new: Node, section: str, path: str, report: Report) -> None:
    """Adds a remark where a structure has another name, or a version that NEW's doesn't have."""
    if old.name != new.name:
        report.remark(section, path, "the structure has another name", old.name, new.name)
    if not new.minimum <= old.version <= new.version:
        report.remark(section, path, "the structure has a version that NEW's doesn't read",
                      f"{old.name} version {old.version}", f"versions {new.minimum} to {new.version}")


def paired_fields(old: Node, new: Node) -> Iterator[Tuple[NodeField, NodeField]]:
    """Yields the fields of the same name on both sides, in OLD's order."""
    waiting: Dict[str, List[NodeField]] = {}
    for each in new.fields:
        waiting.setdefault(each.name, []).append(each)
    for each in old.fields:
        if waiting.get(each.name):
            yield each, waiting[each.name].pop(0)


def finding(fault: Fault, pair: Pair, section: str, path: str) -> Finding:
    """Returns the finding for a fault of two sets that were made of a pair."""
    old, new = pair.told(fault.old, 0), pair.told(fault.new, 1)
    if fault.rule == 4:
        mine, other = pair.nodes
        old, new = f"version {mine.version}", f"versions {other.minimum} to {other.version}"
    return Finding(section, path, fault.says, old, new, fault.rule)


Versions = Dict[Tuple[str, str], Tuple[int, int]]


def compare_names(shelf: Shelf, old: Versions, new: Versions, report: Report) -> None:
    """Adds a fault for each device of OLD that NEW lacks or has in other versions, and for each that only NEW has.

    A device is its own name and that of its description, with its version and the least one that it reads.
    """
    keys = list(dict.fromkeys([*old, *new]))
    for start in range(0, len(keys), MOST_DEVICES):
        group = keys[start:start + MOST_DEVICES]
        sets = [{"machines": [], "structs": [], "devices": [
            {"instance": 0, "desc": {"name": f"t{index}", "version": side[key][0], "minimum": min(side[key]),
                                     "fields": []}}
            for index, key in enumerate(group) if key in side]} for side in (old, new)]
        faults, is_whole = all_faults(shelf, *sets)
        report.is_whole &= is_whole
        for fault in faults:
            key = group[int((fault.old or fault.new)[0][1:])]
            mine, other = (f"version {old[key][0]}", f"versions {new[key][1]} to {new[key][0]}") \
                if fault.rule == 4 else (key[1] if key in old else "", key[1] if key in new else "")
            report.findings.append(Finding(key[0], "", RULES[fault.rule], mine, other, fault.rule))


def check_dumps(shelf: Shelf, old: Dump, new: Dump) -> Report:
    """Returns the findings of two dumps: of each type of device that OLD has."""
    report = Report()
    if old.machine != new.machine:
        report.remark("machine", "", "the dumps are of different machines", old.machine, new.machine)
    there = {name: name if name in new.types else RENAMED_TYPES.get(name, "") for name in old.types}
    pairs = {name: (node, new.types[there[name]]) for name, node in old.types.items() if there[name] in new.types}
    compare_names(shelf, {(name, node.name): old.versions[name] for name, node in old.types.items()},
                  {(name, other.name): new.versions[there[name]] for name, (_, other) in pairs.items()}, report)
    for name, (node, other) in pairs.items():
        report.compared += 1
        compare(shelf, node, other, name, node.name, report)
    return report


def check_nodes(shelf: Shelf, old: Dict[str, Node], new: Dict[str, Node], machines: Tuple[Any, Any]) -> Report:
    """Returns the findings of two streams, section by section."""
    report = Report()
    if machines[0] != machines[1]:
        report.remark("machine", "", "QEMU loads a stream of the same machine alone", *(str(each) for each in machines))
    compare_names(shelf, *({(word, node.name): (1, 1) for word, node in side.items()} for side in (old, new)), report)
    for word, node in old.items():
        if word in new:
            report.compared += 1
            compare(shelf, node, new[word], word, node.name, report)
    return report


def check_sets(shelf: Shelf, old: Set, new: Set) -> Report:
    """Returns the findings of two description sets."""
    report = Report(compared=len(old.get("devices", [])))
    faults, report.is_whole = all_faults(shelf, old, new)
    for fault in faults:
        names = fault.old or fault.new or ["set"]
        report.findings.append(Finding(names[0], names[1] if len(names) > 2 else "", fault.says,
                                       last_of(fault.old), last_of(fault.new), fault.rule))
    return report


def last_of(names: List[str]) -> str:
    """Returns the last of the names on the way to a place, or nothing."""
    return names[-1] if names else ""
