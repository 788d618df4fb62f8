"""All faults of two sets: `vmstate check` names the first, which is mended in copies of them, and is asked again."""
from __future__ import annotations

import copy
import re
from dataclasses import dataclass
from typing import Any, Dict, List, Optional, Tuple

from .errors import DIFFERENT, TEXT, Trouble
from .program import Shelf

Set = Dict[str, Any]
MOST_FAULTS = 2000
RULES = {
    1: "a machine of OLD is missing in NEW",
    2: "the device is missing in NEW",
    3: "the device is only in NEW",
    4: "OLD's version is outside the versions that NEW reads",
    5: "NEW lacks the field",
    6: "NEW has a field more",
    7: "the lengths differ",
    8: "the kinds differ",
    9: "the tests differ",
    10: "the names differ",
    11: "NEW has less room",
    12: "the constants differ",
    13: "NEW doesn't know the subsection",
    14: "OLD's version of the subsection is outside the versions that NEW reads",
    15: "NEW has a validation that OLD lacks",
}
LINE = re.compile(r"not compatible: rule (\d+) at (.+) against (.+)")


@dataclass(frozen=True)
class Place:
    """A place of a set: a structure or a device, a subsection of it, and a field."""

    text: str
    struct: Optional[int] = None
    device: Optional[int] = None
    sub: Optional[int] = None
    field: Optional[int] = None

    def part(self, whole: Set) -> Any:
        """Returns the description that the place is in; of `set` the set itself."""
        if self.struct is not None:
            return whole["structs"][self.struct]
        if self.device is None:
            return whole
        desc = whole["devices"][self.device]["desc"]
        return desc if self.sub is None else desc["subsections"][self.sub]

    def names(self, whole: Set) -> List[str]:
        """Returns the names on the way to the place; of `set` none."""
        if self.struct is None and self.device is None:
            return []
        names = [] if self.sub is None else [whole["devices"][self.device]["desc"]["name"]]
        part = self.part(whole)
        return names + [part["name"]] + ([] if self.field is None else [part["fields"][self.field]["name"]])


@dataclass(frozen=True)
class Fault:
    """A rule that fails, with the names on the way to its place in OLD and in NEW, and what it says."""

    rule: int
    line: str
    old: List[str]
    new: List[str]
    says: str


def place_of(text: str) -> Place:
    """Returns the place that a line of `vmstate check` names.

    # Errors

    Trouble: the line isn't of that form.
    """
    if text == "set":
        return Place(text)
    found = re.fullmatch(r"(?:struct (\d+)|device (\d+)(?: sub (\d+))?)(?: field (\d+))?", text)
    if found is None:
        raise Trouble(f"no place of a set: {text}", TEXT)
    return Place(text, *(None if each is None else int(each) for each in found.groups()))


def parsed(line: str) -> Tuple[int, Place, Place]:
    """Returns the rule and the two places that a line of `vmstate check` names.

    # Errors

    Trouble: the line isn't of that form.
    """
    found = LINE.fullmatch(line.strip())
    if found is None:
        raise Trouble(f"no line of vmstate check: {line.strip()}", TEXT)
    return int(found[1]), place_of(found[2]), place_of(found[3])


def explained(line: str, old: Set, new: Set) -> Fault:
    """Returns what a line of `vmstate check` says of these two sets, with names.

    # Errors

    Trouble: the line isn't of that form, or is of other sets.
    """
    rule, old_place, new_place = parsed(line)
    try:
        says = RULES.get(rule, f"rule {rule}")
        if rule in (1, 2, 3):
            return Fault(rule, line, *missing(rule, old, new), says)
        return Fault(rule, line, old_place.names(old), new_place.names(new), says)
    except (KeyError, IndexError, TypeError, StopIteration):
        raise Trouble(f"the line is of other sets: {line}", TEXT) from None


def missing(rule: int, old: Set, new: Set) -> Tuple[List[str], List[str]]:
    """Returns the name of the machine or device that rule 1, 2 or 3 is about, on its side."""
    if rule == 1:
        return [next(each for each in old["machines"] if each not in new["machines"])], []
    keys = [[(each["desc"]["name"], each["instance"]) for each in side["devices"]] for side in (old, new)]
    lacks, other = (keys[0], keys[1]) if rule == 2 else (keys[1], keys[0])
    name, instance = next(each for each in lacks if each not in other)
    found = [name + (f"@{instance}" if instance else "")]
    return (found, []) if rule == 2 else ([], found)


def all_faults(shelf: Shelf, old: Set, new: Set) -> Tuple[List[Fault], bool]:
    """Returns the faults of the two sets, and whether all were found.

    Each is one that `vmstate check` names; it is then mended in copies of the sets. Where a mended set is refused, or
    the same fault comes again, there may be more.

    # Errors

    Trouble: a set is refused as it was given.
    """
    old, new, faults = copy.deepcopy(old), copy.deepcopy(new), []
    while len(faults) < MOST_FAULTS:
        shelf.put("old.json", old)
        shelf.put("new.json", new)
        answer = shelf.call("check", "old.json", "new.json")
        if answer.status == 0:
            return faults, True
        if answer.status != DIFFERENT:
            if faults:
                return faults, False
            raise Trouble(f"vmstate check: {answer.notes}", TEXT)
        fault = mend(answer.notes, old, new)
        if faults and faults[-1] == fault:
            return faults, False
        faults.append(fault)
    return faults, False


def mend(line: str, old: Set, new: Set) -> Fault:
    """Changes the sets so that the fault that a line names is gone, and returns the fault."""
    fault = explained(line, old, new)
    rule, old_place, new_place = parsed(line)
    old_part, new_part = old_place.part(old), new_place.part(new)
    if rule == 1:
        new["machines"] = list(old["machines"])
    elif rule in (2, 3):
        side, name = (old, fault.old[0]) if rule == 2 else (new, fault.new[0])
        side["devices"] = [each for each in side["devices"]
                           if each["desc"]["name"] + (f"@{each['instance']}" if each["instance"] else "") != name]
    elif rule in (4, 14):
        widen(old_part, new_part)
    elif rule == 5:
        del old_part["fields"][old_place.field]
    elif rule == 6:
        del new_part["fields"][new_place.field]
    elif rule == 13:
        del old["devices"][old_place.device]["desc"]["subsections"][old_place.sub]
    elif rule == 15:
        new_part["validate"] = []
    else:
        return mend_pair(fault, old_part["fields"], old_place.field, new_part["fields"], new_place.field)
    return fault


def widen(old_part: Any, new_part: Any) -> None:
    """Makes NEW's description read OLD's version."""
    new_part["minimum"] = min(new_part.get("minimum", new_part["version"]), old_part["version"])
    new_part["version"] = max(new_part["version"], old_part["version"])


def mend_pair(fault: Fault, old: List[Any], k: int, new: List[Any], n: int) -> Fault:
    """Mends two fields that differ: one too many is taken away, a renamed one listed, and else both become one byte."""
    old_name, new_name = old[k]["name"], new[n]["name"]
    known = {old_name, *old[k].get("former", [])}
    if new_name != old_name and not known & set(new[n].get("former", [])):
        if any(old_name == each["name"] or old_name in each.get("former", []) for each in new[n + 1:]):
            del new[n]
            return Fault(fault.rule, fault.line, fault.old, fault.new, "NEW has a field more before it")
        if any(new_name == each["name"] for each in old[k + 1:]):
            del old[k]
            return Fault(fault.rule, fault.line, fault.old, fault.new, "NEW lacks the field")
    if fault.rule == 10:
        new[n]["former"] = (new[n].get("former", []) + [old_name])[-8:]
        return fault
    old[k] = {"name": old_name, "kind": "u8"}
    new[n] = {"name": new_name, "kind": "u8", **({"former": [old_name]} if old_name != new_name else {})}
    return fault
