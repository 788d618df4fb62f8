"""Sections of a stream without a description, measured by the program and a set."""
from __future__ import annotations

import re
from typing import Any, Dict, Set, Tuple

from .description import Part
from .donor import Head, opaque
from .errors import TEXT, Refused, Trouble, printable
from .files import read_json
from .program import Shelf
from .source import Source

HEAD = b"QEVM\0\0\0\3"
LONGEST = 1 << 24


class Measured:
    """A set, of which `vmstate show` says for each section where it ends."""

    def __init__(self, path: str, program: str) -> None:
        whole = read_json(path)
        self.path = printable(path)
        self.shelf = Shelf(program)
        try:
            self.structs = whole["structs"]
            self.devices: Dict[Tuple[str, int], Any] = {
                (device["desc"]["name"], device["instance"]): device for device in whole["devices"]}
            self.seen: Set[Tuple[str, int]] = set()
        except (KeyError, TypeError):
            raise Trouble(f"{self.path}: no description set", TEXT) from None

    def body(self, source: Source, head: Head) -> Tuple[Part, int]:
        """Returns the body as bytes, and where it ends: where the program wants the next section.

        # Errors

        Refused: the set has no such section, or the program refuses it.
        """
        key = head.name, head.instance
        device = self.devices.get(key)
        if key in self.seen:
            raise Refused(head.at, printable(head.name), "the section comes twice, and a set has it once")
        self.seen.add(key)
        if device is None:
            raise Refused(head.at, printable(head.name), f"the set {self.path} has no section of this name")
        self.shelf.put("one.json", {"machines": [], "structs": self.structs, "devices": [device]})
        given = HEAD + source.read_some(head.at, LONGEST)
        answer = self.shelf.call("show", "one.json", given=given)
        found = re.fullmatch(r"refused at (\d+) in (.*): (\w+)", answer.notes)
        if answer.status == 0:
            end = source.size - 1
        elif found and found[3] in ("UnknownSection", "RepeatedSection") and int(found[1]) > 8:
            end = int(found[1]) - 8 + head.at
        elif found:
            raise Refused(int(found[1]) - 8 + head.at, printable(head.name), f"{found[3]} under the set {self.path}")
        else:
            raise Trouble(f"{self.path}: {answer.notes}", TEXT)
        end -= 5 * (source.read_some(end - 5, 5) == b"\x7e" + head.identity)
        return opaque(head.name, head.version, end - head.body), end
