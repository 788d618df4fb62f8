"""What `list` prints: the units of a stream, where they are, and how much of them has names."""
from __future__ import annotations

from typing import Any, Dict, List, Optional

from .errors import Refused, printable
from .stream import Section, Stream, front_units


def share_named(section: Section) -> Optional[int]:
    """Returns how many per cent of the bytes of a section have names of their own, or none if it has no bytes."""
    leaves = section.leaves()
    whole = sum(leaf.length for leaf in leaves)
    named = sum(leaf.length for leaf in leaves if leaf.named)
    return None if whole == 0 else 100 * named // whole


def front_rows(stream: Stream) -> List[Dict[str, Any]]:
    """Returns the units before the devices, RAM mostly, as rows; what can't be read is one row that says why."""
    stop = stream.sections[0].at if stream.sections else stream.end
    rows: List[Dict[str, Any]] = []
    at = stream.start
    try:
        for unit in stream.front or front_units(stream, stop):
            if rows and rows[-1]["name"] == unit.what:
                rows[-1]["length"] += unit.length
            else:
                rows.append({"name": unit.what, "offset": unit.at, "length": unit.length})
            at = unit.at + unit.length
        note = None if at == stop else "not read: no section begins here"
    except Refused as error:
        note = f"not read: {error.reason}"
    if note:
        rows.append({"name": "?", "offset": at, "length": stop - at, "note": note})
    return rows


def section_rows(stream: Stream) -> List[Dict[str, Any]]:
    """Returns the devices as rows."""
    return [{"name": section.name, "instance": section.instance, "version": section.version, "offset": section.at,
             "length": section.length, "named": share_named(section), "description": section.part.name, "word": word}
            for section, word in zip(stream.sections, stream.words_of(stream.sections))]


def as_object(stream: Stream) -> Dict[str, Any]:
    """Returns the list for JSON."""
    return {"file": stream.source.path, "bytes": stream.source.size, "machine": stream.machine,
            "before": front_rows(stream), "sections": section_rows(stream)}


def as_text(stream: Stream) -> str:
    """Returns the list as a table."""
    lines = [f"machine {printable(stream.machine)}"] if stream.machine is not None else []
    lines.append(f"{'offset':>12} {'length':>12} {'named':>6} {'version':>7}  section")
    for row in front_rows(stream):
        lines.append(f"{row['offset']:12} {row['length']:12} {'':6} {'':7}  {printable(row.get('note', row['name']))}")
    for row in section_rows(stream):
        named = "-" if row["named"] is None else f"{row['named']}%"
        lines.append(f"{row['offset']:12} {row['length']:12} {named:>6} {row['version']:7}  {printable(row['word'])}")
    return "\n".join(lines) + "\n"
