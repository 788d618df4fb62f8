"""What `check`, `set` and `explain` are given: a stream, a dump of `-dump-vmstate`, or a description file."""
from __future__ import annotations

from typing import Any, Dict, Optional, Tuple, Union

from . import checking
from .errors import FAULT, TEXT, WORDS, Trouble, printable
from .files import LONGEST, json_of, read_json
from .nodes import Dump, Node, dump_of, is_dump, node_of
from .program import Shelf
from .source import MAGIC, Source
from .stream import Stream, read_stream

MEMBERS = ("machines", "structs", "devices")
Input = Union[Stream, Dump, Dict[str, Any]]


def read(path: str) -> Input:
    """Returns the stream, the dump or the set that the file at `path` is.

    # Errors

    Trouble: it can't be read, or is none of these.
    """
    source = Source(path)
    if source.pieces is not None or source.read_some(0, 4) == MAGIC:
        return read_stream(source)
    if source.size > LONGEST:
        raise Trouble(f"{source.name}: no stream, and more than 64 MiB", FAULT)
    value = json_of(source.read(0, source.size), source.name)
    return dump_of(value, source.name) if is_dump(value) else as_set(value, path)


def as_set(value: Any, path: str) -> Dict[str, Any]:
    """Returns the JSON value if it has the members of a description file."""
    if not isinstance(value, dict) or any(not isinstance(value.get(each), list) for each in MEMBERS):
        raise Trouble(f"{printable(path)}: no stream, no -dump-vmstate and no description file", TEXT)
    return value


def read_set(path: str) -> Dict[str, Any]:
    """Returns the description file at `path`."""
    return as_set(read_json(path), path)


def read_dump(path: Optional[str]) -> Optional[Dump]:
    """Returns the dump at `path`, or none without a path."""
    if path is None:
        return None
    value = read_json(path)
    if not is_dump(value):
        raise Trouble(f"{printable(path)}: not what -dump-vmstate writes", TEXT)
    return dump_of(value, printable(path))


def nodes_of(stream: Stream, dump: Optional[Dump]) -> Dict[str, Node]:
    """Returns a node for each section by its word, joined with the dump if there is one."""
    words = stream.words_of(stream.sections)
    return {word: node_of(section.part, dump.named(section.part.name) if dump else None)
            for section, word in zip(stream.sections, words)}


def checked(old: str, new: str, old_dump: Optional[str], new_dump: Optional[str], program: str) -> checking.Report:
    """Returns the findings of two files of one kind.

    # Errors

    Trouble: the files are of different kinds, or one can't be read.
    """
    pair: Tuple[Input, Input] = (read(old), read(new))
    dumps = (read_dump(old_dump), read_dump(new_dump))
    with Shelf(program) as shelf:
        if isinstance(pair[0], Stream) and isinstance(pair[1], Stream):
            nodes = [nodes_of(stream, dump) for stream, dump in zip(pair, dumps)]
            return checking.check_nodes(shelf, nodes[0], nodes[1], (pair[0].machine, pair[1].machine))
        if any(dumps):
            raise Trouble("--old-dump and --new-dump are for two streams", WORDS)
        if isinstance(pair[0], Dump) and isinstance(pair[1], Dump):
            return checking.check_dumps(shelf, *pair)
        if isinstance(pair[0], dict) and isinstance(pair[1], dict):
            return checking.check_sets(shelf, *pair)
    raise Trouble("OLD and NEW are of different kinds: two streams, two dumps, or two description files", WORDS)
