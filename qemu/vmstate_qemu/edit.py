"""One section of a stream is edited: its numbers through `vmstate`, every other byte as it was."""
from __future__ import annotations

import os
import re
import shlex
import subprocess
import tempfile
from typing import BinaryIO, Dict, List

from .description import Leaf
from .errors import FAULT, TEXT, WORDS, Trouble, printable
from .files import replacing
from .pieces import changed, pieces_of
from .program import Shelf
from .source import Source
from .stream import Section, Stream
from .values import text_lines


def numbers_of(section: Section, words: List[str]) -> Dict[int, int]:
    """Returns the new numbers that words `PATH=VALUE` name, by their offsets in the section's body.

    # Errors

    Trouble: the section has no such path, or the value is no number, or has another number of bytes.
    """
    by_path = {leaf.path: leaf for leaf in section.leaves() if leaf.kind not in ("unused", "sub")}
    numbers: Dict[int, int] = {}
    for word in words:
        path, mark, value = word.partition("=")
        if not mark:
            raise Trouble(f"{printable(word)}: not of the form PATH=VALUE", WORDS)
        numbers.update(assigned(by_path, path.strip(), value.strip(), section))
    return numbers


def assigned(by_path: Dict[str, Leaf], path: str, value: str, section: Section) -> Dict[int, int]:
    """Returns the numbers of one `PATH=VALUE`, by their offsets: one, or those of all bytes of a token `0x..`."""
    leaf, index = by_path.get(path), None
    if leaf is None:
        element = re.fullmatch(r"(.*)\[(\d+)\]", path, re.DOTALL)
        leaf = by_path.get(element[1]) if element else None
        index = int(element[2]) if element else None
    whole = leaf is not None and index is None and (leaf.kind == "bytes" or leaf.count is not None)
    width = 1 if leaf is not None and leaf.kind == "bytes" else leaf.size if leaf is not None else 1
    if leaf is None or (index is not None and (index + 1) * width > leaf.length):
        raise Trouble(f"{printable(section.word)} has no {printable(path)}; `show` has the names", TEXT)
    if whole:
        return spread(leaf, path, value)
    return {leaf.at + (index or 0) * width: number(path, value)}


def spread(leaf: Leaf, path: str, value: str) -> Dict[int, int]:
    """Returns the numbers of all bytes of a leaf, from a token `0x..` with two digits for each."""
    if leaf.kind != "bytes":
        raise Trouble(f"{printable(path)} is an array: say which element, as {printable(path)}[0]", TEXT)
    if not re.fullmatch(r"0x([0-9a-fA-F]{2})*", value) or len(value) != 2 + 2 * leaf.length:
        raise Trouble(f"{printable(path)} is {leaf.length} bytes: 0x and {2 * leaf.length} digits", TEXT)
    return {leaf.at + index: byte for index, byte in enumerate(bytes.fromhex(value[2:]))}


def number(path: str, value: str) -> int:
    """Returns the number that `value` spells, decimal or as 0x.."""
    if not re.fullmatch(r"-?[0-9]{1,30}|0x[0-9a-fA-F]{1,16}", value):
        raise Trouble(f"{printable(path)}: {printable(value)} is no number", TEXT)
    return int(value, 16 if value.startswith("0x") else 10)


def new_body(shelf: Shelf, section: Section, body: bytes, numbers: Dict[int, int]) -> bytes:
    """Returns the body of a section with other numbers; only pieces with one go through the program.

    # Errors

    Trouble: the program refuses a number.
    """
    whole = bytearray(body)
    for piece in pieces_of(section.leaves()):
        start, end = piece[0].at, piece[-1].at + piece[-1].length
        if any(start <= at < end for at in numbers):
            whole[start:end] = changed(shelf, piece, body, numbers)
    return bytes(whole)


def passed_through(shelf: Shelf, section: Section, body: bytes) -> bytes:
    """Returns the body of a section after all its pieces went through the program, with no number changed."""
    whole = bytearray(body)
    for piece in pieces_of(section.leaves()):
        start, end = piece[0].at, piece[-1].at + piece[-1].length
        whole[start:end] = changed(shelf, piece, body, {})
    return bytes(whole)


def in_editor(stream: Stream, section: Section) -> List[str]:
    """Lets `$VISUAL` or `$EDITOR` edit the text of a section, and returns the lines that differ as `PATH=VALUE`.

    # Errors

    Trouble: there is no editor, it fails, or the text has other lines than before.
    """
    editor = os.environ.get("VISUAL") or os.environ.get("EDITOR")
    if not editor:
        raise Trouble("say PATH=VALUE, or set the variable EDITOR", WORDS)
    before = list(text_lines(stream, section))
    with tempfile.TemporaryDirectory(prefix="vmstate-qemu-") as folder:
        path = os.path.join(folder, "values")
        with open(path, "w", encoding="utf-8") as file:
            file.write("\n".join(before) + "\n")
        try:
            status = subprocess.run([*shlex.split(editor), path], check=False).returncode
        except (OSError, ValueError) as error:
            raise Trouble(f"{printable(editor)}: {error}", FAULT) from None
        if status:
            raise Trouble(f"{printable(editor)} ended with status {status}; nothing is changed", FAULT)
        with open(path, encoding="utf-8", errors="replace") as file:
            after = file.read().splitlines()
    if len(after) != len(before):
        raise Trouble(f"the text had {len(before)} lines and has {len(after)} now; nothing is changed", TEXT)
    changes = []
    for index, (old, new) in enumerate(zip(before, after), 1):
        if old != new:
            path, _, value = new.partition(" = ")
            if path != old.partition(" = ")[0] or " = " not in old:
                raise Trouble(f"line {index} of the text has another name now; nothing is changed", TEXT)
            changes.append(f"{path}={value}")
    return changes


def write(stream: Stream, section: Section, body: bytes, file: BinaryIO) -> None:
    """Writes the stream to `file` with another body for `section`, and checks that each other byte is as it was.

    # Errors

    Trouble: what was written can't be read again, or differs elsewhere; or the stream changed meanwhile.
    """
    start, end = section.body
    for some in stream.source.chunks(0, start):
        file.write(some)
    file.write(body)
    for some in stream.source.chunks(end, stream.source.size):
        file.write(some)
    file.flush()
    if not stream.source.is_unchanged():
        raise Trouble(f"{stream.source.name}: it was changed while it was read; nothing is written", FAULT)
    for first, last in ((0, start), (end, stream.source.size)):
        file.seek(first)
        for some in stream.source.chunks(first, last):
            if file.read(len(some)) != some:
                raise Trouble("what was written isn't what was read; nothing is changed", FAULT)
    file.seek(start)
    if file.read(len(body)) != body or os.fstat(file.fileno()).st_size != stream.source.size:
        raise Trouble("what was written isn't what was packed; nothing is changed", FAULT)


def written(stream: Stream, section: Section, body: bytes, path: str, in_place: bool) -> None:
    """Writes the edited stream to `path`, whole or not at all; `in_place` keeps owner and permissions of the old file.

    # Errors

    Trouble: the stream is no file, so it can't be edited in place; another file has taken its place; or writing fails.
    """
    source: Source = stream.source
    if in_place and (source.pieces is not None or source.path == "-"):
        raise Trouble(f"{source.name}: only a file that is a stream is edited in place", WORDS)
    with replacing(path, source.path if in_place else None) as file:
        write(stream, section, body, file)
        if in_place and not source.is_still_at(path):
            raise Trouble(f"{source.name}: another file took its place meanwhile; nothing is written", FAULT)
