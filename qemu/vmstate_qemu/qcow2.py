"""The stream that `savevm` keeps in a qcow2 image: where its clusters are."""
from __future__ import annotations

import os
import struct
from dataclasses import dataclass
from typing import TYPE_CHECKING, List, Optional

from .errors import FAULT, Trouble, printable

if TYPE_CHECKING:
    from .source import Source

MAGIC = b"QFI\xfb"
OFFSET = 0x00FFFFFFFFFFFE00
COMPRESSED = 1 << 62
EXTERNAL_DATA, EXTENDED_L2 = 1 << 2, 1 << 4
MOST_SNAPSHOTS = 65536
LARGEST = 1 << 44


@dataclass(frozen=True)
class Snapshot:
    """An entry of the snapshot table: where its first table is, and how long the state of its VM is."""

    number: str
    name: str
    table: int
    entries: int
    state: int
    disk: Optional[int]


class Pieces:
    """The state of a VM in an image, behind the end of its disk, cluster by cluster."""

    def __init__(self, image: Image, snapshot: Snapshot) -> None:
        if snapshot.state > LARGEST:
            raise image.trouble(f"snapshot {printable(snapshot.name)} has a state of more than 16 TiB")
        self.image, self.snapshot, self.size = image, snapshot, snapshot.state
        self.cluster = 1 << image.bits
        self.per_table = self.cluster // image.entry
        disk = image.size if snapshot.disk is None else snapshot.disk
        self.first = -(-disk // (self.cluster * self.per_table))
        self.known, self.table = -1, b""

    def read(self, at: int, length: int) -> bytes:
        """Returns up to `length` bytes of the state at offset `at`: fewer only at the end of the state or file."""
        out = bytearray()
        end = min(at + length, self.size)
        while at < end:
            index, inside = divmod(at, self.cluster)
            some = min(self.cluster - inside, end - at)
            offset = self.offset(index)
            got = bytes(some) if offset is None else os.pread(self.image.number, some, offset + inside)
            out += got
            if len(got) < some:
                break
            at += some
        return bytes(out)

    def offset(self, index: int) -> Optional[int]:
        """Returns where the cluster `index` of the state is in the file, or none where all of it is zero."""
        outer, inner = self.first + index // self.per_table, index % self.per_table
        name = printable(self.snapshot.name)
        if outer >= self.snapshot.entries:
            raise self.image.trouble(f"snapshot {name} has no table for its state")
        if outer != self.known:
            where = int.from_bytes(self.image.at(self.snapshot.table + 8 * outer, 8), "big") & OFFSET
            self.known, self.table = outer, self.image.at(where, self.cluster) if where else bytes(self.cluster)
        entry = int.from_bytes(self.table[inner * self.image.entry:][:8], "big")
        if entry & COMPRESSED:
            raise self.image.trouble(f"snapshot {name} is compressed")
        return entry & OFFSET if entry & OFFSET and not entry & 1 else None


class Image:
    """The parts of an image's header that lead to its snapshots."""

    def __init__(self, source: Source) -> None:
        self.number, self.name = source.number, source.name
        head = self.at(0, 72)
        (self.version, self.bits, self.size, crypt, self.count,
         self.table) = struct.unpack(">4xI12xIQI24xIQ", head)
        features = int.from_bytes(self.at(72, 8), "big") if self.version >= 3 else 0
        if not 2 <= self.version <= 3 or not 9 <= self.bits <= 21 or self.count > MOST_SNAPSHOTS:
            raise self.trouble("is no qcow2 image of version 2 or 3")
        if crypt or features & EXTERNAL_DATA:
            raise self.trouble("is encrypted or keeps its data in another file")
        self.entry = 16 if features & EXTENDED_L2 else 8

    def trouble(self, text: str) -> Trouble:
        """Returns the error that says `text` of this image."""
        return Trouble(f"{self.name}: {text}", FAULT)

    def at(self, at: int, length: int) -> bytes:
        """Returns the `length` bytes of the file at offset `at`."""
        got = os.pread(self.number, length, at) if at < LARGEST else b""
        if len(got) != length:
            raise self.trouble(f"the image ends before {at + length}")
        return got

    def snapshots(self) -> List[Snapshot]:
        """Returns the entries of the snapshot table."""
        found, at = [], self.table
        for _ in range(self.count):
            table, entries, id_length, name_length, state, extra = struct.unpack(">QIHH16xII", self.at(at, 40))
            more = self.at(at + 40, min(extra, 16))
            state = int.from_bytes(more[:8], "big") if len(more) >= 8 else state
            disk = int.from_bytes(more[8:16], "big") if len(more) >= 16 else None
            texts = self.at(at + 40 + extra, id_length + name_length).decode("utf-8", "replace")
            found.append(Snapshot(texts[:id_length], texts[id_length:], table, entries, state, disk))
            at += (40 + extra + id_length + name_length + 7) // 8 * 8
        return found


def snapshot_pieces(source: Source, name: Optional[str]) -> Pieces:
    """Returns where the state of the snapshot `name` is, or of the only one with a state if `name` is none.

    # Errors

    Trouble: the image has no such snapshot, or several and no name is given; or it can't be read.
    """
    image = Image(source)
    found = [each for each in image.snapshots() if each.state]
    fitting = [each for each in found if name is None or name in (each.name, each.number)]
    if len(fitting) != 1:
        names = ", ".join(printable(each.name) for each in found) or "none"
        raise image.trouble(f"say which snapshot by --snapshot; those with a VM's state: {names}")
    return Pieces(image, fitting[0])
