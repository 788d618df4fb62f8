"""Streams that are read at any offset, without being held in memory: files, pipes and snapshots of disk images."""
from __future__ import annotations

import os
import stat
import tempfile
import weakref
from typing import Iterator, Optional, Tuple

from . import qcow2
from .errors import FAULT, Refused, Trouble, note, printable
from .files import LONGEST, reason

CHUNK = 1 << 20
STANDARD_INPUT = "-"
MAGIC = b"QEVM"


class Source:
    """A stream in a file: its size, and its bytes at any offset."""

    def __init__(self, path: str, snapshot: Optional[str] = None) -> None:
        """Opens the stream at `path`, or standard input for `-`.

        A pipe is copied to a temporary file first, and a line on standard error says so. If the file is a qcow2 image,
        the stream is that of its snapshot `snapshot`, or of its only one.

        # Errors

        Trouble: the file can't be read, or the image has no such snapshot.
        """
        self.path = path
        self.name = "standard input" if path == STANDARD_INPUT else printable(path)
        self.pieces: Optional[qcow2.Pieces] = None
        try:
            self.number = os.dup(0) if path == STANDARD_INPUT else os.open(path, os.O_RDONLY)
            weakref.finalize(self, os.close, self.number)
            mode = os.fstat(self.number).st_mode
            if stat.S_ISDIR(mode):
                raise Trouble(f"{self.name}: is a folder", FAULT)
            if not stat.S_ISREG(mode):
                self.number = self.spooled()
                weakref.finalize(self, os.close, self.number)
            self.size, self.changed = self.state()
        except OSError as error:
            raise Trouble(f"{self.name}: {reason(error)}", FAULT) from None
        if self.read_some(0, 4) == qcow2.MAGIC:
            self.pieces = qcow2.snapshot_pieces(self, snapshot)
            self.size = self.pieces.size
        elif snapshot is not None:
            raise Trouble(f"{self.name}: is no qcow2 image, so it has no snapshot", FAULT)

    def state(self) -> Tuple[int, int]:
        """Returns the size of the file and the time of its last change."""
        found = os.fstat(self.number)
        return found.st_size, found.st_mtime_ns

    def is_unchanged(self) -> bool:
        """Whether the file is as it was when it was opened. An image may change, since a snapshot in it doesn't."""
        return self.pieces is not None or self.state() == (self.size, self.changed)

    def is_still_at(self, path: str) -> bool:
        """Whether the file at `path` is the one that was opened."""
        return os.path.samestat(os.stat(path), os.fstat(self.number))

    def spooled(self) -> int:
        """Returns the descriptor of a temporary file with all that comes from the pipe.

        # Errors

        Trouble: more than 64 MiB come that are no stream and no image.
        """
        with tempfile.TemporaryFile(prefix="vmstate-qemu-") as copy, os.fdopen(os.dup(self.number), "rb") as pipe:
            head = some = pipe.read(CHUNK)
            while some:
                copy.write(some)
                if head[:4] not in (MAGIC, qcow2.MAGIC) and copy.tell() > LONGEST:
                    raise Trouble(f"{self.name}: no migration stream, and more than 64 MiB", FAULT)
                some = pipe.read(CHUNK)
            copy.flush()
            note(f"{self.name}: a pipe; its {copy.tell()} bytes were copied to a temporary file")
            return os.dup(copy.fileno())

    def read_some(self, at: int, length: int) -> bytes:
        """Returns up to `length` bytes at offset `at`: fewer only at the end of the file."""
        try:
            if self.pieces is not None:
                return self.pieces.read(at, length)
            return os.pread(self.number, length, at)
        except OSError as error:
            raise Trouble(f"{self.name}: {reason(error)}", FAULT) from None

    def read(self, at: int, length: int, where: str = "") -> bytes:
        """Returns the `length` bytes at offset `at`.

        # Errors

        Refused: the stream ends before, in the section `where`.
        """
        got = self.read_some(at, length) if 0 <= at <= self.size and at + length <= self.size else b""
        if len(got) != length:
            raise Refused(min(at, self.size), where, "the stream ends here")
        return got

    def number_at(self, at: int, length: int, where: str = "") -> int:
        """Returns the big-endian number of `length` bytes at offset `at`."""
        return int.from_bytes(self.read(at, length, where), "big")

    def chunks(self, at: int, end: int) -> Iterator[bytes]:
        """Yields the bytes from `at` to `end`, at most a MiB at a time."""
        while at < end:
            got = self.read(at, min(CHUNK, end - at))
            yield got
            at += len(got)
