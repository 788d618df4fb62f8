"""What several tests need: the streams, the program, and folders that are gone afterwards."""
from __future__ import annotations

import contextlib
import io
import os
import tempfile
import unittest
from typing import List, Tuple

from tests import HERE
from vmstate_qemu import cli

DATA = os.path.join(HERE, "data")
ISAPC, DEVICES, PC, DUMP = (os.path.join(DATA, name) for name in
                            ("isapc.stream", "isapc.devices", "pc.stream", "dump.json"))


def called(*words: str) -> Tuple[int, str, str]:
    """Returns the status, standard output and standard error of the program with these words."""
    out, notes = io.TextIOWrapper(io.BytesIO(), "utf-8"), io.StringIO()
    with contextlib.redirect_stdout(out), contextlib.redirect_stderr(notes):
        try:
            status = cli.main(list(words))
        except SystemExit as ended:
            status = ended.code
    out.flush()
    return status, out.buffer.getvalue().decode(), notes.getvalue()


def read(path: str) -> bytes:
    """Returns the bytes of a file."""
    with open(path, "rb") as file:
        return file.read()


class Case(unittest.TestCase):
    """A test with a folder of its own."""

    def setUp(self) -> None:
        folder = tempfile.TemporaryDirectory()
        self.addCleanup(folder.cleanup)
        self.folder = folder.name

    def path(self, name: str) -> str:
        """Returns the path of `name` in the folder."""
        return os.path.join(self.folder, name)

    def put(self, name: str, some: bytes) -> str:
        """Writes a file in the folder and returns its path."""
        with open(self.path(name), "wb") as file:
            file.write(some)
        return self.path(name)

    def gives(self, words: List[str], status: int = 0) -> str:
        """Returns standard output of a call that must have this status."""
        got, out, notes = called(*words)
        self.assertEqual(got, status, notes)
        return out

    def says(self, words: List[str], status: int, text: str) -> None:
        """Asserts that a call has this status and one line on standard error, with `text` in it."""
        got, _, notes = called(*words)
        self.assertEqual(got, status, notes)
        self.assertEqual(notes.count("\n"), 1, notes)
        self.assertIn(text, notes)
