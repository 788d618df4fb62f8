"""The proved program `vmstate`, which this one calls."""
from __future__ import annotations

import json
import os
import shutil
import subprocess
import tempfile
from dataclasses import dataclass
from typing import Any, Dict, Optional, Union

from .errors import FAULT, Trouble, printable

VARIABLE = "VMSTATE"


@dataclass(frozen=True)
class Answer:
    """What a call answered."""

    status: int
    out: bytes
    notes: str


def path_of(word: Optional[str] = None) -> str:
    """Returns the path of the program: `word`, or the variable VMSTATE, or `vmstate` on the path.

    # Errors

    Trouble: there is none.
    """
    name = word or os.environ.get(VARIABLE) or "vmstate"
    found = shutil.which(name)
    if found is None:
        raise Trouble(f"{printable(name)}: no such program; put vmstate on the path, or name it by --vmstate", FAULT)
    return os.path.abspath(found)


class Shelf:
    """A folder of its own with description files and texts, in which the program is called. Use it with `with`."""

    def __init__(self, program: str) -> None:
        self.program = program
        self.folder = tempfile.TemporaryDirectory(prefix="vmstate-qemu-")

    def __enter__(self) -> "Shelf":
        return self

    def __exit__(self, *_: object) -> None:
        self.folder.cleanup()

    def put(self, name: str, value: Union[bytes, Dict[str, Any]]) -> str:
        """Writes the bytes, or the set as a description file, under `name`, and returns the name."""
        with open(os.path.join(self.folder.name, name), "wb") as file:
            file.write(value if isinstance(value, bytes) else json.dumps(value, separators=(",", ":")).encode())
        return name

    def call(self, *words: str, given: bytes = b"") -> Answer:
        """Calls the program with `words`, with `given` as its input.

        # Errors

        Trouble: it can't be called, or was ended by a signal.
        """
        try:
            done = subprocess.run([self.program, *words], input=given, capture_output=True, cwd=self.folder.name,
                                  check=False)
        except OSError as error:
            raise Trouble(f"{self.program}: {error.strerror}", FAULT) from None
        if done.returncode < 0:
            raise Trouble(f"{self.program} was ended by signal {-done.returncode}", FAULT)
        return Answer(done.returncode, done.stdout, done.stderr.decode("utf-8", "replace").strip())
