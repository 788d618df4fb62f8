"""Files that are written whole or not at all."""
from __future__ import annotations

import contextlib
import json
import os
import shutil
import stat
import sys
import tempfile
from typing import Any, BinaryIO, Iterator, Optional

from .errors import FAULT, TEXT, Trouble, printable


LONGEST = 1 << 26


def reason(error: OSError) -> str:
    """Returns the text of the operating system for `error`."""
    return error.strerror or str(error)


def free_for_a_file(path: str) -> None:
    """Refuses a `path` where something else than a file is: a folder, or a pipe or device, which a file would replace.

    # Errors

    Trouble: there is such a thing.
    """
    with contextlib.suppress(OSError):
        mode = os.stat(path).st_mode
        if stat.S_ISDIR(mode):
            raise Trouble(f"{printable(path)}: is a folder", FAULT)
        if not stat.S_ISREG(mode):
            raise Trouble(f"{printable(path)}: is a pipe or a device, which no file takes the place of", FAULT)


@contextlib.contextmanager
def replacing(path: str, mode_of: Optional[str] = None) -> Iterator[BinaryIO]:
    """Yields a file that takes the place of `path` once the block is left without an error.

    The bytes go to a new file in the same folder, which is synced and then renamed. After an error it is removed, and
    `path` is as it was. A link at `path` stays, and its target is replaced. With `mode_of`, the permissions are those
    of that file, and so are its owner and group if the user may give files away.

    # Errors

    Trouble: something else than a file is at `path`, or writing fails.
    """
    free_for_a_file(path)
    target = os.path.realpath(path)
    try:
        number, new = tempfile.mkstemp(prefix=".vmstate-qemu-", dir=os.path.dirname(target))
    except OSError as error:
        raise Trouble(f"{printable(path)}: {reason(error)}", FAULT) from None
    try:
        with os.fdopen(number, "w+b") as file:
            yield file
            file.flush()
            os.fsync(file.fileno())
        if mode_of is not None:
            old = os.stat(mode_of)
            with contextlib.suppress(PermissionError):
                os.chown(new, old.st_uid, old.st_gid)
            shutil.copymode(mode_of, new)
        else:
            os.chmod(new, 0o666 & ~umask())
        os.rename(new, target)
    except OSError as error:
        raise Trouble(f"{printable(path)}: {reason(error)}", FAULT) from None
    finally:
        with contextlib.suppress(FileNotFoundError):
            os.unlink(new)


def umask() -> int:
    """Returns the mask of the process for new files."""
    mask = os.umask(0o077)
    os.umask(mask)
    return mask


def write_out(path: Optional[str], text: bytes) -> None:
    """Writes `text` to the file `path`, whole or not at all, or to standard output if there is no path."""
    if path is None or path == "-":
        sys.stdout.buffer.write(text)
        sys.stdout.buffer.flush()
        return
    with replacing(path) as file:
        file.write(text)


def read_bytes(path: str) -> bytes:
    """Returns the bytes of the file at `path`.

    # Errors

    Trouble: it can't be read, or has more than 64 MiB.
    """
    try:
        with open(path, "rb") as file:
            some = file.read(LONGEST + 1)
    except OSError as error:
        raise Trouble(f"{printable(path)}: {reason(error)}", FAULT) from None
    if len(some) > LONGEST:
        raise Trouble(f"{printable(path)}: has more than 64 MiB", FAULT)
    return some


def read_json(path: str) -> Any:
    """Returns the JSON value in the file at `path`.

    # Errors

    Trouble: it can't be read, or is no JSON.
    """
    return json_of(read_bytes(path), printable(path))


def json_of(text: bytes, name: str) -> Any:
    """Returns the JSON value that the text of the file `name` is.

    # Errors

    Trouble: it is no JSON.
    """
    try:
        return json.loads(text)
    except (ValueError, RecursionError) as error:
        raise Trouble(f"{name}: no JSON: {printable(str(error))}", TEXT) from None
