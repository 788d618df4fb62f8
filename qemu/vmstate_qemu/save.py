"""The devices of a running VM are saved, so that the VM goes on unharmed."""
from __future__ import annotations

import contextlib
import os
import secrets
import stat
import time
from dataclasses import dataclass
from typing import Iterator, Optional

from .errors import FAULT, Trouble, printable
from .files import free_for_a_file, reason
from .progress import Progress
from .qmp import Session

BUSY = {"setup", "active", "cancelling", "postcopy-active", "postcopy-paused", "device", "wait-unplug",
        "pre-switchover"}
NO_STATE = {"inmigrate", "prelaunch-incoming", "finish-migrate"}


@dataclass(frozen=True)
class Saved:
    """What a save did: the size of the file, the VM's status before and after, and how long it stood still."""

    size: int
    before: str
    after: str
    still: Optional[float]

    def sentence(self, path: str) -> str:
        """Returns a sentence that says it."""
        still = "" if self.still is None else f"; it stood still for {self.still * 1000:.1f} ms"
        vm = f"the VM was {self.before} and is {self.after}" if self.before == self.after else \
            f"the VM was {self.before} and is {self.after} now"
        return f"saved {self.size} bytes to {printable(path)}; {vm}{still}"


def save(session: Session, path: str, stops: bool) -> Saved:
    """Saves the state of the VM's devices to `path`, by `xen-save-devices-state` with `live` false.

    QEMU itself stops the VM while it saves and lets it go on. With `stops` it is stopped first, and goes on afterwards
    if it was running. Without `"live": false` QEMU would hand over the disks of a stopped VM, and would abort at its
    next write, save or migration.

    # Errors

    Trouble: a migration is going on, the VM has no state yet, or QEMU or the file system refuses. The VM goes on if it
    was running.
    """
    before = status_of(session)
    if before in NO_STATE:
        raise Trouble(f"{session.name}: the VM is {before}: it has no state of its own to save", FAULT)
    if said(session, "query-migrate") in BUSY:
        raise Trouble(f"{session.name}: a migration of this VM is going on; save it afterwards", FAULT)
    with new_file(path) as new, stopped(session, stops and before == "running"):
        write_devices(session, new)
        size = checked(new)
    return Saved(size, before, status_of(session), stood_still(session))


def status_of(session: Session) -> str:
    """Returns the VM's status, `running` or `paused` mostly.

    # Errors

    Trouble: QEMU says none.
    """
    status = said(session, "query-status")
    if not status:
        raise Trouble(f"{session.name}: query-status: no answer as QEMU gives it", FAULT)
    return printable(status)


def said(session: Session, command: str) -> str:
    """Returns the member `status` of what QEMU answers to `command`, or nothing if there is none."""
    answer = session.execute(command)
    return str(answer.get("status", "")) if isinstance(answer, dict) else ""


@contextlib.contextmanager
def stopped(session: Session, stops: bool) -> Iterator[None]:
    """Stops the VM for the block if `stops`, and lets it go on afterwards, whatever happens in the block."""
    try:
        if stops:
            session.execute("stop")
        yield
    finally:
        if stops:
            session.execute("cont")


@contextlib.contextmanager
def new_file(path: str) -> Iterator[str]:
    """Yields an unused name beside `path`; its file takes the place of `path` once the block is left without an error.

    QEMU makes the file, since it may run as another user.
    """
    free_for_a_file(path)
    target = os.path.abspath(path)
    new = os.path.join(os.path.dirname(target), f".vmstate-qemu-{secrets.token_hex(6)}")
    try:
        yield new
        os.rename(new, target)
    except OSError as error:
        raise Trouble(f"{printable(path)}: {reason(error)}", FAULT) from None
    finally:
        with contextlib.suppress(OSError):
            os.unlink(new)


def write_devices(session: Session, path: str) -> None:
    """Lets QEMU write the devices to the file `path`, and says so on the terminal meanwhile."""
    progress, started = Progress(), time.monotonic()

    def meanwhile() -> None:
        """Says how much there is of the file."""
        with contextlib.suppress(OSError):
            progress.say(f"saving: {os.stat(path).st_size} bytes, {time.monotonic() - started:.0f} s")

    try:
        session.execute("xen-save-devices-state", meanwhile, filename=path, live=False)
    finally:
        progress.clear()


def checked(path: str) -> int:
    """Returns the size of the file that QEMU wrote, which is on the disk afterwards.

    A file that only QEMU's user may read isn't looked at.

    # Errors

    Trouble: it isn't a stream from its head to its end mark.
    """
    if not stat.S_ISREG(os.lstat(path).st_mode):
        raise Trouble("QEMU made something else than a file; nothing is saved", FAULT)
    try:
        file = open(path, "rb")
    except PermissionError:
        return os.stat(path).st_size
    with file:
        os.fsync(file.fileno())
        size = os.fstat(file.fileno()).st_size
        head = file.read(8)
        file.seek(max(size - 1, 0))
        if head != b"QEVM\0\0\0\3" or file.read(1) != b"\0":
            raise Trouble("QEMU wrote something else than a stream; nothing is saved", FAULT)
    return size


def stood_still(session: Session) -> Optional[float]:
    """Returns the seconds between the first event STOP and the last event RESUME, or none if they didn't come."""
    moments = []
    for name in ("STOP", "RESUME"):
        stamp = session.events.get(name, {}).get("timestamp")
        parts = [stamp.get(each) for each in ("seconds", "microseconds")] if isinstance(stamp, dict) else []
        if not parts or any(type(part) is not int or not 0 <= part < 1 << 40 for part in parts):
            return None
        moments.append(parts[0] + parts[1] / 1e6)
    return moments[1] - moments[0]
