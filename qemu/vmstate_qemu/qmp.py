"""A session with a running QEMU over its QMP socket."""
from __future__ import annotations

import json
import select
import socket
import time
from typing import Any, Callable, Dict, Optional

from .errors import FAULT, Trouble, printable
from .files import reason

GREETING_SECONDS = 5.0
ANSWER_SECONDS = 120.0
LONGEST_LINE = 1 << 24


class Session:
    """A session: commands are answered one by one. `events` has the first event STOP and the last event RESUME."""

    def __init__(self, path: str) -> None:
        """Connects to the socket at `path` and waits for QMP's greeting.

        # Errors

        Trouble: there is no such socket, or no QMP behind it, or it serves another client.
        """
        self.name = printable(path)
        self.events: Dict[str, Dict[str, Any]] = {}
        self.waiting = b""
        self.count = 0
        self.socket = socket.socket(socket.AF_UNIX)
        try:
            self.socket.settimeout(GREETING_SECONDS)
            self.socket.connect(path)
            self.socket.setblocking(False)
            self.greet()
        except OSError as error:
            self.close()
            raise Trouble(f"{self.name}: {reason(error)}", FAULT) from None
        except Trouble:
            self.close()
            raise

    def greet(self) -> None:
        """Waits for the greeting, and answers it."""
        greeting = self.message(GREETING_SECONDS)
        if greeting is None:
            raise Trouble(f"{self.name}: no greeting within {GREETING_SECONDS:.0f} s: this is no QMP socket, or "
                          "another client holds it", FAULT)
        if not isinstance(greeting.get("QMP"), dict):
            raise Trouble(f"{self.name}: this is no QMP socket", FAULT)
        self.execute("qmp_capabilities")

    def close(self) -> None:
        """Ends the session."""
        self.socket.close()

    def message(self, seconds: Optional[float], meanwhile: Optional[Callable[[], None]] = None) -> Optional[Dict]:
        """Returns the next message, or none if none comes within `seconds`. Calls `meanwhile` while it waits.

        # Errors

        Trouble: the connection ended, or what came is no message of QMP.
        """
        end = None if seconds is None else time.monotonic() + seconds
        while b"\n" not in self.waiting:
            if end is not None and time.monotonic() >= end:
                return None
            if meanwhile is not None:
                meanwhile()
            if not select.select([self.socket], [], [], 0.1)[0]:
                continue
            try:
                some = self.socket.recv(1 << 16)
            except BlockingIOError:
                continue
            except OSError as error:
                raise Trouble(f"{self.name}: {reason(error)}", FAULT) from None
            if len(self.waiting) > LONGEST_LINE:
                raise Trouble(f"{self.name}: this is no QMP socket: a line has more than 16 MiB", FAULT)
            if not some:
                raise Trouble(f"{self.name}: the connection ended; QEMU may have ended too", FAULT)
            self.waiting += some
        line, self.waiting = self.waiting.split(b"\n", 1)
        try:
            found = json.loads(line)
        except (ValueError, RecursionError):
            found = None
        if not isinstance(found, dict):
            raise Trouble(f"{self.name}: this is no QMP socket", FAULT)
        return found

    def execute(self, command: str, meanwhile: Optional[Callable[[], None]] = None, **arguments: Any) -> Any:
        """Executes a command and returns its answer. With `meanwhile` QEMU may take any time for it.

        # Errors

        Trouble: QEMU refuses the command, doesn't answer within two minutes, or the connection ends.
        """
        end = None if meanwhile is not None else time.monotonic() + ANSWER_SECONDS
        self.count += 1
        text = json.dumps({"execute": command, "id": self.count, "arguments": arguments}).encode() + b"\n"
        try:
            self.socket.setblocking(True)
            self.socket.sendall(text)
            self.socket.setblocking(False)
        except OSError as error:
            raise Trouble(f"{self.name}: {reason(error)}", FAULT) from None
        while True:
            left = None if end is None else end - time.monotonic()
            found = self.message(left, meanwhile) if left is None or left > 0 else None
            if found is None:
                raise Trouble(f"{self.name}: {command}: no answer within {ANSWER_SECONDS:.0f} s", FAULT)
            if found.get("event") == "RESUME" or (found.get("event") == "STOP" and "STOP" not in self.events):
                self.events[found["event"]] = found
            if found.get("id") != self.count:
                continue
            if "error" in found:
                said = found["error"].get("desc", "") if isinstance(found["error"], dict) else ""
                raise Trouble(f"{self.name}: {command}: {printable(str(said))}", FAULT)
            return found.get("return")
