"""`save`, against a socket that answers as QEMU does, or worse."""
import json
import os
import socket
import threading
from unittest import mock

from tests.kit import Case, called, read
from vmstate_qemu import qmp

STREAM = b"QEVM\0\0\0\3\0"


def written(path: str) -> None:
    """Writes the stream as QEMU does."""
    with open(path, "wb") as file:
        file.write(STREAM)


class Vm:
    """A server at a socket that answers QMP's commands, and notes them in `commands`."""

    def __init__(self, path: str, status: str = "running", greeting: bytes = b'{"QMP": {}}\n',
                 **answers: object) -> None:
        self.commands: list = []
        self.status, self.greeting, self.answers = status, greeting, answers
        self.server = socket.socket(socket.AF_UNIX)
        self.server.bind(path)
        self.server.listen()
        self.thread = threading.Thread(target=self.serve, daemon=True)
        self.thread.start()

    def serve(self) -> None:
        """Serves one client."""
        client, _ = self.server.accept()
        with client, self.server, client.makefile("rb") as lines:
            try:
                client.sendall(self.greeting)
                for line in lines:
                    said = json.loads(line)
                    self.commands.append(said["execute"])
                    answer = self.answer(said["execute"], said.get("arguments", {}))
                    if answer is None:
                        return
                    for message in answer:
                        client.sendall(json.dumps({**message, **({} if "event" in message else {"id": said["id"]})}
                                                  ).encode() + b"\n")
            except OSError:
                return

    def answer(self, command: str, arguments: dict):
        """Returns the messages that answer a command, or none to end the connection."""
        if command in self.answers:
            return self.answers[command]
        if command == "query-status":
            return [{"return": {"status": self.status, "running": self.status == "running"}}]
        if command in ("stop", "cont"):
            self.status = {"stop": "paused", "cont": "running"}[command]
        if command == "xen-save-devices-state":
            assert arguments["live"] is False
            written(arguments["filename"])
            return [{"event": "STOP", "timestamp": {"seconds": 5, "microseconds": 0}},
                    {"event": "RESUME", "timestamp": {"seconds": 5, "microseconds": 2000}}, {"return": {}}]
        return [{"return": {}}]


class Save(Case):
    """A VM is saved and goes on."""

    def saved(self, *words: str, **how: object):
        """Returns what the call gives, and the commands that the VM got."""
        vm = Vm(self.path("qmp"), **how)
        got, out, notes = called("save", self.path("qmp"), self.path("file"), *words)
        vm.thread.join(10)
        os.unlink(self.path("qmp"))
        self.assertEqual(notes.count("\n"), 1, notes)
        left = sorted(os.listdir(self.folder))
        self.assertEqual(left, ["file"] if got == 0 else [])
        return got, notes, [each for each in vm.commands if not each.startswith("q")]

    def test_a_running_vm_is_saved_and_runs(self):
        got, notes, commands = self.saved()
        self.assertEqual((got, commands, read(self.path("file"))), (0, ["xen-save-devices-state"], STREAM))
        self.assertIn("saved 9 bytes", notes)
        self.assertIn("the VM was running and is running; it stood still for 2.0 ms", notes)

    def test_it_is_stopped_only_where_asked_and_goes_on_only_if_it_ran(self):
        self.assertEqual(self.saved("--stop")[2], ["stop", "xen-save-devices-state", "cont"])
        os.unlink(self.path("file"))
        self.assertEqual(self.saved("--stop", status="paused")[2], ["xen-save-devices-state"])

    def test_it_goes_on_where_qemu_refuses(self):
        bad = {"xen-save-devices-state": [{"error": {"desc": "no room\nhere"}}]}
        got, notes, commands = self.saved("--stop", **bad)
        self.assertEqual((got, commands[-1]), (5, "cont"))
        self.assertIn("xen-save-devices-state: no room\\nhere", notes)

    def test_what_qemu_wrote_must_be_a_stream(self):
        with mock.patch(f"{__name__}.STREAM", b"QEVM"):
            got, notes, _ = self.saved("--stop")
        self.assertEqual(got, 5)
        self.assertIn("something else than a stream", notes)

    def test_a_vm_that_migrates_or_has_no_state_is_left_alone(self):
        got, notes, commands = self.saved(**{"query-migrate": [{"return": {"status": "active"}}]})
        self.assertEqual((got, commands), (5, []))
        self.assertIn("a migration of this VM is going on", notes)
        self.assertEqual(self.saved(status="inmigrate")[::2], (5, []))

    def test_sockets_that_are_not_qmp(self):
        for greeting in (b"SSH-2.0\n", b"{}\n", b"[]\n", b"\xff\n", b'{"QMP": 1}\n'):
            self.assertIn("this is no QMP socket", self.saved(greeting=greeting)[1])
        with mock.patch.object(qmp, "LONGEST_LINE", 1 << 10):
            self.assertIn("a line has more than 16 MiB", self.saved(greeting=b"x" * (1 << 20))[1])
        with mock.patch.object(qmp, "GREETING_SECONDS", 0.3):
            self.assertIn("no greeting within", self.saved(greeting=b"")[1])
        self.says(["save", self.put("plain", b""), self.path("x")], 5, "plain")

    def test_answers_that_are_none_of_qemu(self):
        for answer in (None, 7, [], "running", {}, {"status": ""}):
            for command in ("query-status", "query-migrate"):
                got, notes, commands = self.saved(**{command: [{"return": answer}]})
                if command == "query-status":
                    self.assertEqual((got, commands), (5, []), notes)
                else:
                    self.assertEqual(got, 0, notes)
                    os.unlink(self.path("file"))
        for stamp in (None, 7, [], {}, {"seconds": "1", "microseconds": 2}, {"seconds": 1e400, "microseconds": 0},
                      {"seconds": 10 ** 400, "microseconds": 0}):
            events = [{"event": name, "timestamp": stamp} for name in ("STOP", "RESUME", "OTHER")]
            got, notes, _ = self.saved(**{"query-migrate": [*events, {"return": {}}]})
            self.assertEqual(got, 0, notes)
            os.unlink(self.path("file"))
        self.assertIn("the VM was run\\nning", self.saved(status="run\nning")[1])
        os.unlink(self.path("file"))
        self.assertEqual(self.saved(**{"query-status": [{"error": error} for error in (7,)]})[0], 5)

    def test_what_qemu_made_must_be_a_file(self):
        with mock.patch(f"{__name__}.written", os.mkfifo):
            got, notes, _ = self.saved()
        self.assertEqual(got, 5)
        self.assertIn("something else than a file", notes)

    def test_a_vm_that_does_not_answer(self):
        with mock.patch.object(qmp, "ANSWER_SECONDS", 0.3):
            for command in ("query-status", "query-migrate", "stop"):
                got, notes, commands = self.saved("--stop", **{command: [{"event": "OTHER"}]})
                self.assertEqual(got, 5)
                self.assertIn(f"{command}: no answer within", notes)
                self.assertEqual(commands[-1:], ["cont"] if command == "stop" else [], "a VM that stops late goes on")

    def test_nothing_but_a_file_is_replaced(self):
        os.mkfifo(self.path("pipe"))
        vm = Vm(self.path("qmp"))
        self.says(["save", self.path("qmp"), self.path("pipe")], 5, "is a pipe or a device")
        vm.thread.join(10)
        self.assertNotIn("xen-save-devices-state", vm.commands)

    def test_a_connection_that_ends_leaves_nothing(self):
        got, notes, _ = self.saved(**{"xen-save-devices-state": None})
        self.assertEqual(got, 5)
        self.assertIn("the connection ended", notes)
