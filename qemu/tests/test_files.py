"""Files, pipes and devices that are read and written, and the program as a process."""
import os
import signal
import stat
import subprocess
import threading
import time
from unittest import mock

from tests import HERE
from tests.kit import DUMP, ISAPC, Case, called, read

PROGRAM = os.path.join(os.path.dirname(HERE), "vmstate-qemu")


class Pipes(Case):
    """What is no file."""

    def piped(self, some: bytes) -> str:
        """Returns the path of a pipe from which these bytes come."""
        out, into = os.pipe()
        self.addCleanup(os.close, out)
        threading.Thread(target=self.filled, args=(into, some), daemon=True).start()
        return f"/dev/fd/{out}"

    @staticmethod
    def filled(number: int, some: bytes) -> None:
        """Writes the bytes to a pipe, and closes it."""
        with open(number, "wb") as file:
            file.write(some)

    def test_each_kind_of_file_may_be_a_pipe(self):
        for words in (["check", DUMP, DUMP], ["check", ISAPC, ISAPC]):
            got, out, _ = called("check", *(self.piped(read(word)) for word in words[1:]))
            self.assertEqual((got, out.split(":")[0]), (0, "compatible"))
        got, out, _ = called("set", self.piped(read(ISAPC)), "serial", "--dump", self.piped(read(DUMP)))
        self.assertEqual((got, out), (0, self.gives(["set", ISAPC, "serial", "--dump", DUMP])))

    def test_what_never_ends_is_refused(self):
        for words in (["list", "/dev/zero"], ["check", DUMP, "/dev/zero"], ["set", ISAPC, "--dump", "/dev/zero"],
                      ["folder", "--set", "/dev/zero", self.folder], ["put", ISAPC, "serial", "/dev/zero", "-o", "x"]):
            self.says(words, 5, "more than 64 MiB")

    def test_nothing_but_a_file_is_replaced(self):
        pipe = self.path("pipe")
        os.mkfifo(pipe)
        for path, text in ((pipe, "is a pipe or a device"), (self.folder, "is a folder")):
            for words in (["edit", ISAPC, "serial", "state.scr=1"], ["cut", ISAPC, "serial"], ["set", ISAPC, "serial"]):
                self.says([*words, "-o", path], 5, text)
        os.symlink(pipe, self.path("link"))
        self.says(["cut", ISAPC, "serial", "-o", self.path("link")], 5, "is a pipe or a device")
        self.assertTrue(stat.S_ISFIFO(os.stat(pipe).st_mode))
        self.assertEqual(sorted(os.listdir(self.folder)), ["link", "pipe"])


class Changed(Case):
    """A stream that another program writes to."""

    def editor(self, also: str) -> str:
        """Returns the words of an editor that changes a number, and does something else before."""
        script = f"""{also}; sed -i 's/^state.scr = .*/state.scr = 7/' "$1"\n"""
        return "sh " + self.put("editor", script.encode())

    def test_it_is_not_edited(self):
        path = self.put("stream", read(ISAPC))
        for more in (["--in-place"], ["-o", self.path("new")]):
            with mock.patch.dict(os.environ, {"EDITOR": self.editor(f"printf x >> '{path}'"), "VISUAL": ""}):
                self.says(["edit", path, "serial", *more], 5, "it was changed while it was read; nothing is written")
            self.assertEqual(read(path), read(ISAPC) + b"x")
            os.truncate(path, os.path.getsize(ISAPC))
        self.assertEqual(sorted(os.listdir(self.folder)), ["editor", "stream"])

    def test_a_file_that_took_its_place_stays(self):
        path, other = self.put("stream", read(ISAPC)), self.put("other", read(ISAPC) + bytes(9))
        with mock.patch.dict(os.environ, {"EDITOR": self.editor(f"mv '{other}' '{path}'"), "VISUAL": ""}):
            self.says(["edit", path, "serial", "--in-place"], 5, "another file took its place meanwhile")
        self.assertEqual(read(path), read(ISAPC) + bytes(9))
        self.assertEqual(sorted(os.listdir(self.folder)), ["editor", "stream"])

    def test_it_keeps_owner_and_permissions(self):
        path = self.put("stream", read(ISAPC))
        os.chmod(path, 0o604)
        if os.geteuid() == 0:
            os.chown(path, 12345, 54321)
        before = os.stat(path)
        self.gives(["edit", path, "serial", "state.scr=7", "--in-place"])
        after = os.stat(path)
        self.assertEqual((after.st_mode, after.st_uid, after.st_gid), (before.st_mode, before.st_uid, before.st_gid))
        self.assertNotEqual(after.st_ino, before.st_ino)


class Process(Case):
    """The program as a shell calls it."""

    def shell(self, command: str) -> tuple:
        """Returns the status and standard error of a command of the shell, where $0 is the program and $1 a stream."""
        done = subprocess.run(["sh", "-c", command, PROGRAM, ISAPC], capture_output=True, text=True, check=False)
        return done.returncode, done.stderr

    def test_standard_files_that_are_closed_or_full(self):
        self.assertEqual(self.shell('"$0" list "$1" >&-'), (5, "vmstate-qemu: standard output: Bad file descriptor\n"))
        self.assertEqual(self.shell('"$0" show --json "$1" > /dev/full'),
                         (5, "vmstate-qemu: standard output: No space left on device\n"))
        self.assertEqual(self.shell('"$0" list - <&-'), (5, "vmstate-qemu: standard input: Bad file descriptor\n"))
        for end in (">&- 2>&-", "2> /dev/full"):
            self.assertEqual(self.shell(f'"$0" list "$1.none" {end}'), (5, ""))
        self.assertEqual(self.shell('"$0" show "$1" | head -n 1 > /dev/null'), (0, ""))

    def test_a_signal_ends_it_with_one_line(self):
        pipe = self.path("pipe")
        os.mkfifo(pipe)
        with subprocess.Popen([PROGRAM, "list", pipe], stderr=subprocess.PIPE, text=True) as child:
            with open(pipe, "wb"):
                time.sleep(0.2)
                child.send_signal(signal.SIGTERM)
                notes = child.communicate(timeout=600)[1]
        self.assertEqual((child.returncode, notes), (5, "vmstate-qemu: interrupted\n"))

    def test_a_process_of_folder_that_is_ended(self):
        streams = self.path("streams")
        os.mkdir(streams)
        os.link(self.put("one", read(ISAPC)), os.path.join(streams, "one"))
        killer = self.put("killer", b'#!/bin/sh\n[ "$1" = check ] || kill -9 $PPID\n')
        os.chmod(killer, 0o755)
        self.says(["--vmstate", killer, "folder", "--set", "@4", streams], 5, "a process that judges was ended")
        self.assertEqual(self.gives(["folder", self.path("streams/..") + "/streams"]), "       1 read\n")
