"""The program `vmstate` itself: what its process prints, and the status that it ends with."""
import os
import resource
import shutil
import signal
import subprocess
from typing import Callable, Dict, List, Optional, Tuple

from tests import TOP
from tests.kit import Case, read
from vmstate_qemu.program import path_of

EXAMPLES = os.path.join(os.path.dirname(TOP), "examples")
SMALLEST = os.path.join(EXAMPLES, "smallest.stream")
SHOWN = b"section timer 0 v1\nnow = 0\n"


def files_of_at_most(size: int) -> Callable[[], None]:
    """Returns what makes the calling process fail to write files beyond `size` bytes, as on a full disk."""
    def limit() -> None:
        signal.signal(signal.SIGXFSZ, signal.SIG_IGN)
        resource.setrlimit(resource.RLIMIT_FSIZE, (size, size))
    return limit


class Process(Case):
    """One process for each status that a caller can bring about."""

    def run_in(self, words: List[str], given: Optional[bytes] = None, **streams: object) -> Tuple[object, ...]:
        """Returns the status, standard output and standard error of a call in the test's folder."""
        done = subprocess.run([path_of(), *words], cwd=self.folder, check=False,
                              **{"input": given, "stdout": subprocess.PIPE, "stderr": subprocess.PIPE, **streams})
        return done.returncode, done.stdout, done.stderr

    def test_a_stream_is_shown(self):
        self.assertEqual(self.run_in(["show", "@0"], read(SMALLEST)), (0, SHOWN, b""))

    def test_each_status_has_its_line_and_no_output(self):
        for name in ("set-1.json", "set-4.json"):
            shutil.copy(os.path.join(EXAMPLES, name), self.folder)
        self.put("bad.values", b"no line\n")
        self.put("long", b"\n" * 4194305)
        os.mkdir(self.path("folder"))
        smallest = read(SMALLEST)
        rows: Dict[Tuple[str, ...], Tuple[bytes, int, bytes]] = {
            ("show", "@0"): (smallest[:30], 1, b"refused at 27 in timer/0: Truncated\n"),
            (): (b"", 2, b"bad words\n"),
            ("show",): (b"", 2, b"bad words\n"),
            ("pack", "@0", "bad.values"): (b"", 3, b"values line 1: Form\n"),
            ("check", "set-4.json", "set-1.json"): (b"", 4, b"not compatible: rule 1 at set against set\n"),
            ("show", "folder"): (b"", 7, b"shelf fault\n"),
            ("show", "nothing"): (b"", 8, b"not there: nothing\n"),
            ("load", "isa-1", "long"): (b"", 9, b"too large: long\n"),
        }
        for words, (given, status, line) in rows.items():
            with self.subTest(words=words):
                self.assertEqual(self.run_in(list(words), given), (status, b"", line))

    def test_a_word_that_is_no_text_is_a_bad_word(self):
        done = subprocess.run([os.fsencode(path_of()), b"show", b"\xff"], input=b"", capture_output=True, check=False)
        self.assertEqual((done.returncode, done.stdout, done.stderr), (2, b"", b"bad words\n"))

    def test_an_input_of_analyze_has_at_most_100_000_000_bytes(self):
        for size, reason in ((100_000_000, b"NoDescription"), (100_000_001, b"TooLong")):
            with self.subTest(size=size), open(self.path("long"), "wb+") as file:
                file.truncate(size)
                self.assertEqual(self.run_in(["analyze"], stdin=file, timeout=60),
                                 (1, b"", b"refused at 100000000 in -: " + reason + b"\n"))

    def test_a_stream_that_fails_has_its_status(self):
        smallest, folder = read(SMALLEST), os.open(self.folder, os.O_RDONLY)
        self.addCleanup(os.close, folder)
        done = subprocess.run([path_of(), "show", "@0"], stdin=folder, capture_output=True, check=False)
        self.assertEqual((done.returncode, done.stdout, done.stderr), (5, b"", b"read fault\n"))
        with open("/dev/full", "wb") as full:
            self.assertEqual(self.run_in(["show", "@0"], smallest, stdout=full), (6, None, b"write fault\n"))
            self.assertEqual(self.run_in(["show"], stderr=full), (6, b"", None))

    def test_a_late_fault_is_told_after_what_was_written(self):
        with open(self.path("out"), "wb") as out:
            got = self.run_in(["drill", "isa-1", "1", "1"], stdout=out, preexec_fn=files_of_at_most(6))
        self.assertEqual(got, (6, None, b"write fault\n"))
        self.assertEqual(read(self.path("out")), b"isa-1 ")

    def test_a_script_has_at_most_4_194_304_bytes(self):
        self.put("script", b"\n" * 4194304)
        self.assertEqual(self.run_in(["load", "isa-1", "script"], b""), (3, b"", b"script line 1: Form\n"))

    def play(self, **how: object) -> Tuple[object, ...]:
        """Plays a session that stores a board's stream under `a` and then under `b`."""
        self.put("session", b"save @4 a\nsave @4 b\n")
        return self.run_in(["play", "isa-4", "session"], **how)

    def test_a_store_keeps_permissions_and_links(self):
        os.chmod(self.put("a", b"old"), 0o640)
        os.symlink("a", self.path("b"))
        status, trace, notes = self.play()
        self.assertEqual((status, notes), (0, b""))
        self.assertEqual(os.stat(self.path("a")).st_mode & 0o777, 0o640)
        self.assertEqual(os.readlink(self.path("b")), "a")
        self.assertEqual(trace, b"saved %d\n" % len(read(self.path("a"))) * 2)

    def test_a_store_that_fails_keeps_the_old_file(self):
        for old in (b"old", None):
            with self.subTest(old=old):
                if old is not None:
                    self.put("a", old)
                self.assertEqual(self.play(preexec_fn=files_of_at_most(100)), (7, b"", b"shelf fault\n"))
                self.assertEqual(sorted(os.listdir(self.folder)), ["a", "session"] if old else ["session"])
                if old is not None:
                    self.assertEqual(read(self.path("a")), old)
                    os.remove(self.path("a"))
