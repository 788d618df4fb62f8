"""Many streams of a folder, judged by several processes."""
from __future__ import annotations

import os
import re
import signal
from collections import Counter
from concurrent.futures import ProcessPoolExecutor
from concurrent.futures.process import BrokenProcessPool
from dataclasses import asdict, dataclass
from functools import partial
from typing import Any, Dict, Iterator, List, Optional, Tuple

from . import description, stream
from .errors import FAULT, REFUSED, TEXT, Trouble, printable
from .files import read_bytes, reason
from .program import Shelf
from .progress import Progress

BATCH = 32


@dataclass(frozen=True)
class Verdict:
    """What is said of a file: the status, and the line where it isn't 0."""

    file: str
    status: int
    line: str

    @property
    def kind(self) -> str:
        """The line without its offset, for the summary."""
        return "read" if self.status == 0 else re.sub(r"refused at \d+ in ", "refused in ", self.line)


@dataclass(frozen=True)
class Judge:
    """How a file is judged: by its own description or that of the stream `like`, or by `program` and `set`.

    `set` is a word of the program, and `shelf` the folder in which the program is called.
    """

    like: Optional[Tuple[description.Device, ...]] = None
    program: Optional[str] = None
    set: Optional[str] = None
    shelf: Optional[str] = None

    def verdict(self, path: str) -> Verdict:
        """Returns what is said of the file at `path`."""
        try:
            status, line = self.by_set(path) if self.set is not None else self.by_description(path)
        except Trouble as error:
            status, line = error.status, str(error).replace(printable(path) + ": ", "")
        except OSError as error:
            status, line = FAULT, reason(error)
        return Verdict(path, status, line)

    def by_set(self, path: str) -> Tuple[int, str]:
        """Returns the status and the line of `vmstate show SET`, whose text goes nowhere."""
        read_end, write_end = os.pipe()
        with open(path, "rb") as file, open(os.devnull, "wb") as nowhere, os.fdopen(read_end, "rb") as notes:
            actions = [(os.POSIX_SPAWN_DUP2, file.fileno(), 0), (os.POSIX_SPAWN_DUP2, nowhere.fileno(), 1),
                       (os.POSIX_SPAWN_DUP2, write_end, 2)]
            try:
                words = [self.program, "show", self.set]
                number = os.posix_spawn(self.program, words, os.environ,
                                        file_actions=actions)
            finally:
                os.close(write_end)
            line = notes.read().decode("utf-8", "replace").strip()
        status = os.waitpid(number, 0)[1]
        return (os.WEXITSTATUS(status), line) if os.WIFEXITED(status) else (FAULT, "vmstate was ended by a signal")

    def by_description(self, path: str) -> Tuple[int, str]:
        """Returns 0 if each section is found by its exact length, RAM included.

        # Errors

        Refused: one isn't. Trouble: the file can't be read.
        """
        found = stream.read_stream(stream.Source(path), self.like)
        at = found.sections[0].at if found.sections else found.end
        for unit in found.front or stream.front_units(found, at):
            if unit.at + unit.length > at:
                return REFUSED, f"refused at {unit.at} in {printable(unit.what)}: it goes on into the devices"
        return 0, ""


def judge_by(shelf: Shelf, word: str) -> Judge:
    """Returns the judge by the set that `word` names: a description file anywhere, or one that the program has, as @4.

    # Errors

    Trouble: it can't be read, or is no set.
    """
    name = word if re.fullmatch("@[0-4]|@c[12]", word) else shelf.put("set.json", read_bytes(word))
    answer = shelf.call("check", name, name)
    if answer.status:
        raise Trouble(f"{printable(word)}: {answer.notes}", TEXT)
    return Judge(None, shelf.program, name, shelf.folder.name)


def files_of(folder: str) -> List[str]:
    """Returns the files of a folder, in the order of their names.

    # Errors

    Trouble: the folder can't be read.
    """
    try:
        with os.scandir(folder) as entries:
            return sorted(entry.path for entry in entries if entry.is_file())
    except OSError as error:
        raise Trouble(f"{printable(folder)}: {reason(error)}", FAULT) from None


def judged(judge: Judge, paths: List[str]) -> List[Verdict]:
    """Returns the verdicts of some files; this runs in a process of its own."""
    return [judge.verdict(path) for path in paths]


def verdicts(judge: Judge, paths: List[str], jobs: int, progress: Progress) -> Iterator[Verdict]:
    """Yields a verdict for each file, in their order, with a bar on the terminal meanwhile.

    # Errors

    Trouble: one of the processes was ended.
    """
    batches = [paths[at:at + BATCH] for at in range(0, len(paths), BATCH)]
    done = refused = 0
    with ProcessPoolExecutor(jobs, initializer=in_folder, initargs=(judge,)) as pool:
        try:
            for batch in pool.map(partial(judged, judge), batches):
                for verdict in batch:
                    done, refused = done + 1, refused + (verdict.status != 0)
                    progress.bar(done, len(paths), f"{refused} refused")
                    yield verdict
        except BrokenProcessPool:
            raise Trouble("a process that judges was ended, perhaps because memory ran out", FAULT) from None
    progress.clear()


def in_folder(judge: Judge) -> None:
    """Goes to the folder of the set, since the program takes a name without a path. An interrupt ends the caller."""
    signal.signal(signal.SIGINT, signal.SIG_IGN)
    signal.signal(signal.SIGTERM, signal.SIG_DFL)
    if judge.shelf is not None:
        os.chdir(judge.shelf)


def summary(found: List[Verdict]) -> Dict[str, Any]:
    """Returns how many files were read, how many for each reason weren't, and each that wasn't."""
    return {"files": len(found), "read": sum(each.status == 0 for each in found),
            "reasons": dict(Counter(each.kind for each in found if each.status != 0).most_common()),
            "refused": [asdict(each) for each in found if each.status != 0]}


def as_text(found: List[Verdict]) -> str:
    """Returns the summary as text: each file that wasn't read, and how often each reason came."""
    lines = [f"{printable(each.file)}: {each.line}" for each in found if each.status != 0]
    counts = Counter(each.kind for each in found).most_common() or [("read", 0)]
    return "\n".join(lines + [f"{count:8} {kind}" for kind, count in counts]) + "\n"
