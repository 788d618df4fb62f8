"""The words of `vmstate-qemu`, and what each command does."""
from __future__ import annotations

import argparse
import contextlib
import json
import os
import sys
from typing import Any, Callable, List, Optional

from . import comparing, cut, edit, folder, inputs, listing, measure, mending, sets, values
from .errors import DIFFERENT, DONE, FAULT, REFUSED, WORDS, Trouble, note, printable
from .files import read_bytes, write_out
from .nodes import Dump
from .program import Shelf, path_of
from .progress import Progress
from .qmp import Session
from .save import save
from .stream import Section, Stream, donor_devices, open_stream

ABOUT = """\
Lists, shows, edits, saves and compares the device states in QEMU's migration streams, with any devices. It calls the
proved program `vmstate`. The pages docs/qemu.md, docs/sets.md and docs/compatibility.md say more.

STREAM is a file that QMP's `migrate` wrote; a file of `xen-save-devices-state` or of `save`, together with a like
stream (--like) or a set (--set); a qcow2 image with a snapshot (--snapshot); or - for standard input. SECTION is a
name that `list` prints, as serial or dma@1, or the name of the section's description, as e1000."""

LONGEST_SET = 1 << 20

STATUSES = """\
statuses: 0 done (check: compatible; diff: no difference); 1 a stream is refused; 2 bad words; 3 a set, a dump or a
value is refused; 4 not compatible, or different; 5 a file, QEMU or the program failed."""


def stream_words(parser: argparse.ArgumentParser) -> None:
    """Adds the words that say how a stream is read."""
    parser.add_argument("--like", metavar="STREAM", help="read a stream without a description by that of this one")
    parser.add_argument("--set", metavar="SET", help="read a stream without a description by this description file")
    parser.add_argument("--snapshot", metavar="NAME", help="the snapshot in a qcow2 image, made by `savevm`")


def opened(words: argparse.Namespace, path: str) -> Stream:
    """Returns the stream at `path`, read as the words say."""
    sizes = measure.Measured(words.set, path_of(words.vmstate)) if words.set else None
    return open_stream(path, words.like, words.snapshot, sizes)


def chosen(stream: Stream, names: List[str]) -> List[Section]:
    """Returns the sections that were named, or all."""
    return [stream.find(name) for name in names] if names else stream.sections


def put_json(value: Any) -> None:
    """Prints a value as JSON."""
    json.dump(value, sys.stdout, indent=1)
    print()


def do_list(words: argparse.Namespace) -> int:
    """Prints where each section is, and how much of it has names."""
    stream = opened(words, words.stream)
    if words.json:
        put_json(listing.as_object(stream))
    else:
        sys.stdout.write(listing.as_text(stream))
    return DONE


def do_show(words: argparse.Namespace) -> int:
    """Prints the numbers of the sections."""
    stream = opened(words, words.stream)
    sections = chosen(stream, words.section)
    if words.json:
        put_json({"file": stream.source.path, "machine": stream.machine,
                  "sections": [values.as_object(stream, section) for section in sections]})
        return DONE
    if stream.machine is not None and not words.section:
        print(f"machine {printable(stream.machine)}")
    for section in sections:
        sys.stdout.writelines(line + "\n" for line in values.text_lines(stream, section))
    return DONE


def target(words: argparse.Namespace) -> str:
    """Returns the file that the edited stream goes to."""
    if words.in_place == (words.output is not None):
        raise Trouble("say either --in-place or --output FILE", WORDS)
    return words.stream if words.in_place else words.output


def do_edit(words: argparse.Namespace) -> int:
    """Changes numbers of one section."""
    path = target(words)
    stream = opened(words, words.stream)
    section = stream.find(words.section)
    changes = words.change or edit.in_editor(stream, section)
    with Shelf(path_of(words.vmstate)) as shelf:
        old = stream.body(section)
        new = edit.new_body(shelf, section, old, edit.numbers_of(section, changes))
    return finish(stream, section, old, new, path, words)


def finish(stream: Stream, section: Section, old: bytes, new: bytes, path: str, words: argparse.Namespace) -> int:
    """Writes the stream with the new body, and says what differs."""
    edit.written(stream, section, new, path, words.in_place)
    differ = [at for at, (one, other) in enumerate(zip(old, new)) if one != other]
    where = f", the first at {section.body[0] + differ[0]}" if differ else ""
    note(f"{printable(path)}: {len(differ)} bytes of {printable(section.word)} differ{where}; "
         "every other byte is as it was")
    return DONE


def do_cut(words: argparse.Namespace) -> int:
    """Writes the sections alone as a stream."""
    stream = opened(words, words.stream)
    write_out(words.output, cut.cut(stream, chosen(stream, words.section)))
    return DONE


def do_put(words: argparse.Namespace) -> int:
    """Puts a packed section in its place."""
    path = target(words)
    stream = opened(words, words.stream)
    section = stream.find(words.section)
    new = cut.body_of_packed(read_bytes(words.packed), stream, section, printable(words.packed))
    return finish(stream, section, stream.body(section), new, path, words)


def do_save(words: argparse.Namespace) -> int:
    """Saves the devices of a running VM."""
    session = Session(words.socket)
    try:
        note(save(session, words.file, words.stop).sentence(words.file))
    finally:
        session.close()
    return DONE


def do_diff(words: argparse.Namespace) -> int:
    """Prints what differs between two streams."""
    found = list(comparing.differences(opened(words, words.a), opened(words, words.b), words.section))
    if words.json:
        put_json([each.as_object() for each in found])
    else:
        sys.stdout.writelines(each.text() + "\n" for each in found)
    return DIFFERENT if found else DONE


def do_folder(words: argparse.Namespace) -> int:
    """Judges the files of a folder."""
    paths = [os.path.abspath(path) for path in folder.files_of(words.folder)]
    progress = Progress(words.progress or None)
    if words.set:
        with Shelf(path_of(words.vmstate)) as shelf:
            judge = folder.judge_by(shelf, words.set)
            found = list(folder.verdicts(judge, paths, words.jobs, progress))
    else:
        judge = folder.Judge(donor_devices(words.like) if words.like else None)
        found = list(folder.verdicts(judge, paths, words.jobs, progress))
    if words.json:
        put_json(folder.summary(found))
    else:
        sys.stdout.write(folder.as_text(found))
    return REFUSED if any(each.status for each in found) else DONE


def do_set(words: argparse.Namespace) -> int:
    """Writes a description set of sections of a stream or of a dump."""
    dump = inputs.read_dump(words.dump)
    found = inputs.read(words.stream) if not words.like and not words.snapshot and words.stream != "-" else \
        open_stream(words.stream, words.like, words.snapshot)
    if isinstance(found, Stream):
        maker = sets.of_stream(found, chosen(found, words.section), dump)
    elif isinstance(found, Dump) and words.section:
        maker = sets.of_dump(found, words.section)
    else:
        raise Trouble(f"{printable(words.stream)}: a set is made of a stream, or of a dump and names in it", WORDS)
    for each in maker.notes:
        note(f"vmstate-qemu: {each}")
    text = json.dumps(maker.whole(), indent=1).encode() + b"\n"
    if len(text) > LONGEST_SET:
        text = json.dumps(maker.whole(), separators=(",", ":")).encode() + b"\n"
    write_out(words.output, text)
    return DONE


def do_check(words: argparse.Namespace) -> int:
    """Says whether NEW reads what OLD writes, with every fault."""
    report = inputs.checked(words.old, words.new, words.old_dump, words.new_dump, path_of(words.vmstate))
    if words.json:
        put_json(report.as_object())
    else:
        sys.stdout.write(report.as_text())
    return DIFFERENT if report.faults or (words.strict and report.findings) else DONE


def do_explain(words: argparse.Namespace) -> int:
    """Says with names what one line of `vmstate check` means."""
    old, new = inputs.read_set(words.old), inputs.read_set(words.new)
    fault = mending.explained(words.line, old, new)
    if words.json:
        put_json({"rule": fault.rule, "says": fault.says, "old": fault.old, "new": fault.new, "line": fault.line})
        return DONE
    print(f"rule {fault.rule}: {fault.says}")
    for side, names in (("OLD", fault.old), ("NEW", fault.new)):
        print(f"{side}: {', '.join(printable(name) for name in names) or '-'}")
    return DONE


def jobs(word: str) -> int:
    """Returns the number of processes that a word says, 1 to 256."""
    if not word.isdecimal() or not 1 <= int(word) <= 256:
        raise argparse.ArgumentTypeError("1 to 256")
    return int(word)


Commands = Callable[[str, Callable[[argparse.Namespace], int], str], argparse.ArgumentParser]


def parser() -> argparse.ArgumentParser:
    """Returns what reads the words."""
    top = argparse.ArgumentParser(prog="vmstate-qemu", description=ABOUT, epilog=STATUSES,
                                  formatter_class=argparse.RawDescriptionHelpFormatter)
    top.add_argument("--vmstate", metavar="PROGRAM", help="the program vmstate, else the variable VMSTATE or the path")
    commands = top.add_subparsers(dest="command", metavar="COMMAND", required=True)

    def command(name: str, does: Callable[[argparse.Namespace], int], about: str) -> argparse.ArgumentParser:
        """Adds a command."""
        added = commands.add_parser(name, help=about, description=about[:1].upper() + about[1:] + ".")
        added.set_defaults(does=does)
        return added

    add_looking(command)
    add_changing(command)
    add_comparing(command)
    for name in ("list", "show", "diff", "check", "explain", "folder"):
        commands.choices[name].add_argument("--json", action="store_true")
    for name in ("list", "show", "edit", "cut", "put", "diff"):
        stream_words(commands.choices[name])
    return top


def add_looking(command: Commands) -> None:
    """Adds the commands that save a VM, and that look at streams."""
    one = command("save", do_save, "save the devices of a running VM, which goes on unharmed")
    one.add_argument("socket", metavar="QMP-SOCKET", help="the Unix socket of QEMU's -qmp unix:..")
    one.add_argument("file", metavar="FILE", help="the file that is written whole or not at all")
    one.add_argument("--stop", action="store_true", help="stop the VM first, and let it go on if it was running")
    one = command("list", do_list, "print each section's offset, length and version, and how much of it has names")
    one.add_argument("stream", metavar="STREAM")
    one = command("show", do_show, "print the numbers of all sections, or of some, without a set")
    one.add_argument("stream", metavar="STREAM")
    one.add_argument("section", metavar="SECTION", nargs="*")
    one = command("diff", do_diff, "print what differs between two streams, by device and name")
    one.add_argument("a", metavar="A")
    one.add_argument("b", metavar="B")
    one.add_argument("section", metavar="SECTION", nargs="*")
    one = command("folder", do_folder, "judge every file of a folder, with a summary by reason")
    one.add_argument("folder", metavar="DIR")
    one.add_argument("--set", metavar="SET", help="judge by `vmstate show SET`, else by the streams' own descriptions")
    one.add_argument("--like", metavar="STREAM", help="read streams without a description by that of this one")
    one.add_argument("--jobs", metavar="N", type=jobs, default=os.cpu_count() or 1, help="that many processes")
    one.add_argument("--progress", action="store_true", help="show the bar even where no terminal is")


def add_changing(command: Commands) -> None:
    """Adds the commands that change a section, or cut it out and put it back."""
    edits = command("edit", do_edit, "change numbers of one section, and nothing else; without PATH=VALUE in $EDITOR")
    edits.add_argument("stream", metavar="STREAM")
    edits.add_argument("section", metavar="SECTION")
    edits.add_argument("change", metavar="PATH=VALUE", nargs="*", help="a number, or all bytes of a token as 0x..")
    puts = command("put", do_put, "put a section that was cut and packed back in its place")
    puts.add_argument("stream", metavar="STREAM")
    puts.add_argument("section", metavar="SECTION")
    puts.add_argument("packed", metavar="PACKED")
    for one in (edits, puts):
        one.add_argument("--output", "-o", metavar="FILE", help="the new stream")
        one.add_argument("--in-place", action="store_true", help="the new stream replaces STREAM")
    one = command("cut", do_cut, "write sections alone as a stream, under the names of their descriptions")
    one.add_argument("stream", metavar="STREAM")
    one.add_argument("section", metavar="SECTION", nargs="*")
    one.add_argument("--output", "-o", metavar="FILE", help="else standard output")


def add_comparing(command: Commands) -> None:
    """Adds the commands about sets and versions."""
    one = command("set", do_set, "write a description set of sections for vmstate's show, pack and check")
    one.add_argument("stream", metavar="STREAM|DUMP", help="a stream, or a file of -dump-vmstate with SECTION")
    one.add_argument("section", metavar="SECTION", nargs="*")
    one.add_argument("--dump", metavar="DUMP", help="a file of -dump-vmstate, for versions, minimums and subsections")
    one.add_argument("--like", metavar="STREAM", help="read a stream without a description by that of this one")
    one.add_argument("--snapshot", metavar="NAME", help="the snapshot in a qcow2 image, made by `savevm`")
    one.add_argument("--output", "-o", metavar="FILE", help="else standard output")
    one = command("check", do_check, "say whether NEW reads what OLD writes: all faults of two dumps, streams or sets")
    one.add_argument("old", metavar="OLD", help="a file of -dump-vmstate, a stream, or a description file")
    one.add_argument("new", metavar="NEW", help="the same of the newer QEMU")
    one.add_argument("--old-dump", metavar="DUMP", help="what -dump-vmstate says of OLD, if OLD is a stream")
    one.add_argument("--new-dump", metavar="DUMP", help="the same of NEW")
    one.add_argument("--strict", action="store_true", help="remarks count too: status 4 if there is one")
    one = command("explain", do_explain, "say with names what a line of `vmstate check` means")
    one.add_argument("old", metavar="OLD", help="the description file that was checked")
    one.add_argument("new", metavar="NEW")
    one.add_argument("line", metavar="LINE", help="as `not compatible: rule 7 at device 0 field 1 against ..`")


def words_of(arguments: Optional[List[str]]) -> argparse.Namespace:
    """Returns the words as they are read. Those of a list may follow an option too."""
    reader = parser()
    words, more = reader.parse_known_args(arguments)
    many = getattr(words, "change", getattr(words, "section", None))
    if more and (not isinstance(many, list) or any(word.startswith("-") for word in more)):
        reader.error(f"unknown words: {' '.join(more)}")
    if more:
        many += more
    return words


def main(arguments: Optional[List[str]] = None) -> int:
    """Does what the words say, and returns the status."""
    words = words_of(arguments)
    try:
        status = words.does(words)
        sys.stdout.flush()
        return status
    except Trouble as error:
        note(f"vmstate-qemu: {error}")
        return error.status
    except OSError as error:
        if not isinstance(error, BrokenPipeError):
            note(f"vmstate-qemu: {printable(str(error.filename or 'standard output'))}: {error.strerror}")
        with contextlib.suppress(OSError):
            os.dup2(os.open(os.devnull, os.O_WRONLY), sys.stdout.fileno())
        return FAULT
    except MemoryError:
        note("vmstate-qemu: out of memory")
        return FAULT
    except KeyboardInterrupt:
        note("vmstate-qemu: interrupted")
        return FAULT
