#!/usr/bin/env python3
"""check.py EVERY [NAME..]: plays the traces of stock guests with `vmstate`, and compares each answer with what the guest was told.

An isa board is saved and restored by `play` after each EVERY events, under the sets from its level on in turn. A clk board has no
sessions: it is saved by `save` at ten moments, and `load` continues from each stream to the end. `vmstate` must be on the path."""
import lzma
import os
import subprocess
import sys
import tempfile

HERE = os.path.dirname(os.path.abspath(__file__))
BOARDS = {"grub": "isa-2", "linux-isa2-short": "isa-2", "linux-isa2-stuck": "isa-2", "linux-clk2": "clk-2"}
LONGEST = 4_194_304
# `play` waits until each stream is on the disk, so a disk in memory serves better
SCRATCH = "/dev/shm" if os.access("/dev/shm", os.W_OK) else None


def lines_of(name):
    with lzma.open(os.path.join(HERE, name + ".xz"), "rt") as file:
        return file.read().splitlines(keepends=True)


def put(folder, name, lines):
    with open(os.path.join(folder, name), "w") as file:
        file.writelines(lines)


def run(folder, words, stream=b""):
    """What the program writes."""
    done = subprocess.run(["vmstate", *words], cwd=folder, input=stream, capture_output=True)
    if done.returncode:
        sys.exit(f"vmstate {' '.join(words)}: status {done.returncode}, {done.stderr.decode().strip()}")
    return done.stdout


def compare(name, first, got, wanted):
    """Ends at the first line that isn't as recorded; `first` is the number of events before."""
    for number, (line, recorded) in enumerate(zip(got, wanted), first + 1):
        if line != recorded:
            sys.exit(f"{name}, line {number}: got {line.strip()}, recorded {recorded.strip()}")
    if len(got) != len(wanted):
        sys.exit(f"{name}: {len(got)} lines after line {first}, recorded {len(wanted)}")


def parts(script, every, level):
    """The sessions, each with the numbers of its first and last event: a script is too long for one. Migrations join them."""
    migrations, at = 0, 0

    def migration(name):
        nonlocal migrations
        migrations += 1
        return [f"save @{level + migrations % (5 - level)} {name}\n", f"restore {name}\n"]

    while at < len(script):
        session, first, size = (["restore joint\n"] if at else []), at, 100
        while at < len(script) and size < LONGEST - 100:
            session.append(script[at])
            at += 1
            if at % every == 0:
                session += migration("stream")
            size += len(script[at - 1]) + (32 if at % every == 0 else 0)
        session += migration("joint")
        yield first, at, session, migrations


def play(folder, name, board, script, trace, every):
    """The number of migrations of an isa board."""
    migrations = 0
    for first, last, session, migrations in parts(script, every, int(board[-1])):
        put(folder, "session", session)
        answers = run(folder, ["play", board, "session"]).decode().splitlines(keepends=True)
        compare(name, first, [x for x in answers if not x.startswith(("saved ", "restored "))], trace[first:last])
    return migrations


def hand_on(folder, name, board, script, trace):
    """The number of migrations of a clk board: a boot each."""
    for tenth in range(10):
        first = len(script) * tenth // 10
        put(folder, "before", script[:first])
        put(folder, "after", script[first:])
        stream = run(folder, ["save", board, "@c" + board[-1], "before"])
        compare(name, first, run(folder, ["load", board, "after"], stream).decode().splitlines(keepends=True), trace[first:])
    return 10


def main():
    every = int(sys.argv[1])
    for name in sys.argv[2:] or BOARDS:
        board, script, trace = BOARDS[name], lines_of(name + ".script"), lines_of(name + ".trace")
        with tempfile.TemporaryDirectory(dir=SCRATCH) as folder:
            if board.startswith("isa"):
                migrations = play(folder, name, board, script, trace, every)
            else:
                migrations = hand_on(folder, name, board, script, trace)
        print(f"{name}, {board}: {len(script)} events, {migrations} migrations, each answer as recorded")


main()
