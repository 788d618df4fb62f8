#!/usr/bin/env python3
"""The picture of the crates, made from crates.txt and from the tables of docs/ARCHITECTURE.md.

    docs/pictures/crates.py             writes docs/pictures/crates.svg (needs graphviz's dot)
    docs/pictures/crates.py --dot       prints what dot is given
    docs/pictures/crates.py --check     compares the picture with both files, without dot

An arrow goes from a crate to one that stands on its line of crates.txt, but to none that another of that line stands
on as well. The crates of one table have one colour. The status of --check is 1 where the picture has other crates,
colours or arrows, or where a crate stands in no table or in two.
"""
import html
import os
import re
import subprocess
import sys

HERE = os.path.dirname(os.path.abspath(__file__))
TOP = os.path.dirname(os.path.dirname(HERE))
PICTURE = os.path.join(HERE, "crates.svg")
COLOURS = ["#dddddd", "#cfe2fb", "#cdeed6", "#fbe3b5", "#e0d3f8", "#f8cccc", "#c3eaed", "#f3f3c4"]
STYLE = """
  rankdir=TB; nodesep=0.12; ranksep=0.32; bgcolor="white"; pad=0.1; labelloc=t; fontname="Helvetica"; fontsize=12;
  node [shape=box, style="rounded,filled", color="#555555", fontname="Helvetica", fontsize=12, height=0.3,
        margin="0.08,0.03"];
  edge [color="#666666", arrowsize=0.6];
"""


def read(*path):
    with open(os.path.join(TOP, *path)) as file:
        return file.read()


def stands_on():
    """Of each crate of the repository those that stand on its line of crates.txt."""
    lines = [line.split(":") for line in read("crates.txt").splitlines() if line and not line.startswith("#")]
    names = {head.split()[0] for head, _ in lines}
    return {head.split()[0]: [word for word in tail.split() if word in names] for head, tail in lines}


def tables():
    """The crates of each table of docs/ARCHITECTURE.md that has a column `crate`, by the line in front of it."""
    found = re.findall(r"^([^\n|]+):\n\n\| crate \|[^\n]*\n\|[-|]*\n((?:\|[^\n]*\n)+)",
                       read("docs", "ARCHITECTURE.md"), re.M)
    return {title: [name for row in rows.splitlines() for name in re.findall(r"`(\w+)`", row.split("|")[1])]
            for title, rows in found}


def reach(name, crates, below):
    """All that a crate stands on, put into `below`."""
    if name not in below:
        below[name] = set(crates[name]).union(*(reach(other, crates, below) for other in crates[name]))
    return below[name]


def arrows(crates):
    """The pairs of crates of which the one stands on the other, but for those that follow from others."""
    below = {}
    for name in crates:
        reach(name, crates, below)
    return {(name, other) for name, others in crates.items() for other in others
            if not any(other in below[third] for third in others)}


def dot():
    """The picture in the language of dot."""
    coloured = list(zip(COLOURS, tables().items()))
    cells = "".join(f'<td bgcolor="{colour}">{title}</td>' for colour, (title, _) in coloured)
    lines = [f'  label=<<table border="0" cellborder="0" cellspacing="8" cellpadding="4"><tr>{cells}</tr></table>>;']
    lines += [f'  {name} [fillcolor="{colour}"];' for colour, (_, names) in coloured for name in names]
    lines += [f"  {name} -> {other};" for name, other in sorted(arrows(stands_on()))]
    return "digraph crates {" + STYLE + "\n".join(lines) + "\n}\n"


def drawn():
    """What the picture has: the colour of each crate, the titles above, and the arrows."""
    with open(PICTURE) as file:
        text = html.unescape(file.read())
    above = text[:text.index("<!-- ", text.index("<svg"))]
    return (dict(re.findall(r'class="node">\n<title>(\w+)</title>\n<path fill="(#\w+)"', text)),
            re.findall(r"<text[^>]*>(.*?)</text>", above),
            set(re.findall(r'class="edge">\n<title>(\w+)->(\w+)</title>', text)))


def faults():
    """What differs, a line each."""
    crates, found = stands_on(), tables()
    listed = [name for names in found.values() for name in names]
    wanted = {name: colour for colour, names in zip(COLOURS, found.values()) for name in names}
    colours, titles, pairs = drawn()
    yield from (f"{name}: in {listed.count(name)} tables" for name in sorted(crates) if listed.count(name) != 1)
    yield from (f"{name}: in a table, and not in crates.txt" for name in listed if name not in crates)
    yield from (f"the picture and crates.txt differ at {name}" for name in sorted(set(colours) ^ set(crates)))
    yield from (f"the picture and the tables differ at {name}" for name in sorted(set(colours) & set(wanted))
                if colours[name] != wanted[name])
    if titles != list(found):
        yield "the picture and the tables differ in the titles of tables"
    yield from (f"the picture and crates.txt differ at {name} -> {other}"
                for name, other in sorted(pairs ^ arrows(crates)))


def main(words):
    if words == ["--check"]:
        told = list(faults())
        print(*told, sep="\n", end="\n" if told else "")
        sys.exit(1 if told else 0)
    if words == ["--dot"]:
        sys.exit(print(dot(), end=""))
    picture = subprocess.run(["dot", "-Tsvg"], input=dot().encode(), check=True, capture_output=True).stdout
    with open(PICTURE, "wb") as file:
        file.write(picture)


main(sys.argv[1:])
