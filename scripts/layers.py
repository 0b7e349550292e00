#!/usr/bin/env python3
"""Draws the crates as a picture of layers, from crates.txt, and says what each crate stands on.

    layers.py            prints the picture
    layers.py --write    puts it between the two marks of docs/ARCHITECTURE.md, and fills the column *Stands on* there
    layers.py --check    ends with status 1 where one of the two is another there, or a crate has no row

A layer holds the groups of crates.txt (its comment lines) that stand on nothing but groups below. Under each group stand
its crates, and the groups that it stands on and that no other of these brings along. *Stands on* lists crates in the same way: those of
crates.txt that no other listed one brings along.
"""
import os
import re
import sys

TOP = os.path.dirname(os.path.dirname(os.path.abspath(__file__)))
FILE = f"{TOP}/docs/ARCHITECTURE.md"
BEGIN, END = "<!-- layers: begin -->\n", "<!-- layers: end -->\n"
ROW = re.compile(r"\| `(\w+)` \|.*\| built \|")


def read():
    """The groups in the order of the file, each with its crates, and what each crate stands on."""
    groups, stands_on, name = {}, {}, None
    for line in open(f"{TOP}/crates.txt"):
        line = line.strip()
        if line.startswith("#"):
            name = line.strip("# ").split(":")[0].split(",")[0]
        elif line:
            crate, below = line.split(":", 1)
            groups.setdefault(name, []).append(crate)
            stands_on[crate] = below.split()
    return {name: crates for name, crates in groups.items() if crates}, stands_on


def edges(groups, stands_on):
    """For each group the groups that its crates stand on."""
    home = {crate: name for name, crates in groups.items() for crate in crates}
    return {
        name: {home[it] for crate in crates for it in stands_on[crate] if it in home} - {name}
        for name, crates in groups.items()
    }


def below(name, direct, seen=None):
    """All groups below a group."""
    seen = set() if seen is None else seen
    for it in direct[name]:
        if it not in seen:
            seen.add(it)
            below(it, direct, seen)
    return seen


def heights(direct):
    """How many groups stand below each other under each group."""
    known = {}

    def height(name):
        if name not in known:
            known[name] = 1 + max((height(it) for it in direct[name]), default=-1)
        return known[name]

    for name in direct:
        height(name)
    return known


def wrapped(words, room):
    """The words in lines of at most so many characters."""
    lines, line = [], ""
    for word in words:
        if line and len(line) + 1 + len(word) > room:
            lines.append(line)
            line = ""
        line = f"{line} {word}".strip()
    return [*lines, line]


def picture():
    groups, stands_on = read()
    direct = edges(groups, stands_on)
    height = heights(direct)
    out = ["```text"]
    for level in range(max(height.values()), -1, -1):
        out.append(f"{level:2} " + "-" * 93)
        for name in [it for it in groups if height[it] == level]:
            nearest = [it for it in groups if it in direct[name] and not any(it in below(o, direct) for o in direct[name])]
            out.append(f"   {name}" + (f"  (on {', '.join(nearest)})" if nearest else ""))
            out += [f"       {line}" for line in wrapped(groups[name], 88)]
    return "\n".join([*out, "```"]) + "\n"


def nearest(crate, stands_on):
    """The crates on which one stands and that no other of these brings along, in the order of its line."""
    inside = {it: [o for o in stands_on[it] if o in stands_on] for it in stands_on}
    return [it for it in inside[crate] if not any(it in below(o, inside) for o in inside[crate])]


def with_column(text):
    """The rows of crates with their column filled, and whether each crate has a row."""
    stands_on = read()[1]
    lines, told = [], set()
    for line in text.splitlines():
        crate = ROW.fullmatch(line)
        if crate and crate[1] in stands_on:
            told.add(crate[1])
            cells = line.split(" | ")
            cells[-2] = ", ".join(f"`{it}`" for it in nearest(crate[1], stands_on)) or "nothing"
            line = " | ".join(cells)
        lines.append(line)
    return "\n".join(lines) + "\n", told == set(stands_on)


def main():
    if len(sys.argv) == 1:
        print(picture(), end="")
        return 0
    text = open(FILE).read()
    front, rest = text.split(BEGIN)
    back = rest.split(END)[1]
    new, is_whole = with_column(front + BEGIN + picture() + END + back)
    if sys.argv[1] == "--write":
        open(FILE, "w").write(new)
        return 0
    return int(new != text or not is_whole)


sys.exit(main())
