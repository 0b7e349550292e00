#!/usr/bin/env python3
"""Runs the gate, or watches one, and writes what each crate cost as the table of docs/GATE.md.

    scripts/gate_cost.py [NAME..]           runs `rt ci [NAME..]` at the top of this repository
    scripts/gate_cost.py --watch PID [TOP]  watches a run that has begun, till it ends; TOP is its folder

The processes of the run are sampled once a second from /proc, so short ones are counted a little
low. Times are processor minutes, apart for proofs with builds and for must-fail edits; memory is the
most of one process. Lines are those of src/, specs/ and proofs/. Crates come in the order of
crates.txt. The sum stands in the last row.
"""
import glob
import os
import re
import subprocess
import sys
import time

TICK = os.sysconf("SC_CLK_TCK")


def processes():
    """Each process: its parent, when it began, its ticks, its words, its megabytes and its folder."""
    found = {}
    for pid in filter(str.isdigit, os.listdir("/proc")):
        try:
            stat = open(f"/proc/{pid}/stat").read()
            parts = stat[stat.rindex(")") + 2:].split()
            words = open(f"/proc/{pid}/cmdline", "rb").read().decode(errors="replace").split("\0")
            memory = int(open(f"/proc/{pid}/statm").read().split()[1]) * 4 // 1024
            folder = os.readlink(f"/proc/{pid}/cwd")
        except (OSError, ValueError, IndexError):
            continue
        found[int(pid)] = (int(parts[1]), int(parts[19]), int(parts[11]) + int(parts[12]), words, memory, folder)
    return found


def below(found, root):
    """The processes below one, each after its parent."""
    children = {}
    for pid, it in found.items():
        children.setdefault(it[0], []).append(pid)
    listed, left = [], [root]
    while left:
        pid = left.pop(0)
        listed.append(pid)
        left += children.get(pid, [])
    return [pid for pid in listed if pid in found]


def watch(root, is_running):
    """What each process cost, by the crate that it works for: ticks, megabytes, crate, whether for an edit."""
    seen, crates = {}, {}
    while is_running():
        found = processes()
        for pid in below(found, root):
            parent, began, ticks, words, memory, folder = found[pid]
            key = (pid, began)
            name = words[words.index("--crate-name") + 1] if "--crate-name" in words else None
            if name is None and parent in found:
                name = crates.get((parent, found[parent][1]))
            if name:
                crates[key] = name
                seen[key] = (ticks, max(memory, seen.get(key, (0, 0))[1]), name, "rt-edit" in folder)
        time.sleep(1)
    return seen


def lines_of(top, name):
    files = [it for part in ("src/**/*.rt", "specs/**/*.antt", "proofs/**/*.antt") for it in glob.glob(f"{top}/crates/{name}/{part}", recursive=True)]
    return sum(open(it, encoding="utf-8").read().count("\n") for it in files)


def table(top, seen):
    order = re.findall(r"^(\w+)[^#\n]*:", open(f"{top}/crates.txt").read(), re.M)
    cost = {}
    for ticks, memory, name, is_edit in seen.values():
        it = cost.setdefault(name, [0.0, 0.0, 0])
        it[is_edit] += ticks / TICK / 60
        it[2] = max(it[2], memory)
    print("| Crate | Proof and build | Edits | Peak memory | Lines | Minutes a thousand lines |")
    print("|---|---|---|---|---|---|")
    edits, lines = 0, 0
    for name in [it for it in order if it in cost]:
        proof, of_edits, memory = cost[name]
        number, size = len(glob.glob(f"{top}/crates/{name}/must-fail/*.edit")), lines_of(top, name)
        edits, lines = edits + number, lines + size
        said = f"{of_edits:.1f} for {number}" if number else "none"
        print(f"| `{name}` | {proof:.1f} | {said} | {memory} MB | {size} | {(proof + of_edits) * 1000 / max(size, 1):.1f} |")
    proof, of_edits = (sum(it[at] for it in cost.values()) for at in (0, 1))
    print(f"| all | {proof:.0f} | {of_edits:.0f} for {edits} | {max(it[2] for it in cost.values())} MB | {lines} | {(proof + of_edits) * 1000 / max(lines, 1):.1f} |")


def main():
    begun, words = time.time(), sys.argv[1:]
    if words[:1] == ["--watch"]:
        root, top = int(words[1]), words[2] if len(words) > 2 else "."
        seen, status = watch(root, lambda: os.path.exists(f"/proc/{root}")), 0
    else:
        top = os.path.dirname(os.path.dirname(os.path.abspath(__file__)))
        run = subprocess.Popen(["rt", "ci", *words], cwd=top, stdin=subprocess.DEVNULL)
        seen = watch(run.pid, lambda: run.poll() is None)
        status = run.returncode
    table(top, seen)
    print(f"\n{(time.time() - begun) / 60:.0f} minutes by the clock, {os.cpu_count()} processors")
    return status


if __name__ == "__main__":
    sys.exit(main())
