#!/usr/bin/env python3
"""Makes programs with tests, and looks at what `mutate` says of their mutants.

    scripts/mutants.py PROGRAM [COUNT [SEED [JOBS]]]

PROGRAM is the built program. COUNT (50) scripts of tests with their modules are made from SEED (0),
JOBS (1) at a time. Each token that a mutant changes is looked for in the text, and the changed text
is written out beside the other modules. A mutant is unreached where the data file of `suite` has no
arc at its line, and else killed where `suite` can't import the changed text or a test that passed
doesn't pass any more. `mutate` has to say the same of each mutant, in order. The exit status is the
number of programs where it doesn't; each is printed, and kept in the folder that is printed last.
"""
import collections
import concurrent.futures
import os
import random
import re
import shutil
import sqlite3
import subprocess
import sys
import tempfile

sys.dont_write_bytecode = True
from made import program, written  # noqa: E402

SCRIPT = "test_calc"
BUDGET = "--budget=100000"
TOKEN = re.compile(r"[A-Za-z_]\w*|\d+|//=|[-+*%]=|//|[=!<>]=|[-+*%<>]")
OTHER = {
    "+": "-", "-": "+", "*": "//", "//": "*", "%": "*", "+=": "-=", "-=": "+=", "*=": "//=", "//=": "*=",
    "%=": "*=", "==": "!=", "!=": "==", "<": "<=", "<=": "<", ">": ">=", ">=": ">", "True": "False", "False": "True",
}


def changes(text):
    """Of each mutant of a source its line, what it changes to what, and its source. No made source has
    a string with such a token in it, a unary operator, or a statement of several lines."""
    lines = text.split("\n")
    for k, line in enumerate(lines):
        for it in TOKEN.finditer("" if line.lstrip().startswith('"') else line):
            old = it.group()
            new = str(int(old) + 1) if old.isdigit() else OTHER.get(old)
            if new:
                changed = line[:it.start()] + new + line[it.end():]
                yield k + 1, old, new, "\n".join([*lines[:k], changed, *lines[k + 1:]])


def call(program, words, folder):
    return subprocess.run([program, *words], cwd=folder, capture_output=True, text=True, stdin=subprocess.DEVNULL, check=False)


def put(folder, sources):
    os.makedirs(folder, exist_ok=True)
    for name, text in sources.items():
        with open(f"{folder}/{name}.py", "w") as it:
            it.write(text)


def passing(program, folder):
    """The tests that pass in `suite`, or None where the import ends early."""
    done = call(program, ["suite", "--branch", BUDGET, "--data-file=data", f"{SCRIPT}.py"], folder)
    if "ended early" in done.stderr:
        return None
    return {line.split()[0] for line in done.stdout.splitlines()[:-1] if line.endswith(" passed")}


def reached_lines(folder):
    base = sqlite3.connect(f"{folder}/data")
    rows = base.execute("select file.path, arc.fromno, arc.tono from arc join file on file.id = arc.file_id").fetchall()
    base.close()
    return {(path, line) for path, *ends in rows for line in ends if line > 0}


def reckoned(program, sources, folder):
    """What `mutate` has to write."""
    put(f"{folder}/first", sources)
    before = passing(program, f"{folder}/first")
    reached = reached_lines(f"{folder}/first")
    lines, counts = [], collections.Counter()
    for name in ("calc", "base", "bare"):
        for line, old, new, text in changes(sources[name]):
            verdict = "unreached"
            if (f"{name}.py", line) in reached:
                put(f"{folder}/mutant", {**sources, name: text})
                after = passing(program, f"{folder}/mutant")
                verdict = "survived" if after is not None and before <= after else "killed"
            counts[verdict] += 1
            lines.append(f"{len(lines) + 1} {name}.py:{line} {old} -> {new} {verdict}\n")
    told = ", ".join(f"{counts[verdict]} {verdict}" for verdict in ("killed", "survived", "unreached"))
    return "".join(lines) + told + "\n", counts


def tried(program, top, seed, at):
    """What is wrong with the verdicts of a program, or None; and how many there are of each."""
    made = program_of(seed, at)
    folder = tempfile.mkdtemp(prefix=f"{at}-", dir=top)
    wanted, counts = reckoned(program, made, folder)
    done = call(program, ["mutate", BUDGET, f"{SCRIPT}.py"], f"{folder}/first")
    if (done.returncode, done.stdout) != (0, wanted):
        apart = [(one, two) for one, two in zip(done.stdout.splitlines(), wanted.splitlines()) if one != two][:3]
        return f"program {at}: status {done.returncode}, {apart}, {done.stderr!r}: {folder}", counts
    shutil.rmtree(folder)
    return None, counts


def program_of(seed, at):
    return {name: written(body) for name, body in program(random.Random(f"{seed} {at}")).items()}


def main():
    program = os.path.abspath(sys.argv[1])
    count, seed, jobs = (int(it) for it in [*sys.argv[2:], *("50", "0", "1")[len(sys.argv) - 2:]])
    top = tempfile.mkdtemp()
    failed, seen = 0, collections.Counter()
    with concurrent.futures.ThreadPoolExecutor(jobs) as pool:
        for wrong, counts in pool.map(lambda at: tried(program, top, seed, at), range(count)):
            seen += counts
            if wrong:
                failed += 1
                print("FAILED", wrong, flush=True)
    print(f"{count} programs, {failed} failed; mutants: {', '.join(f'{seen[it]} {it}' for it in sorted(seen))}; {top}")
    return min(failed, 255)


if __name__ == "__main__":
    if len(sys.argv) < 2:
        sys.exit(__doc__)
    sys.exit(main())
