#!/usr/bin/env python3
"""Gives the built program the largest input that it takes, and looks at its memory and time.

    scripts/largest.py PROGRAM [TITLE..]

PROGRAM is the built program. Each input has commands with the status that each has to give. A line
tells the most memory and the most seconds of a processor that one of them took. It has to be under
2 GB and 60 seconds, and a command is stopped at 4 GB or after 60 seconds. With TITLE only the inputs
are tried whose titles begin so. The exit status is the number of inputs that took more, or gave
another status.
"""
import os
import resource
import shutil
import sqlite3
import sys
import tempfile

import broken

MEGABYTES, SECONDS = 2048, 60
ALL = "--budget=1000000000"
FILE = 1_048_576


def line(text, count=FILE):
    """One line of so many bytes at most: the text again and again."""
    return text * (count // len(text))


def modules(text):
    """A script that imports 255 modules; all together have 16,777,216 bytes at most."""
    names = [f"m{at}" for at in range(255)]
    size = (16 * FILE - 20 * 255) // 255
    return {"a.py": "".join(f"import {name}\n" for name in names), **{f"{name}.py": line(text, size) for name in names}}


def patterns(key, pattern, count=32):
    return f"{key} = [" + ", ".join(f"'{pattern.replace('#', f'{at:02}')}'" for at in range(count)) + "]\n"


def settings(pattern):
    """As many patterns as there may be, of both kinds."""
    return "[tool.coverage.report]\n" + patterns("exclude_lines", pattern) + patterns("partial_branches", pattern)


def data(folder, name, rows, paths=1, contexts=1):
    """A data file of so many arcs."""
    with sqlite3.connect(f"{folder}/{name}") as base:
        for text in broken.SCHEMA[:7]:
            base.execute(text)
        base.execute("INSERT INTO coverage_schema VALUES (7)")
        base.execute("INSERT INTO meta VALUES ('has_arcs', '1')")
        base.executemany("INSERT INTO file VALUES (?, ?)", [(at + 1, f"p{at}.py") for at in range(paths)])
        base.executemany("INSERT INTO context VALUES (?, ?)", [(at + 1, "c" * at) for at in range(contexts)])
        base.executemany("INSERT INTO arc VALUES (?, ?, ?, ?)", (
            (at % paths + 1, at // paths % contexts + 1, at // paths // contexts // 1000 + 1, at // paths // contexts % 1000 + 1) for at in range(rows)))
    base.close()
    for at in range(paths):
        with open(f"{folder}/p{at}.py", "w") as it:
            it.write("x = 1\n" * 1000)


def many(rows, paths=1, contexts=1):
    return lambda folder: data(folder, ".coverage", rows, paths, contexts)


LABELLED = "def f():\n    pass\nfor k in range(9000):\n    f()\n"
MANY_CALLS = "".join(f"def f{at}():\n    pass\nf{at}()\n" for at in range(200))
LONG = "def label(m, f):\n    return t\nt = 'x' * 1000000\n"
OTHERS = "n = [0]\ndef label(m, f):\n    n[0] += 1\n    return str(n[0]) + t\nt = 'x' * 1000000\n"
SLOW = r"(?:[a-q]{1,9}[b-z]?){1,9}[0-9]{3}[^#]" + "#"
# An input: its title, its files or what makes them, and commands, each with the status that it has to give.
INPUTS = [
    ("1 MB in one line, statements", {"a.py": "x=1" + ";x=1" * 262143}, [(f"arcs {ALL} a.py", 0), ("run --branch a.py", 0), ("report -m", 0), ("annotate a.py", 0)]),
    ("1 MB in one line, a list", {"a.py": "x = [" + line("0,", FILE - 8) + "]"}, [("run --branch a.py", 0), ("report -m", 0)]),
    ("a sum of 200 numbers", {"a.py": "x = 0" + line("+1", 398)}, [("run --branch a.py", 0)]),
    ("1 MB in one line, an f-string", {"a.py": "x = f'" + line("{1}", FILE - 9) + "'"}, [("run --branch a.py", 0), ("report", 0)]),
    ("1 MB in one line, a dict", {"a.py": "x = {" + line("1:2,", FILE - 8) + "}"}, [("run --branch a.py", 0)]),
    ("1 MB of brackets that aren't closed", {"a.py": "(" * FILE}, [("run --branch a.py", 1)]),
    ("1 MB of names", {"a.py": "\n".join(f"n{at} = {at}" for at in range(62000)) + "\n"}, [("run --branch a.py", 0), ("report", 0)]),
    ("1 MB of functions", {"a.py": "".join(f"def f{at}(a): return a\nf{at}(1)\n" for at in range(30000))}, [(f"run --branch {ALL} a.py", 0), ("report -m", 0), ("lcov", 0)]),
    ("65,535 lines", {"a.py": "x = 1\n" * 65535}, [("run --branch a.py", 0), ("report -m", 0), ("annotate a.py", 0), ("json", 0), ("lcov", 0)]),
    ("65,535 lines of `if`", {"a.py": "if 1: x=1\n" * 65535}, [("run --branch a.py", 0), ("report -m", 0), ("json", 0)]),
    ("65,535 lines of tests", {"a.py": "".join(f"def test_{at}():\n  pass\n" for at in range(32767))}, [("suite --branch --budget=100000 a.py", 0), ("select --budget=100000 a.py a.py", 0)]),
    ("256 modules, 16 MB", modules("x = 1\n"), [(f"run --branch {ALL} a.py", 0), ("report", 0)]),
    ("256 modules, 16 MB, long lines", modules("x = [1, 2, 3, 4, 5, 6, 7, 8]; y = (x, x); z = y[0][1] + 2 * 3\n"), [(f"run --branch {ALL} a.py", 0), ("report", 0), ("mutate --budget=0 a.py", 1)]),
    ("34 patterns of 200 bytes, 65,535 lines", {"a.py": "x = 1\n" * 65535, "pyproject.toml": settings("a" * 198 + "#")}, [("run --branch a.py", 0), ("report", 0)]),
    ("34 slow patterns of 200 bytes, 65,535 lines", {"a.py": "if 0: pass # ab\n" * 65535, "pyproject.toml": settings(SLOW.ljust(198, "a"))}, [("run --branch a.py", 0), ("report", 0)]),
    ("34 large patterns, 65,535 lines", {"a.py": "x = 'abcdefg'\n" * 65535, "pyproject.toml": settings(r"\w{90}[^#]{40}x")}, [("run --branch a.py", 0), ("report", None)]),
    ("a data file of 1,000,000 rows", many(1_000_000), [("report", 0), ("run -a --branch --data-file=.coverage p0.py", 0), ("json", 0)]),
    ("a data file of 1,000,000 rows in 20 paths and 50 contexts", many(1_000_000, 20, 50), [("report -m", 0), ("combine -a --keep .coverage", 0)]),
    ("a text doubled to its limit", {"a.py": "s = '\U0001f40d'\nfor k in range(20):\n    s = s + s\nprint(len(s))\nt = s + s\n"}, [("run --branch a.py", 1)]),
    ("a text doubled to its limit 1,000 times over", {"a.py": "l = []\nfor i in range(1000):\n    s = 'ab' + str(i)\n    for k in range(17):\n        s = s + s\n    l.append(s)\n"}, [("run --branch a.py", 0)]),
    ("a list doubled to its limit", {"a.py": "s = [1]\nfor k in range(20):\n    s = s + s\nprint(len(s))\nt = s + s\n"}, [("run --branch a.py", 1)]),
    ("a hook with a label of 1,000,000 characters", {"a.py": MANY_CALLS, "h.py": LONG}, [("run --branch --hook=h.py:label a.py", 0), ("report", 0), ("run -a --branch --hook=h.py:label a.py", 0)]),
    ("a hook with 200 labels of 1,000,000 characters", {"a.py": MANY_CALLS, "h.py": OTHERS}, [("run --branch --hook=h.py:label a.py", 0), ("report", 0)]),
    ("9,000 calls under one label of 1,000,000 characters", {"a.py": LABELLED, "h.py": LONG}, [("run --branch --hook=h.py:label a.py", 0)]),
    ("`t == t` of a tuple doubled 20 times", {"a.py": "t = ()\nfor i in range(20): t = (t, t)\nprint(t == t)\n"}, [("arcs a.py", 0)]),
    ("`t == t` and `t < t` of a tuple doubled 150 times", {"a.py": "t = ()\nfor i in range(150): t = (t, t)\nprint(t == t)\n", "b.py": "t = ()\nfor i in range(150): t = (t, t)\nprint(t < t)\n"}, [("arcs a.py", 70), ("run b.py", 70)]),
    ("a long text in a long text", {"a.py": "s = 'a' * 1048576\nprint('a' * 524288 + 'b' in s)\n"}, [("arcs a.py", 0)]),
    ("a long text split at a long text", {"a.py": "s = 'a' * 1048575\nprint(len(s.split('a' * 1000 + 'b')), len(s.split('a')))\n"}, [("arcs a.py", 0)]),
    ("steps without end that each make a list of 2,000 items", {"a.py": "x = [0] * 1000\nwhile 1: y = x + x\n"}, [("arcs a.py", None)]),
    ("1,000 frames", {"a.py": "def f(n):\n    return 0 if n < 1 else f(n - 1)\nfor k in range(900): f(900)\n"}, [(f"arcs {ALL} a.py", 0)]),
    ("the largest made program", {}, [("make 7 16000", 0)]),
    ("a script of 65,535 lines", {"s.txt": "erase\n" * 65535}, [("script s.txt", 0)]),
    ("settings of 1 MB", {"pyproject.toml": "[tool.coverage.run]\nx = [" + line("[],", FILE - 40) + "]\n"}, [("erase", 0)]),
    ("settings of 1 MB, a long text", {"pyproject.toml": "[tool.coverage.run]\ncontext = '" + "c" * (FILE - 40) + "'\n", "a.py": "x = 1\n" * 100}, [("run --branch a.py", 0), ("run -a --branch a.py", 0), ("report", 0)]),
    ("50,000 rules of paths", {"pyproject.toml": "[tool.coverage.paths]\n" + "".join(f"a{at} = ['b', 'c']\n" for at in range(50000)), "a.py": "x = 1\n"}, [("run --branch --data-file=.coverage.1 a.py", 0), ("combine", 0)]),
]


def tried(program, words, folder):
    """The status of the program, its memory in megabytes and its seconds."""
    pid = os.fork()
    if not pid:
        os.chdir(folder)
        resource.setrlimit(resource.RLIMIT_AS, (2 * MEGABYTES << 20,) * 2)
        resource.setrlimit(resource.RLIMIT_CPU, (SECONDS, SECONDS))
        resource.setrlimit(resource.RLIMIT_CORE, (0, 0))
        for at, name in enumerate(("/dev/null", "out", "err")):
            os.dup2(os.open(f"{folder}.{name}" if at else name, os.O_RDWR | os.O_CREAT | os.O_TRUNC), at)
        os.execv(program, [program, *words.split()])
    status, used = os.wait4(pid, 0)[1:]
    return os.waitstatus_to_exitcode(status), used.ru_maxrss / 1024, used.ru_utime + used.ru_stime


def main():
    program = os.path.abspath(sys.argv[1])
    failed = 0
    for title, files, commands in INPUTS:
        if len(sys.argv) > 2 and not any(title.startswith(it) for it in sys.argv[2:]):
            continue
        top = tempfile.mkdtemp(dir="/dev/shm" if os.path.isdir("/dev/shm") else None)
        folder = f"{top}/in"
        os.mkdir(folder)
        if callable(files):
            files(folder)
        else:
            for name, text in files.items():
                with open(f"{folder}/{name}", "w") as it:
                    it.write(text)
        rows = []
        for words, wanted in commands:
            status, memory, seconds = tried(program, words, folder)
            with open(f"{folder}.err", errors="replace") as it:
                told = it.read(100).strip()
            good = memory < MEGABYTES and seconds < SECONDS and status >= 0 and wanted in (None, status)
            rows.append((good, memory, seconds, f"{words.split()[0]}: {status}, {memory:.0f} MB, {seconds:.2f} s{f', {told!r}' if status else ''}"))
        good = all(row[0] for row in rows)
        failed += not good
        print(f"| {title} | {max(row[1] for row in rows):.0f} MB | {max(row[2] for row in rows):.1f} s | {'' if good else 'FAILED '}{'; '.join(row[3] for row in rows)} |", flush=True)
        shutil.rmtree(top)
    print(f"{failed} failed")
    return failed


if __name__ == "__main__":
    sys.exit(main())
