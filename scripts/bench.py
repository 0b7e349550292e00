#!/usr/bin/env python3
"""Measures each command on works of one size and of twice that, beside coverage.py where it has the command.

    scripts/bench.py PROGRAM [--only WORD] [--repeat N] [--native] [--alone]

PROGRAM is the built program. coverage.py is the one of /usr/bin/python3; on Debian it is the package
python3-coverage. Each line has a work, its size, and of both sides the processor seconds and the
most memory, the least and the most of N runs (3). The runs of both sides take turns, so that a busy
machine slows both alike. `ratio` is our time in parts of coverage.py's, and `growth` our time in
parts of that of the size before. --native counts the instructions of one run in place of seconds,
by valgrind. --alone leaves coverage.py out. --only takes works whose name has this word.
"""
import argparse
import os
import re
import shutil
import sqlite3
import subprocess
import sys
import tempfile

COVERAGE = ["/usr/bin/python3", "-m", "coverage"]
BUDGET = "--budget=1000000000"
TABLES = """
CREATE TABLE coverage_schema (version integer);
CREATE TABLE meta (key text, value text, unique (key));
CREATE TABLE file (id integer primary key, path text, unique (path));
CREATE TABLE context (id integer primary key, context text, unique (context));
CREATE TABLE line_bits (file_id integer, context_id integer, numbits blob,
    foreign key (file_id) references file (id), foreign key (context_id) references context (id), unique (file_id, context_id));
CREATE TABLE arc (file_id integer, context_id integer, fromno integer, tono integer,
    foreign key (file_id) references file (id), foreign key (context_id) references context (id), unique (file_id, context_id, fromno, tono));
CREATE TABLE tracer (file_id integer primary key, tracer text, foreign key (file_id) references file (id));
INSERT INTO coverage_schema VALUES (7);
INSERT INTO meta VALUES ('has_arcs', '1');
INSERT INTO context VALUES (1, '');
"""


# The sources that are run, by their size.

def generated(size):
    """The text of `make 7 SIZE`."""
    number, out = 7, ["t = 0"]
    for _ in range(size):
        number = (number * 6364136223846793005 + 1442695040888963407) % 2**64
        q = number // 2**33
        k = (q // 4) % 7
        out += [
            [f"if t % 3 == {k}:", "    t = t + 1", "else:", "    t = t + 2"],
            [f"for i in range({k}):", "    t = t + i"],
            ["try:", f"    t = t // {k}", "except ZeroDivisionError:", "    t = t + 5"],
            [f"while t > {k} * 10:", "    t = t - 7"],
        ][q % 4]
    return "\n".join([*out, "print(t)"]) + "\n"


RUN = {
    "loop": (150_000, lambda n: f"n = 0\ni = 0\nwhile i < {n}:\n    if i == n + n:\n        n = n + 1\n    i = i + 1\nprint(n)\n"),
    "calls": (40, lambda n: f"def fib(n):\n    if n < 2:\n        return n\n    return fib(n - 1) + fib(n - 2)\nfor k in range({n}):\n    fib(13)\n"),
    "dicts": (50_000, lambda n: f"words = {{}}\nfor i in range({n}):\n    k = 'w' + str(i % 1000)\n    words[k] = words.get(k, 0) + 1\nprint(len(words))\n"),
    "texts": (10_000, lambda n: f"parts = []\nfor i in range({n}):\n    parts.append(f'<{{i}}>')\ntext = ','.join(parts)\nn = 0\nfor p in text.split(','):\n    if p.startswith('<1'):\n        n += 1\nprint(n, len(text))\n"),
    "long_text": (10_000, lambda n: f"text = 'x' * 100000\nn = 0\nfor i in range({n}):\n    if text.startswith('xy'):\n        n += 1\n    if text[i] == 'x':\n        n += 1\nprint(n)\n"),
    "lists": (50_000, lambda n: f"xs = []\nfor i in range({n}):\n    xs.append(i * 7 % 1000)\nt = 0\nfor x in xs:\n    if x % 2 == 0:\n        t += x\nprint(t)\n"),
    "raises": (30_000, lambda n: f"def f(k):\n    if k % 3 == 0:\n        raise ValueError(k)\n    return k\nt = 0\nfor k in range({n}):\n    try:\n        t += f(k)\n    except ValueError as e:\n        t -= 1\n    finally:\n        t += 1\nprint(t)\n"),
    "made": (8_000, generated),
    "lines": (30_000, lambda n: "x = 1\n" * n),
}


def tests(count, changed=False):
    """Tests of a module, `shapes`, that has a function for each. The changed version has another line in the first one."""
    shapes = [f"def side_{k}(n):\n    if n > {k}:\n        return n + {k}\n    return {k} - n" for k in range(count)]
    if changed:
        shapes[0] = shapes[0].replace("return 0 - n", "return 1 - n")
    calls = [f"def test_{k}():\n    assert shapes.side_{k}({k + 1}) == {2 * k + 1}" for k in range(count)]
    return {"shapes.py": "\n".join(shapes) + "\n", "tests.py": "import shapes\n" + "\n".join(calls) + "\n"}


def calling(count):
    """A script that calls these tests one after the other."""
    return "import tests\n" + "".join(f"tests.test_{k}()\n" for k in range(count))


def places(count):
    """A module of 1,000 lines with 2,000 places or so, and a number of tests that each go through a tenth of its functions."""
    parts = [f"def part_{k}(n):\n    t = n + {k}\n    for i in range(3):\n        if t > i * {k}:\n            t = t - 1\n        else:\n            t = t + 2\n    t = t * 3\n    t = t % 97\n    return t" for k in range(100)]
    calls = [f"def test_{k}():\n    t = {k}\n" + "".join(f"    t = t + parts.part_{(k + 10 * j) % 100}(t)\n" for j in range(10)) + "    assert t >= 0" for k in range(count)]
    return {"parts.py": "\n".join(parts) + "\n", "tests.py": "import parts\n" + "\n".join(calls) + "\n"}


def put(folder, files):
    for name, text in files.items():
        os.makedirs(os.path.dirname(f"{folder}/{name}") or folder, exist_ok=True)
        with open(f"{folder}/{name}", "w") as it:
            it.write(text)


def put_data(file, first, count):
    """A data file of this many arcs over 100 paths, from the arc of this number on."""
    base = sqlite3.connect(file)
    base.executescript(TABLES)
    base.executemany("INSERT INTO file VALUES (?, ?)", ((k + 1, f"src/part{k:03}.py") for k in range(100)))
    rows = ((n % 100 + 1, 1, n // 100 + 1, n // 100 + 2) for n in range(first, first + count))
    base.executemany("INSERT INTO arc VALUES (?, ?, ?, ?)", rows)
    base.commit()
    base.close()


class Work:
    """A work on one command: its sizes, the words of both sides, what is put there before, and what each run begins without."""

    def __init__(self, name, sizes, ours, theirs=None, prepare=None, fresh=(), beside=None):
        self.name, self.sizes, self.ours, self.theirs = name, sizes, ours, theirs
        self.prepare, self.fresh = prepare or (lambda *_: None), fresh
        self.beside = sizes if beside is None else beside


def with_runs(text):
    """Puts a source, and the data of both sides of a run of it."""

    def prepare(program, folder, size):
        put(folder, {"it.py": text(size)})
        needed([program, "run", "--branch", BUDGET, "--data-file=ours", "it.py"], folder)
        if shutil.which(COVERAGE[0]):
            subprocess.run([*COVERAGE, "run", "--branch", "it.py"], cwd=folder, stdout=subprocess.DEVNULL, stderr=subprocess.DEVNULL, check=False)
    return prepare


def data_files(program, folder, size):
    for k in range(10):
        put_data(f"{folder}/.coverage.{k}", k * size, size)


def data_file(program, folder, size):
    put_data(f"{folder}/kept", 0, size)


def restored(folder):
    shutil.copyfile(f"{folder}/kept", f"{folder}/.coverage")


def both_versions(program, folder, size):
    put(folder, tests(size))
    put(folder, {f"next/{name}": text for name, text in tests(size, True).items()})
    put(folder, {"calling.py": calling(size)})


def reports(program, folder, size):
    put(folder, {"it.py": RUN["made"][1](20), "at.py": RUN["raises"][1](10), "lines.txt": "report --data-file=ours\n" * size})
    needed([program, "run", "--branch", "--data-file=ours", "it.py"], folder)
    needed([program, "run", "--branch", "--append", "--data-file=ours", "at.py"], folder)


def works():
    yield Work("start", (1,), ["--version"], [[*COVERAGE, "--version"]])
    for name, (size, text) in RUN.items():
        source = lambda program, folder, n, text=text: put(folder, {"it.py": text(n)})
        theirs = [[*COVERAGE, "run", "--branch", "it.py"]]
        yield Work(f"arcs {name}", (size, 2 * size), ["arcs", BUDGET, "it.py"], theirs, source, (".coverage",))
        yield Work(f"run {name}", (size, 2 * size), ["run", "--branch", BUDGET, "--data-file=ours", "it.py"], theirs, source, (".coverage", "ours"))
    made = (4_000, 8_000, 16_000)
    for words in (["report", "-m"], ["json", "-o", "-"], ["lcov", "-o", "-"], ["annotate", "it.py"]):
        theirs = [*COVERAGE, *words[:1], *(["-d", "marked"] if words[0] == "annotate" else words[1:])]
        yield Work(words[0], made, [words[0], "--data-file=ours", *words[1:]], [theirs], with_runs(generated), beside=made[:1])
    yield Work("combine of ten", (2_500, 5_000, 10_000), ["combine", "--keep"], [[*COVERAGE, "combine", "--keep"]], data_files, (".coverage",))
    yield Work("erase", (10_000, 20_000), ["erase"], [[*COVERAGE, "erase"]], data_file, restored)
    yield Work("script of reports", (100, 200, 400), ["script", "lines.txt"], None, reports)
    both = [[*COVERAGE, "run", "--branch", "it.py"], [*COVERAGE, "report"]]
    yield Work("make", made, lambda n: ["make", "7", str(n)], both, lambda program, folder, n: put(folder, {"it.py": generated(n)}), (".coverage",), made[:1])
    yield Work("suite", (500, 1_000, 2_000), ["suite", "--branch", "--data-file=ours", "tests.py"], [[*COVERAGE, "run", "--branch", "calling.py"]], both_versions, (".coverage", "ours"))
    yield Work("select", (500, 1_000, 2_000), ["select", "tests.py", "next/tests.py"], None, both_versions)
    yield Work("mutate", (25, 50, 100), ["mutate", "tests.py"], None, lambda program, folder, n: put(folder, places(n)))


def needed(words, folder):
    done = subprocess.run(words, cwd=folder, capture_output=True, text=True, check=False)
    if done.returncode:
        sys.exit(f"{' '.join(words)}: status {done.returncode}: {done.stderr[-300:]}")


def timed(words, folder):
    """The processor seconds of a process, and its megabytes."""
    child = subprocess.Popen(words, cwd=folder, stdin=subprocess.DEVNULL, stdout=subprocess.DEVNULL, stderr=subprocess.PIPE)
    said = child.stderr.read().decode(errors="replace")
    _, status, use = os.wait4(child.pid, 0)
    if os.waitstatus_to_exitcode(status) != 0:
        sys.exit(f"{' '.join(words)}: status {os.waitstatus_to_exitcode(status)}: {said[-300:]}")
    return use.ru_utime + use.ru_stime, use.ru_maxrss // 1024


def counted(words, folder):
    """The millions of native instructions of a process, and no megabytes."""
    done = subprocess.run(["valgrind", "--tool=cachegrind", "--cache-sim=no", "--cachegrind-out-file=/dev/null", *words], cwd=folder, stdin=subprocess.DEVNULL, stdout=subprocess.DEVNULL, stderr=subprocess.PIPE, text=True, check=False)
    found = re.search(r"I\s+refs:\s+([\d,]+)", done.stderr)
    if done.returncode or not found:
        sys.exit(f"{' '.join(words)}: status {done.returncode}: {done.stderr[-300:]}")
    return int(found[1].replace(",", "")) / 1e6, 0


def measured(work, size, program, folder, repeat, how, is_alone):
    """Of both sides the least time, or the instructions, and the most memory; the second is None where coverage.py has no part."""
    words = work.ours(size) if callable(work.ours) else work.ours
    sides = [[[program, *words]], [] if is_alone or size not in work.beside else work.theirs or []]
    found = [[], []]
    for _ in range(repeat):
        for at, calls in enumerate(sides):
            if callable(work.fresh):
                work.fresh(folder)
            else:
                for name in work.fresh:
                    if os.path.exists(f"{folder}/{name}"):
                        os.remove(f"{folder}/{name}")
            got = [how(call, folder) for call in calls]
            if got:
                found[at].append((sum(it[0] for it in got), max(it[1] for it in got)))
    return [(min(it[0] for it in side), max(it[1] for it in side)) if side else None for side in found]


def main():
    words = argparse.ArgumentParser()
    words.add_argument("program")
    words.add_argument("--only", default="")
    words.add_argument("--repeat", type=int, default=3)
    words.add_argument("--native", action="store_true")
    words.add_argument("--alone", action="store_true")
    asked = words.parse_args()
    program, how, repeat = os.path.abspath(asked.program), timed, asked.repeat
    if asked.native:
        how, repeat = counted, 1
    unit = "M instr." if asked.native else "s"
    print(f"{'work':20}{'size':>8}{'ours ' + unit:>15}{'MB':>6}{'coverage.py':>14}{'MB':>6}{'ratio':>8}{'growth':>8}")
    for work in works():
        if asked.only not in work.name:
            continue
        before = None
        for size in work.sizes:
            folder = tempfile.mkdtemp()
            put(folder, {".coveragerc": "[run]\nrelative_files = True\n"})
            work.prepare(program, folder, size)
            ours, theirs = measured(work, size, program, folder, repeat, how, asked.alone)
            beside = f"{theirs[0]:14.3f}{theirs[1]:6}{ours[0] / theirs[0]:8.3f}" if theirs else " " * 28
            growth = f"{ours[0] / before:8.2f}" if before else ""
            print(f"{work.name:20}{size:8}{ours[0]:15.3f}{ours[1]:6}{beside}{growth}", flush=True)
            before = ours[0]
            shutil.rmtree(folder)


if __name__ == "__main__":
    main()
