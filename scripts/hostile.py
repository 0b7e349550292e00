#!/usr/bin/env python3
"""Feeds the built program what nobody wrote for it, and looks at how it ends.

    scripts/hostile.py PROGRAM [COUNT [SEED [JOBS [KIND..]]]]

PROGRAM is the built program. COUNT (1,000) inputs of each KIND are made from SEED (0) by broken.py:
source, settings, data, words, and script, a file of commands. Each is given to the program in a
process of its own with 1 GB of memory, 10 seconds of a processor and 600 in all; JOBS (1) run at a
time. It has to end by itself, with a status of the README and, unless it is a script, at most one
line of its own on standard error. A refusal has just one. It leaves no file that no word or setting
names, but the `-wal` of a data file. The exit status is the number of inputs after which that
wasn't so, at most 255. Each is printed, and its folder is kept in the one that is printed last.
Inputs that want more than the memory are printed too, with status 70; they don't count.
"""
import collections
import os
import random
import resource
import shutil
import signal
import subprocess
import sys
import tempfile
import time

import broken

KINDS = ("source", "settings", "data", "words", "script")
STATUSES = {0, 1, 2, 70, 74, 75}
MEMORY, SECONDS, IN_ALL = 1 << 30, 10, 600
BUDGET = "--budget=10000"
OF_SOURCES = [
    ["arcs", BUDGET, "a.py"], ["arcs", BUDGET, "a.py"], ["arcs", "a.py"], ["run", "--branch", BUDGET, "a.py"], ["annotate", "a.py"],
    ["report", "-m"], ["suite", BUDGET, "a.py"], ["select", BUDGET, "a.py", "b.py"], ["mutate", BUDGET, "b.py"], ["run", "--hook=a.py:f", "b.py"],
]
OF_SETTINGS = [["report"], ["lcov"], ["combine", "-a", "--keep", ".coverage"], ["run", "a.py"], ["erase"], ["annotate", "a.py"], ["json", "-o", "-"]]
OF_DATA = [
    ["report", "-m"], ["json", "-o", "-"], ["combine", "--append", "--keep", ".coverage.1"], ["run", "--append", "--branch", "a.py"],
    ["run", "a.py"], ["annotate", "a.py"], ["combine", "--keep", ".coverage"], ["erase"],
]
OUT = os.O_WRONLY | os.O_CREAT | os.O_TRUNC


class Place:
    """A folder in memory where inputs are put, one after the other: the program runs in `up/in`."""

    def __init__(self, program, kept):
        self.program, self.kept = program, kept
        self.top = tempfile.mkdtemp(prefix="hostile-", dir="/dev/shm" if os.path.isdir("/dev/shm") else None)
        self.folder = f"{self.top}/up/in"
        os.makedirs(self.folder)
        os.chdir(self.folder)
        self.fresh({"a.py": broken.SOURCE.encode(), "calc.py": broken.CALC.encode()})
        self.run(["run", "--branch", "--budget=9999", "a.py"])
        self.good = self.read(".coverage")

    def read(self, name):
        with open(name, "rb") as it:
            return it.read()

    def fresh(self, files):
        """Makes the folder anew with these files."""
        for name in os.listdir("."):
            if os.path.isdir(name):
                shutil.rmtree(name)
            else:
                os.unlink(name)
        for name in os.listdir(".."):
            if name != "in":
                os.unlink(f"../{name}")
        for name, data in files.items():
            if "/" in name and not os.path.isdir(os.path.dirname(name)):
                os.mkdir(os.path.dirname(name))
            with open(name, "wb", buffering=0) as it:
                it.write(data)

    def run(self, words):
        """How the program ends: its status, or the signal as a negative number; None without an end."""
        pid = os.posix_spawn(self.program, [self.program, *words], {}, file_actions=[
            (os.POSIX_SPAWN_OPEN, 0, "/dev/null", os.O_RDONLY, 0),
            (os.POSIX_SPAWN_OPEN, 1, f"{self.top}/out", OUT, 0o600), (os.POSIX_SPAWN_OPEN, 2, f"{self.top}/err", OUT, 0o600)])
        late = []

        def stop(*_):
            late.append(True)
            os.kill(pid, signal.SIGKILL)
        signal.signal(signal.SIGALRM, stop)
        signal.setitimer(signal.ITIMER_REAL, IN_ALL)
        try:
            resource.prlimit(pid, resource.RLIMIT_CPU, (SECONDS, SECONDS))
        except ProcessLookupError:
            pass
        status, self.used = os.wait4(pid, 0)[1:]
        signal.setitimer(signal.ITIMER_REAL, 0)
        code = os.waitstatus_to_exitcode(status)
        return None if late or code in (-signal.SIGKILL, -signal.SIGXCPU) and self.used.ru_utime + self.used.ru_stime > SECONDS - 1 else code

    def keep(self, name, words):
        shutil.copytree(f"{self.top}/up", f"{self.kept}/{name}", symlinks=True)
        for what in ("out", "err"):
            shutil.copy(f"{self.top}/{what}", f"{self.kept}/{name}.{what}")
        with open(f"{self.kept}/{name}.words", "w", errors="surrogateescape") as it:
            it.write("\n".join(words) + "\n")


def input_of(kind, chance, number, bases, good):
    """The files of an input, and its words."""
    files = {"a.py": broken.SOURCE.encode(), "calc.py": broken.CALC.encode(), ".coverage": good}
    if kind == "source":
        words = chance.choice(OF_SOURCES)
        name = chance.choice(("a.py", "a.py", "calc.py"))
        if "b.py" in words:
            files["b.py"] = chance.choice(broken.SOURCES).encode()
        files[name] = broken.source(chance)
        if "report" not in words:
            del files[".coverage"]
    elif kind == "settings":
        files["pyproject.toml"] = broken.settings(chance)
        words = chance.choice(OF_SETTINGS)
    elif kind == "data":
        words = chance.choice(OF_DATA) if number >= len(good) else OF_DATA[number % 4]
        files[".coverage.1" if ".coverage.1" in words else ".coverage"] = bases.at(number, chance)
    else:
        files["b.py"] = files["sub/b.py"] = broken.OTHER.encode()
        files["m.txt"] = b"run a.py\nreport\n"
        words = broken.words(chance)
        if kind == "script":
            files["m.txt"] = broken.script(chance)
            words = ["script", "m.txt"]
    return files, words


def wrong_in(kind, files, words, code, place):
    """What is wrong with how the program ended, if something is."""
    told = place.read(f"{place.top}/err")
    exits = any(b"exit" in it or b"Exit" in it for name, it in files.items() if name.endswith(".py"))
    if code is None:
        return "no end in its time"
    if code < 0 or code not in STATUSES and not exits:
        return f"status {code}"
    own = [line for line in told.split(b"\n") if line.startswith(b"coverage: ")]
    if told and not told.endswith(b"\n"):
        return "a line without its end on standard error"
    if kind != "script" and len(own) > 1:
        return f"{len(own)} lines on standard error"
    if kind != "script" and not exits and code in (70, 74, 75) and not own:
        return f"status {code} without a line"
    if own and told.startswith(b"coverage: ") and kind not in ("words", "script") and told.count(b"\n") > 1:
        return "more than a line on standard error"
    given = b"\n".join([*(word.encode(errors="surrogateescape") for word in words), *(it for name, it in files.items() if name in ("m.txt", "pyproject.toml"))])
    for name in (*os.listdir("."), *os.listdir("..")):
        plain = name.removesuffix("-wal").encode(errors="surrogateescape")
        if plain.decode(errors="replace") not in {*files, "in", "sub", ".coverage", "coverage.json", "coverage.lcov"} and plain not in given:
            return f"another file: {name!r}"
    for name, data in files.items():
        if name.endswith(".py") and name.encode() not in given and (not os.path.isfile(name) or place.read(name) != data):
            return f"a changed source: {name}"
    return None


def work(program, kept, kind, count, seed, first, jobs, answer):
    """Tries every input of a kind whose number is `first` modulo `jobs`, and writes what came of them."""
    resource.setrlimit(resource.RLIMIT_CORE, (0, 0))
    place = Place(program, kept)
    resource.setrlimit(resource.RLIMIT_AS, (MEMORY, MEMORY))
    resource.setrlimit(resource.RLIMIT_FSIZE, (1 << 26, 1 << 26))
    signal.signal(signal.SIGXFSZ, signal.SIG_IGN)
    bases = broken.Bases(place.good)
    seen, most, longest = collections.Counter(), 0, 0.0
    for number in range(first, count, jobs):
        chance = random.Random(f"{seed} {kind} {number}")
        files, words = input_of(kind, chance, number, bases, place.good)
        place.fresh(files)
        try:
            code = place.run(words)
        except ValueError:
            seen["no words"] += 1
            continue
        seen[code] += 1
        most, longest = max(most, place.used.ru_maxrss), max(longest, place.used.ru_utime + place.used.ru_stime)
        wrong = wrong_in(kind, files, words, code, place)
        if wrong or code == 70:
            seen["failed"] += bool(wrong)
            place.fresh(files)
            place.keep(f"{kind}-{number}", words)
            print("FAILED" if wrong else "70", f"{kind} {number}: {wrong}: {str(words)[:300]}", flush=True)
    shutil.rmtree(place.top)
    answer.write(f"{dict(seen)!r}\n{most}\n{longest}\n")
    answer.close()


def main():
    program = os.path.abspath(sys.argv[1])
    count, seed, jobs = (int(it) for it in [*sys.argv[2:5], *("1000", "0", "1")[len(sys.argv[:5]) - 2:]])
    kept = tempfile.mkdtemp()
    failed = 0
    for kind in sys.argv[5:] or KINDS:
        begun, pipes = time.perf_counter(), []
        for first in range(jobs):
            back, forth = os.pipe()
            if not os.fork():
                os.close(back)
                work(program, kept, kind, count, seed, first, jobs, os.fdopen(forth, "w"))
                os._exit(0)
            os.close(forth)
            pipes.append(os.fdopen(back))
        seen, most, longest = collections.Counter(), 0, 0.0
        for it in pipes:
            lines = it.read().splitlines()
            seen.update(eval(lines[0]))
            most, longest = max(most, int(lines[1])), max(longest, float(lines[2]))
        for _ in range(jobs):
            os.wait()
        failed += seen.pop("failed", 0)
        used = resource.getrusage(resource.RUSAGE_CHILDREN)
        print(f"{kind}: {count} inputs, by status {dict(sorted(seen.items(), key=str))}; at most {most // 1024} MB and "
              f"{longest:.2f} s; {time.perf_counter() - begun:.0f} s, of a processor {used.ru_utime + used.ru_stime:.0f} so far", flush=True)
    print(f"{failed} failed; {kept}")
    return min(failed, 255)


if __name__ == "__main__":
    sys.exit(main())
