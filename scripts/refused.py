#!/usr/bin/env python3
"""Refuses the program one piece of memory after the other, and looks at what is left.

    scripts/refused.py PROGRAM [STEP [WORDS]]

PROGRAM is the built program. Each command of a session is run once for every request for memory that
it makes, or for every STEP-th one (1), and that request is refused; at each seventh of these once
more, with all that follow it. With WORDS only the commands are tried that begin so. It has to answer with status 70
and `coverage: no memory`, and to leave all files as they were, or to do just what it does when
nothing is refused. `combine` alone may have saved and removed some. The number of requests is printed
for each command. The exit status is the number of wrong ends, at most 255. It wants a C compiler, `cc`.
"""
import collections
import os
import shutil
import sqlite3
import subprocess
import sys
import tempfile

REFUSES = r"""
#include <fcntl.h>
#include <stddef.h>
#include <stdio.h>
#include <stdlib.h>
#include <unistd.h>
void *__libc_malloc(size_t size);
void *__libc_realloc(void *old, size_t size);
static long made, at, last;
static int told = -1;
__attribute__((constructor)) static void begin(void) {
    const char *one = getenv("REFUSE_AT"), *many = getenv("REFUSE_TO"), *name = getenv("REFUSE_TELL");
    at = one ? atol(one) : 0;
    last = many ? atol(many) : at;
    if (name) told = open(name, O_WRONLY | O_CREAT | O_TRUNC, 0600);
    made = 0;
}
static int refused(void) {
    made++;
    return at && made >= at && made <= last;
}
void *malloc(size_t size) { return refused() ? NULL : __libc_malloc(size); }
void *realloc(void *old, size_t size) { return refused() ? NULL : __libc_realloc(old, size); }
__attribute__((destructor)) static void end(void) {
    char text[32];
    if (told >= 0 && write(told, text, snprintf(text, sizeof text, "%ld", made)) < 0) _exit(99);
}
"""
A = "x = 1\nif x:\n    print(x)\nelse:\n    print(0)\n"
CALC = "def div(a, b):\n    if b == 0:\n        return None\n    return a // b\n\ndef unused(x):\n    return x\n"
TEST = 'import calc\n\ndef test_div():\n    assert calc.div(6, 3) == 2\n\nif __name__ == "__main__":\n    test_div()\n    print("ok")\n'
HOOK = "def label(m, f):\n    return m + f\n"
FILES = {
    "a.py": A, "calc.py": CALC, "test_calc.py": TEST, "new/calc.py": CALC.replace("a // b", "b // a"), "new/test_calc.py": TEST, "h.py": HOOK,
    "s.txt": "run --branch a.py\nerase\nreport\n",
    "pyproject.toml": '[tool.coverage.report]\nexclude_also = ["raise .*"]\n[tool.coverage.paths]\nsource = ["src", "/home/*/src"]\n',
}
COMMANDS = [
    "run --branch a.py", "run --append --branch --hook h.py:label test_calc.py", "report -m", "json", "lcov -o -", "annotate calc.py",
    "run --branch --data-file=c.1 a.py", "run --branch --data-file=c.2 test_calc.py", "combine --data-file=c", "erase", "script s.txt",
    "suite --branch test_calc.py", "arcs a.py", "make 7 5", "select test_calc.py new/test_calc.py", "mutate test_calc.py",
]


class Session:
    def __init__(self, program, top):
        self.program, self.top, self.folder = program, top, f"{top}/in"
        with open(f"{top}/refuses.c", "w") as it:
            it.write(REFUSES)
        subprocess.run(["cc", "-shared", "-fPIC", "-O1", "-fno-builtin", "-o", f"{top}/refuses.so", f"{top}/refuses.c"], check=True)
        for name, text in FILES.items():
            os.makedirs(os.path.dirname(f"{self.folder}/{name}"), exist_ok=True)
            with open(f"{self.folder}/{name}", "w") as it:
                it.write(text)
        os.chdir(self.folder)

    def run(self, words, at=0, to=0):
        """The status, output and standard error, where the requests from `at` to `to` are refused."""
        names = [f"{self.top}/out", f"{self.top}/err"]
        pid = os.posix_spawn(self.program, [self.program, *words.split()], {
            "LD_PRELOAD": f"{self.top}/refuses.so", "REFUSE_AT": str(at), "REFUSE_TO": str(to), "REFUSE_TELL": f"{self.top}/count"},
            file_actions=[(os.POSIX_SPAWN_OPEN, 0, "/dev/null", os.O_RDONLY, 0), *(
                (os.POSIX_SPAWN_OPEN, fd, name, os.O_WRONLY | os.O_CREAT | os.O_TRUNC, 0o600) for fd, name in enumerate(names, 1))])
        status = os.waitstatus_to_exitcode(os.waitpid(pid, 0)[1])
        out, err = (open(name, "rb").read() for name in names)
        return status, out, err

    def count(self):
        with open(f"{self.top}/count") as it:
            return int(it.read())

    def state(self):
        """The bytes of each file, but of the `-wal` of a data file."""
        found = {}
        for name in os.listdir("."):
            if not name.endswith("-wal") and os.path.isfile(name):
                with open(name, "rb") as it:
                    found[name] = it.read()
        return found

    def put(self, state):
        for name in os.listdir("."):
            if os.path.isfile(name):
                os.unlink(name)
        for name, data in state.items():
            with open(name, "wb", buffering=0) as it:
                it.write(data)


def told(state):
    """The state, with the rows of data files in place of their bytes."""
    rows = {}
    for name, data in state.items():
        rows[name] = data
        if data.startswith(b"SQLite format 3"):
            base = sqlite3.connect(":memory:")
            try:
                base.deserialize(data)
                rows[name] = sorted(base.iterdump())
            except sqlite3.Error:
                rows[name] = "unreadable"
            base.close()
    return rows


def wrong_in(words, found, whole, before, state, after):
    """What is wrong with an answer, if something is; and how the answer is counted."""
    status, out, err = found
    if status == 70:
        if not whole[1].startswith(out):
            return "the output is no prefix", "70"
        if err not in (b"coverage: no memory\n", b""):
            return f"standard error: {err[:200]!r}", "70"
        if state == before:
            return None, "70"
        if told(state) == told(before):
            return None, "70, other bytes"
        if words.startswith("combine") and all(it in (*map(repr, told(before).values()), *map(repr, told(after).values())) for it in map(repr, told(state).values())):
            return None, "70, saved or removed"
        if words.startswith("script"):
            return None, "70, after some lines"
        changed = {name for name in {*state, *before} if state.get(name) != before.get(name)}
        return f"changed files: {changed}{', as after it' if state == after else ''}", "70"
    if (status, out) == whole[:2] and (state == after or told(state) == told(after)):
        return (None, "as whole") if err == whole[2] else (None, "as whole but for standard error")
    return f"status {status}, {out[:100]!r}, {err[:100]!r}", "other"


def main():
    program = os.path.abspath(sys.argv[1])
    step = int(sys.argv[2]) if len(sys.argv) > 2 else 1
    top = tempfile.mkdtemp(prefix="refused-", dir="/dev/shm" if os.path.isdir("/dev/shm") else None)
    it = Session(program, top)
    failed = tried = 0
    for words in COMMANDS:
        before = it.state()
        whole = it.run(words)
        requests, after = it.count(), it.state()
        if len(sys.argv) > 3 and not words.startswith(sys.argv[3]):
            continue
        seen = collections.Counter()
        for last in (0, 1 << 40):
            for at in range(1, requests + 1, step if last == 0 else step * 7):
                it.put(before)
                found = it.run(words, at, max(at, last))
                wrong, how = wrong_in(words, found, whole, before, it.state(), after)
                tried += 1
                seen[how] += 1
                if wrong:
                    failed += 1
                    print(f"FAILED `{words}`, request {at}{' and all after it' if last else ''}: {wrong}", flush=True)
        it.put(after)
        print(f"`{words}`: status {whole[0]}, {requests} requests; {dict(seen)}", flush=True)
    os.chdir("/")
    shutil.rmtree(top)
    print(f"{tried} tried, {failed} failed")
    return min(failed, 255)


if __name__ == "__main__":
    sys.exit(main())
