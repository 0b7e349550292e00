#!/usr/bin/env python3
"""Gives the built program files that can't be used as they stand, and broken streams and signals.

    scripts/files.py PROGRAM [SIGNALS]

PROGRAM is the built program. Each row is a folder of its own and commands with the status and the
standard error that each has to give. After a refusal all files have to be as before, but those that a
data file has beside it. Rows without rights are run as another user, and those of a full disk on a
small one in memory, both where this runs as root. Then a `combine` that saves is ended by SIGNALS (20)
signals of each kind, and the data file has to be as before or as after. The exit status is the number
of rows that weren't as wanted.
"""
import os
import shutil
import signal
import sqlite3
import subprocess
import sys
import tempfile
import threading
import time

import broken

A = "x = 1\nif x:\n    print(x)\nelse:\n    print(0)\n"
BESIDE = ("-wal", "-shm", "-journal")
NO_FILE, FILES, STORE = "no file {}", "files failed", "data store failed"
OUTPUT = "writing output failed"
IS_ROOT = os.geteuid() == 0
# Data that stand off the disk that is full.
ELSEWHERE = "/dev/shm/files-data"


def row(title, prepare, *commands):
    return title, prepare, commands


# A row: its title, the words of the shell that prepare its folder `in`, where a.py stands, and commands, each
# with its status and what stands behind `coverage: ` on standard error. `run --branch` saves first where SAVED stands.
SAVED = "$P run --branch a.py > out; rm out; "
ROWS = [
    row("A name with `..`", SAVED + "cp a.py ..", ("arcs ../a.py", 0, ""), ("run --data-file=../d ../a.py", 0, ""), ("json -o ../x.json", 0, "")),
    row("A whole name", SAVED, ("run $D/a.py", 0, ""), ("run --data-file=$D/d a.py", 0, ""), ("json --data-file=d -o $D/x.json", 0, ""), ("erase --data-file=$D/d", 0, "")),
    row("A folder that isn't there", SAVED, ("arcs no/a.py", 1, NO_FILE.format("no/a.py")), ("run --data-file=no/d a.py", 74, STORE), ("json -o no/x.json", 74, FILES), ("erase --data-file=no/d", 0, "")),
    row("A link to a file", SAVED + "mv a.py b.py; mv .coverage d; ln -s b.py a.py; ln -s d .coverage; touch y; ln -s y x.json", ("arcs a.py", 0, ""), ("report", 0, ""), ("run --branch a.py", 0, ""), ("json -o x.json", 0, "")),
    row("A link whose file isn't there", "ln -s no b.py; ln -s no .coverage; ln -s no x.json", ("arcs b.py", 1, NO_FILE.format("b.py")), ("report", 1, "no data .coverage"), ("run a.py", 74, STORE)),
    row("A link to itself", "ln -s b.py b.py; ln -s .coverage .coverage", ("arcs b.py", 74, FILES), ("run a.py", 74, STORE), ("report", 74, STORE), ("erase", 74, STORE)),
    row("A folder in place of a script", "mkdir b.py m.py; printf 'import m' > c.py", ("arcs b.py", 1, NO_FILE.format("b.py")), ("script b.py", 1, NO_FILE.format("b.py")), ("run c.py", 1, None)),
    row("A folder in place of data", "mkdir d", ("run --data-file=d a.py", 74, STORE), ("report --data-file=d", 74, STORE), ("combine d", 74, STORE), ("erase --data-file=d", 74, STORE)),
    row("A folder in place of settings", "mkdir pyproject.toml s", ("run a.py", 0, ""), ("run --rcfile=s a.py", 1, NO_FILE.format("s")), ("run --hook=s:f a.py", 1, NO_FILE.format("s"))),
    row("A folder in place of a report", SAVED + "mkdir coverage.json", ("json", 74, FILES)),
    row("A name below a file", SAVED, ("arcs a.py/b.py", 1, NO_FILE.format("a.py/b.py")), ("report --data-file=a.py/d", 74, STORE), ("json -o a.py/x", 74, FILES)),
    row("A name of 300 bytes", SAVED, ("arcs " + "n" * 300, 74, FILES), ("run --data-file=" + "n" * 300 + " a.py", 74, STORE), ("json -o " + "n" * 300, 74, FILES)),
    row("No bytes, and bytes without an end", SAVED, ("arcs /dev/null", 0, ""), ("arcs /dev/zero", 1, "limit FileBytes passed: 1048577"), ("run --rcfile=/dev/zero a.py", 1, "limit FileBytes passed: 1048577"),
        ("report --data-file=/dev/zero", 74, STORE), ("run --data-file=/dev/null a.py", 74, STORE), ("json -o /dev/null", 0, ""), ("json -o /dev/full", 74, FILES)),
    row("A pipe in place of data", "mkfifo d", ("report --data-file=d", 74, STORE), ("run --data-file=d a.py", 74, STORE)),
    row("An empty data file", "touch .coverage", ("report", 1, "bad data .coverage: not schema 7"), ("run a.py", 1, "bad data .coverage: not schema 7")),
    row("A text in place of data", "cp a.py .coverage", ("report", 74, STORE), ("run a.py", 74, STORE), ("combine --keep .coverage", 74, STORE), ("erase", 0, "")),
    row("No right to read", SAVED + "chmod 600 a.py .coverage; printf '' > s; chmod 600 s", ("arcs a.py", 74, FILES), ("report", 74, STORE), ("run --rcfile=s a.py", 74, FILES), ("script s", 74, FILES)),
    row("No right to write", SAVED + "printf '{}' > coverage.json", ("report", None, None), ("run a.py", 74, STORE), ("erase", 74, STORE), ("json", 74, None), ("arcs a.py", 0, "")),
    row("No right to the folder", "mkdir no; cp a.py no; chmod 700 no", ("arcs no/a.py", 74, FILES), ("run --data-file=no/d a.py", 74, STORE), ("json -o no/x --data-file=no/d", 74, STORE)),
    row("A full disk, no data", "cat /dev/zero > fill", ("run a.py", 74, STORE), ("arcs a.py", 0, "")),
    row("A full disk, a report behind a link", SAVED + f"mv .coverage {ELSEWHERE}; echo old > y; ln -s y x.json; cat /dev/zero > fill", (f"json -o x.json --data-file={ELSEWHERE}", 74, FILES)),
    row("A full disk, data", SAVED + "cat /dev/zero > fill", ("run --branch a.py", 74, STORE), ("run -a --branch a.py", 74, STORE), ("json", 74, STORE), ("report", 74, STORE), ("erase", 0, "")),
]
# Streams: the title, what the shell does with the program's, the status, and standard error where it is known.
STREAMS = [
    ("A closed pipe", "$P arcs long.py | head -1", 74, "coverage: writing output failed\n"),
    ("A closed pipe of a report", "$P run long.py > out; $P report | true", 74, "coverage: writing output failed\n"),
    ("A full output", "$P run a.py > /dev/full", 74, "coverage: writing output failed\n"),
    ("No output", "$P run a.py >&-", 74, "coverage: writing output failed\n"),
    ("No standard error", "$P arcs no.py 2>&-", 1, ""),
    ("A full standard error", "$P arcs no.py 2> /dev/full", 1, ""),
    ("No input", "$P run reads.py <&-", 74, "coverage: reading input failed\n"),
    ("A folder as input", "$P run reads.py < .", 74, "coverage: reading input failed\n"),
    ("No stream at all", "$P run --branch raises.py <&- >&- 2>&-; s=$?; $P report > out || exit 99; (exit $s)", 74, ""),
]


def shell(program, folder, text, as_other=False, **more):
    words = ["setpriv", "--reuid", "65534", "--regid", "65534", "--clear-groups"] if as_other else []
    return subprocess.run([*words, "bash", "-c", text], cwd=folder, capture_output=True, text=True, timeout=60, env={**os.environ, "P": program, "D": folder}, **more)


def state(top):
    """What stands under the folder: the bytes of files, and where links lead."""
    found = {}
    for folder, folders, names in os.walk(top):
        for name in (*folders, *names):
            path = f"{folder}/{name}"
            if os.path.islink(path):
                found[path] = os.readlink(path)
            elif os.path.isfile(path) and not name.endswith(BESIDE) and name != "fill":
                with open(path, "rb") as it:
                    found[path] = it.read()
            elif not name.endswith(BESIDE):
                found[path] = None
    return found


def named(words, folder):
    """The names that a command may write to."""
    return {os.path.normpath(os.path.join(folder, it.split("=")[-1])) for it in words.split()} | {f"{folder}/{it}" for it in (".coverage", "coverage.json")} | {os.path.realpath(f"{folder}/x.json"), os.path.realpath(f"{folder}/.coverage")}


def tried(program, title, prepare, commands, top):
    """What isn't as wanted, and for each command its status and what it told."""
    folder, wrong, told = f"{top}/in", [], []
    os.mkdir(folder)
    with open(f"{folder}/a.py", "w") as it:
        it.write(A)
    shell(program, folder, prepare)
    for words, status, err in commands:
        words = words.replace("$D", folder)
        before = state(top)
        done = shell(program, folder, f"exec $P {words}", title.startswith("No right"))
        after = state(top)
        changed = {name for name in {*before, *after} if before.get(name) != after.get(name) or (name in before) != (name in after)}
        short = words.replace(folder, "/F").replace("n" * 300, "nnn..")
        line = done.stderr.strip().replace(folder, "/F").replace("n" * 300, "nnn..")
        told.append(f"`{short}`: {done.returncode}{f', `{line}`' if line else ''}")
        if status not in (None, done.returncode) or err is not None and done.stderr != (err and f"coverage: {err}\n"):
            wrong.append(f"`{short}`: status {done.returncode}, {done.stderr!r}, in place of {status}, {err!r}")
        if done.stderr.startswith("coverage: ") and changed:
            wrong.append(f"`{short}` was refused and changed {sorted(changed)}")
        if not {os.path.normpath(it) for it in changed} <= named(words, folder):
            wrong.append(f"`{short}` changed {sorted(changed)}")
    return wrong, told


def small_disk(top):
    return subprocess.run(["mount", "-t", "tmpfs", "-o", "size=400k", "tmpfs", top], check=False).returncode == 0


def growing(program, top):
    """A script to which lines are added while it is read is read as one of its texts."""
    name, stop = f"{top}/g.py", threading.Event()

    def grow():
        while not stop.is_set():
            with open(name, "w") as it:
                for _ in range(3000):
                    it.write("x = 1\n")
                    it.flush()
    grower = threading.Thread(target=grow)
    grower.start()
    time.sleep(0.1)
    ends = {shell(program, top, "$P run g.py").returncode for _ in range(50)}
    stop.set()
    grower.join()
    return [] if ends == {0} else [f"statuses {ends}"]


def signalled(program, top, number, times):
    """How a data file reads after a signal in the middle of a save: as before, as after, or neither."""
    def put(name, count):
        with sqlite3.connect(name) as base:
            for text in broken.SCHEMA[:7]:
                base.execute(text)
            base.execute("INSERT INTO coverage_schema VALUES (7)")
            base.execute("INSERT INTO meta VALUES ('has_arcs', '1')")
            base.execute("INSERT INTO file VALUES (1, 'a.py')")
            base.execute("INSERT INTO context VALUES (1, '')")
            base.executemany("INSERT INTO arc VALUES (1, 1, ?, ?)", ((at // 1000 + 1, at % 1000 + 1) for at in range(count)))
        base.close()
    for name, count in (("old", 1000), ("new", 9000)):
        if not os.path.exists(f"{top}/{name}"):
            put(f"{top}/{name}", count)
    found = {"before": 0, "after": 0, "neither": 0}
    if number != signal.SIGKILL:
        signal.signal(number, signal.SIG_DFL)  # a shell in the background leaves it ignored
    begun = time.perf_counter()
    shutil.copy(f"{top}/old", f"{top}/d")
    shell(program, top, "$P combine --keep -a --data-file=d new")
    whole = time.perf_counter() - begun
    for at in range(times):
        for name in ("d", "d-wal"):
            if os.path.exists(f"{top}/{name}"):
                os.unlink(f"{top}/{name}")
        shutil.copy(f"{top}/old", f"{top}/d")
        it = subprocess.Popen([program, "combine", "--keep", "-a", "--data-file=d", "new"], cwd=top, stderr=subprocess.PIPE)
        time.sleep(whole * (at + 1) / (times + 1))
        it.send_signal(number)
        told = it.communicate()[1]
        with sqlite3.connect(f"{top}/d") as base:
            sound = base.execute("PRAGMA integrity_check").fetchall() == [("ok",)]
            count = base.execute("SELECT count(*) FROM arc").fetchone()[0]
        base.close()
        kind = {1000: "before", 9000: "after"}.get(count, "neither") if sound and not told else "neither"
        found[kind] += 1
    return found


def main():
    program = os.path.abspath(sys.argv[1])
    times = int(sys.argv[2]) if len(sys.argv) > 2 else 20
    failed = 0

    def tell(title, wrong, told=""):
        nonlocal failed
        failed += bool(wrong)
        print(f"| {title} | {told} |" if not wrong else f"FAILED {title}: {'; '.join(wrong)}", flush=True)

    for title, prepare, commands in ROWS:
        if title.startswith(("No right", "A full disk")) and not IS_ROOT:
            continue
        top = tempfile.mkdtemp(prefix="files-")
        os.chmod(top, 0o755)
        disk = title.startswith("A full disk")
        if disk and not small_disk(top):
            shutil.rmtree(top)
            continue
        wrong, told = tried(program, title, prepare, commands, top)
        tell(title, wrong, "; ".join(told))
        if disk:
            subprocess.run(["umount", top], check=True)
            for beside in ("", *BESIDE):
                if os.path.exists(ELSEWHERE + beside):
                    os.remove(ELSEWHERE + beside)
        shutil.rmtree(top)
    top = tempfile.mkdtemp(prefix="files-")
    for name, text in (("a.py", A), ("long.py", "for k in range(9999):\n    print(k * 1000000)\n"), ("reads.py", "input()\n"), ("raises.py", "print(1)\nraise ValueError('x' * 9000)\n")):
        with open(f"{top}/{name}", "w") as it:
            it.write(text)
    for title, text, status, err in STREAMS:
        done = shell(program, top, f"{text}; exit ${{PIPESTATUS[0]}}")
        tell(title, [] if (done.returncode, done.stderr) == (status, err) else [f"status {done.returncode}, {done.stderr!r}"], f"`{text}`: {done.returncode}")
    tell("A file that grows", growing(program, top), "status 0 each time")
    for number in (signal.SIGINT, signal.SIGTERM, signal.SIGHUP, signal.SIGPIPE, signal.SIGKILL):
        found = signalled(program, top, number, times)
        tell(number.name, [f"{found}"] if found["neither"] else [], f"as before {found['before']} times, as after {found['after']}")
    shutil.rmtree(top)
    print(f"{failed} failed")
    return failed


if __name__ == "__main__":
    sys.exit(main())
