#!/usr/bin/env python3
"""Kills the program in a call that saves, and looks at the data file afterwards.

    scripts/killed.py PROGRAM [TIMES]

PROGRAM is the built program. A data file of 1,000 arcs stands there, and `combine --keep --append`
saves 101,000 arcs over it. It is killed at a random moment of the save, TIMES times (100), each time
on a fresh copy: not before the time that a report of all these data takes, which loads as many, and
not after the time of a whole call. Then sqlite3 checks the file, and the program reports it: as
before, or as after. The exit status is the number of files that were neither.
"""
import os
import random
import shutil
import sqlite3
import subprocess
import sys
import tempfile
import time

SCHEMA = """
CREATE TABLE coverage_schema (version integer);
CREATE TABLE meta (key text, value text, unique (key));
CREATE TABLE file (id integer primary key, path text, unique (path));
CREATE TABLE context (id integer primary key, context text, unique (context));
CREATE TABLE line_bits (file_id integer, context_id integer, numbits blob,
    foreign key (file_id) references file (id), foreign key (context_id) references context (id),
    unique (file_id, context_id));
CREATE TABLE arc (file_id integer, context_id integer, fromno integer, tono integer,
    foreign key (file_id) references file (id), foreign key (context_id) references context (id),
    unique (file_id, context_id, fromno, tono));
CREATE TABLE tracer (file_id integer primary key, tracer text, foreign key (file_id) references file (id));
INSERT INTO coverage_schema VALUES (7);
INSERT INTO meta VALUES ('has_arcs', '1');
INSERT INTO file VALUES (1, 'big.py');
INSERT INTO context VALUES (1, '');
"""
LINES = 1000


def write_data(name, arcs):
    with sqlite3.connect(name) as base:
        base.executescript(SCHEMA)
        base.executemany("INSERT INTO arc VALUES (1, 1, ?, ?)", arcs)
    base.close()


def count(name):
    """The arcs of a data file that sqlite3 finds sound."""
    base = sqlite3.connect(name)
    sound = base.execute("PRAGMA integrity_check").fetchall() == [("ok",)]
    number = base.execute("SELECT count(*) FROM arc").fetchone()[0]
    base.close()
    return number if sound else None


def main():
    program, times = os.path.abspath(sys.argv[1]), int(sys.argv[2]) if len(sys.argv) > 2 else 100
    top = tempfile.mkdtemp()
    start = f"{top}/start"
    os.mkdir(start)
    with open(f"{start}/big.py", "w") as it:
        it.write("x = 1\n" * LINES)
    write_data(f"{start}/.coverage", [(1, to) for to in range(1, LINES + 1)])
    write_data(f"{start}/.coverage.more", [(of, to) for of in range(2, 102) for to in range(1, LINES + 1)])
    combine = [program, "combine", "--keep", "--append", ".coverage.more"]

    def begin(folder):
        shutil.copytree(start, folder)
        return subprocess.Popen(combine, cwd=folder, stderr=subprocess.DEVNULL)

    def report(folder):
        return subprocess.run([program, "report"], cwd=folder, capture_output=True, text=True).stdout

    begun = time.perf_counter()
    begin(f"{top}/whole").wait()
    whole = time.perf_counter() - begun
    before, after = count(f"{start}/.coverage"), count(f"{top}/whole/.coverage")
    texts = {before: report(start), after: report(f"{top}/whole")}
    begun = time.perf_counter()
    report(f"{top}/whole")
    loading = time.perf_counter() - begun
    print(f"a whole call takes {whole:.2f} s, loading and reporting {loading:.2f} s; {before} arcs before, {after} after")
    random.seed(7)
    found = {before: 0, after: 0, "neither": 0}
    for at in range(times):
        folder = f"{top}/{at}"
        child = begin(folder)
        time.sleep(random.uniform(min(loading, whole), whole))
        child.kill()
        child.wait()
        text = report(folder)
        number = count(f"{folder}/.coverage")
        is_whole = number in texts and texts[number] == text
        found[number if is_whole else "neither"] += 1
        shutil.rmtree(folder)
    print(f"killed {times} times: as before {found[before]}, as after {found[after]}, neither {found['neither']}")
    shutil.rmtree(top)
    return min(found["neither"], 100)


sys.exit(main())
