#!/usr/bin/env python3
"""Has other programs read what coverage writes, and coverage what they write.

    scripts/readers.py PROGRAM

PROGRAM is the built program. Wanted besides: coverage.py for /usr/bin/python3, sqlite3, lcov with
genhtml, jq, and diff-cover with git; on Debian python3-coverage, sqlite3, lcov, jq, diff-cover, git.
What isn't there is left out and said so. Each line tells a reader and what it found; the exit status
is the number of lines that begin with FAILED.
"""
import json
import os
import shutil
import subprocess
import sys
import tempfile

CALC = """def div(a, b):
    if b == 0:
        return None
    return a // b

def unused(x):
    return x
"""
TEST = """import calc

def test_div():
    assert calc.div(6, 3) == 2

if __name__ == "__main__":
    test_div()
    print("ok")
"""
COVERAGE = ["/usr/bin/python3", "-m", "coverage"]
failed = 0


def call(words, folder, status=0):
    """The output of a program that has to end with this status."""
    done = subprocess.run(words, cwd=folder, capture_output=True, text=True)
    if done.returncode != status:
        raise RuntimeError(f"{' '.join(words)}: status {done.returncode}: {done.stderr.strip()[-200:]}")
    return done.stdout


def has(name):
    return shutil.which(name) is not None


def has_coverage():
    return subprocess.run([*COVERAGE, "--version"], capture_output=True).returncode == 0


def row(reader, is_there, work):
    global failed
    if not is_there:
        print(f"left out: {reader}: not installed")
        return
    try:
        print(f"{reader}: {work()}")
    except (RuntimeError, AssertionError, ValueError, KeyError) as why:
        failed += 1
        print(f"FAILED: {reader}: {why}")


def folder_with_sources():
    folder = tempfile.mkdtemp()
    for name, text in (("calc.py", CALC), ("test_calc.py", TEST)):
        with open(f"{folder}/{name}", "w") as it:
            it.write(text)
    with open(f"{folder}/.coveragerc", "w") as it:
        it.write("[run]\nrelative_files = True\ninclude =\n    calc.py\n    test_calc.py\n")
    return folder


def arcs_in(folder, name):
    """The arcs of a data file, read by sqlite3."""
    return call(
        ["sqlite3", name, "SELECT path, fromno, tono FROM arc JOIN file ON file.id = arc.file_id ORDER BY 1, 2, 3"],
        folder,
    )


def missing(text, name):
    """The line of a file in a report."""
    return next(it.split() for it in text.split("\n") if it.startswith(name))


def main():
    program = os.path.abspath(sys.argv[1])
    ours, theirs = folder_with_sources(), folder_with_sources()
    call([program, "run", "--branch", "test_calc.py"], ours)
    call([program, "json"], ours)
    call([program, "lcov"], ours)
    report = call([program, "report", "-m"], ours)
    if has_coverage():
        call([*COVERAGE, "run", "--branch", "test_calc.py"], theirs)

    def by_sqlite3():
        found = call(["sqlite3", ".coverage", "PRAGMA integrity_check; PRAGMA foreign_key_check; SELECT version FROM coverage_schema"], ours)
        assert found == "ok\n7\n", found
        return "sound, no foreign key broken, schema 7"

    def by_coverage():
        found = call([*COVERAGE, "report", "-m"], ours)
        for name in ("calc.py", "test_calc.py", "TOTAL"):
            assert missing(found, name) == missing(report, name), (missing(found, name), missing(report, name))
        return "its report of our data is ours"

    def of_coverage():
        found = call([program, "report", "-m"], theirs)
        assert found == report, found
        return "our report of its data is that of ours"

    def same_arcs():
        one, other = arcs_in(ours, ".coverage"), arcs_in(theirs, ".coverage")
        assert one == other, (one, other)
        return f"{one.count(chr(10))} arcs, the same in both files"

    def combined():
        shutil.copy(f"{ours}/.coverage", f"{theirs}/.coverage.ours")
        call([*COVERAGE, "combine", "--keep", "--append", ".coverage.ours"], theirs)
        found = arcs_in(theirs, ".coverage")
        assert found == arcs_in(ours, ".coverage"), found
        return "it combines our data with its own"

    def by_json_tool():
        call([sys.executable, "-m", "json.tool", "coverage.json"], ours)
        return "reads our JSON"

    def by_jq():
        found = call(["jq", "-c", '[.totals.percent_covered_display, .files["calc.py"].missing_lines]', "coverage.json"], ours)
        assert json.loads(found) == ["75", [3, 7]], found
        return f"finds {found.strip()}"

    def by_lcov():
        found = call(["lcov", "--rc", "lcov_branch_coverage=1", "--summary", "coverage.lcov"], ours)
        rates = [it.strip() for it in found.split("\n") if it.strip().startswith(("lines", "branches"))]
        assert len(rates) == 2 and "(10 of 12 lines)" in rates[0], rates
        return "; ".join(rates)

    def by_genhtml():
        call(["genhtml", "--branch-coverage", "--quiet", "--output-directory", "html", "coverage.lcov"], ours)
        assert os.path.exists(f"{ours}/html/index.html")
        return "makes its pages of our LCOV"

    def by_diff_cover():
        git = ["git", "-c", "user.name=reader", "-c", "user.email=reader@example.org"]
        call([*git, "init", "-q", "-b", "main"], ours)
        call([*git, "add", "test_calc.py"], ours)
        call([*git, "commit", "-qm", "test"], ours)
        call([*git, "checkout", "-qb", "change"], ours)
        call([*git, "add", "calc.py"], ours)
        call([*git, "commit", "-qm", "calc"], ours)
        found = call(["diff-cover", "coverage.lcov", "--compare-branch", "main"], ours)
        assert "Missing lines 3,7" in found, found
        return "finds lines 3 and 7 of the change missing"

    row("sqlite3", has("sqlite3"), by_sqlite3)
    row("coverage.py, our data", has_coverage(), by_coverage)
    row("coverage.py's data", has_coverage(), of_coverage)
    row("arcs by sqlite3", has_coverage() and has("sqlite3"), same_arcs)
    row("coverage.py, combine", has_coverage() and has("sqlite3"), combined)
    row("json.tool", True, by_json_tool)
    row("jq", has("jq"), by_jq)
    row("lcov", has("lcov"), by_lcov)
    row("genhtml", has("genhtml"), by_genhtml)
    row("diff-cover", has("diff-cover") and has("git"), by_diff_cover)
    shutil.rmtree(ours)
    shutil.rmtree(theirs)
    return failed


sys.exit(main())
