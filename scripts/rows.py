#!/usr/bin/env python3
"""Runs the worked rows through the built program, over real files.

    scripts/rows.py PROGRAM

PROGRAM is the built program. Each row is a folder of its own with its files, and commands in order,
each with the status, the output and the standard error that it has to give. Rows with an object that
fails, a plugin or an engine that isn't true need objects of their own and stand in cov_rows, and so
do numbers that no command tells. Those of `suite`, `select` and `mutate` stand in rows_tests.py. The
exit status is the number of lines that begin with FAILED.
"""
import contextlib
import os
import sqlite3
import subprocess
import sys
import tempfile

from rows_tests import CALC, ROWS as OF_TESTS, TEST

A = "x = 1\nif x:\n    print(x)\nelse:\n    print(0)\n"
B = "x = 0\nif x:\n    print(x)\n"
T = """try:
    x = 1 // 0
except KeyError:
    print(1)
except ZeroDivisionError:
    print(2)
print(3)
"""
NESTED = """for k in range(3):
    for j in range(2):
        if j == k:
            break
    else:
        print(k)
print(9)
"""
MATCH = """def f(v):
    match v:
        case 0:
            return 1
        case [a, b] if a // b:
            return 2
        case _:
            return 3
print(f(0), f([4, 2]), f("ab"))
f([1, 0])
"""
JSON = (
    '{"files":{"a.py":{"excluded_lines":[],"executed_branches":[[2,3]],"executed_lines":[1,2,3],'
    '"missing_branches":[[2,5]],"missing_lines":[5],"summary":{"covered_branches":1,"covered_lines":3,'
    '"excluded_lines":0,"missing_branches":1,"missing_lines":1,"num_branches":2,"num_partial_branches":1,'
    '"num_statements":4,"percent_covered_display":"67"}}},"meta":{"branch_coverage":true},"totals":'
    '{"covered_branches":1,"covered_lines":3,"excluded_lines":0,"missing_branches":1,"missing_lines":1,'
    '"num_branches":2,"num_partial_branches":1,"num_statements":4,"percent_covered_display":"67"}}'
)
LCOV = (
    "SF:a.py\nDA:1,1\nDA:2,1\nDA:3,1\nDA:5,0\nLF:4\nLH:3\nBRDA:2,0,jump to line 3,1\n"
    "BRDA:2,0,jump to line 5,0\nBRF:2\nBRH:1\nend_of_record\n"
)
HOOK = """count = 0
def label(module, function):
    global count
    count = count + 1
    print(count)
    if count == 3:
        raise ValueError("third")
    return "h" + str(count)
"""
TRIED = """n = 0
def f():
    for k in (0, 1):
        try:
            try:
                n // k
            finally:
                print("f", k)
        except ZeroDivisionError:
            continue
        else:
            return k
print(f())
"""
DEFAULTS = """fs = []
for i in range(2):
    def f(a, b=i):
        return a + b
    fs.append(f)
print(fs[0](10), fs[1](10), f(1, 2))
"""
CALLS = "def test_a():\n    pass\ndef test_b():\n    pass\ntest_a()\ntest_b()\ntest_a()\ntest_b()\n"


def table(width, *rows):
    """A report with its rules: the header, rows, and the total."""
    rule = "-" * width
    return "\n".join([rows[0], rule, *rows[1:-1], rule, rows[-1]]) + "\n"


def arcs(name, *pairs):
    return "".join(f"{name} {pair}\n" for pair in pairs)


# A row: its title, its files, and its commands, each with status, output and standard error. None
# stands for whatever it is.
ROWS = [
    ("First run", {"a.py": A}, [("arcs a.py", 0, "1\n" + arcs("a.py", "-1 1", "1 2", "2 3", "3 -1"), "")]),
    ("Report of it", {"a.py": A}, [
        ("run --branch a.py", 0, "1\n", ""),
        ("report -m", 0, table(51, "Name    Stmts   Miss Branch BrPart  Cover   Missing",
                               "a.py        4      1      2      1    67%   5",
                               "TOTAL       4      1      2      1    67%"), ""),
    ]),
    ("JSON, LCOV and annotate of it", {"a.py": A}, [
        ("run --branch a.py", 0, "1\n", ""),
        ("json -o -", 0, JSON, ""),
        ("json", 0, "", ""),
        ("lcov -o -", 0, LCOV, ""),
        ("annotate a.py", 0, "> x = 1\n> if x:\n>     print(x)\n  else:\n!     print(0)\n", ""),
    ]),
    ("Empty file", {"e.py": ""}, [
        ("arcs e.py", 0, "e.py -1 -1\n", ""),
        ("arcs --budget=1 e.py", 0, "e.py -1 -1\n", ""),
        ("arcs --budget=0 e.py", 75, "", "coverage: budget of 0 steps is spent\n"),
        ("run --branch e.py", 0, "", ""),
        ("report", 0, table(41, "Name    Stmts   Miss Branch BrPart  Cover",
                            "e.py        0      0      0      0   100%",
                            "TOTAL       0      0      0      0   100%"), ""),
    ]),
    ("Docstring alone", {"a.py": 'x = 0\ndef f():\n    """doc"""\nf()\n'}, [
        ("arcs a.py", 0, arcs("a.py", "-2 -2", "-1 1", "1 2", "2 4", "4 -1"), "")]),
    ("One-line loop", {"a.py": "n = 3\nwhile n: n = n - 1\n"}, [
        ("arcs a.py", 0, arcs("a.py", "-1 1", "1 2", "2 -1", "2 2"), ""),
        ("arcs --budget=9 a.py", 0, arcs("a.py", "-1 1", "1 2", "2 -1", "2 2"), ""),
        ("arcs --budget=8 a.py", 75, arcs("a.py", "-1 1", "1 2", "2 2"), "coverage: budget of 8 steps is spent\n"),
    ]),
    ("Loop else", {"a.py": NESTED}, [
        ("arcs a.py", 0, "2\n9\n" + arcs("a.py", "-1 1", "1 2", "1 7", "2 3", "2 6", "3 2", "3 4", "4 1", "6 1", "7 -1"), "")]),
    ("Two returns", {"a.py": "v = 0\ndef f():\n    try:\n        return 1\n    finally:\n        return 2\nprint(f())\n"}, [
        ("arcs a.py", 0, "2\n" + arcs("a.py", "-2 3", "-1 1", "1 2", "2 7", "3 4", "4 6", "6 -2", "7 -1"), "")]),
    ("Handlers", {"t.py": T}, [
        ("arcs t.py", 0, "2\n3\n" + arcs("t.py", "-1 1", "1 2", "2 3", "3 5", "5 6", "6 7", "7 -1"), ""),
        ("run --branch t.py", 0, "2\n3\n", ""),
        ("report -m", 0, table(51, "Name    Stmts   Miss Branch BrPart  Cover   Missing",
                               "t.py        7      1      2      1    78%   4",
                               "TOTAL       7      1      2      1    78%"), ""),
    ]),
    ("Continue through finally", {"a.py": "for k in range(2):\n    try:\n        continue\n    finally:\n        print(k)\nprint(9)\n"}, [
        ("arcs a.py", 0, "0\n1\n9\n" + arcs("a.py", "-1 1", "1 2", "1 6", "2 3", "3 5", "5 1", "6 -1"), "")]),
    ("Uncaught", {"a.py": 'def g():\n    raise ValueError("no")\ndef f():\n    g()\nf()\n'}, [
        ("arcs a.py", 1, arcs("a.py", "-3 4", "-1 1", "-1 2", "1 3", "2 -1", "3 5", "4 -3", "5 -1"), "ValueError: no\n")]),
    ("Endless loop", {"a.py": "while True:\n    pass\n"}, [
        ("arcs --budget=5 a.py", 75, arcs("a.py", "-1 1", "1 2", "2 1"), "coverage: budget of 5 steps is spent\n")]),
    ("Match", {"a.py": MATCH}, [
        ("arcs a.py", 1, "1 2 3\n" + arcs(
            "a.py", "-1 1", "-1 2", "1 9", "2 3", "3 4", "3 5", "4 -1", "5 -1", "5 6", "5 7", "6 -1", "7 8", "8 -1",
            "9 10", "10 -1"), "ZeroDivisionError: division by zero\n")]),
    ("Absent module", {"a.py": "try:\n    import nothere\nexcept ImportError:\n    nothere = None\nprint(nothere)\n"}, [
        ("arcs a.py", 0, "None\n" + arcs("a.py", "-1 1", "1 2", "2 3", "3 4", "4 5", "5 -1"), "")]),
    ("Pragma", {"a.py": "debug = False\nif debug:  # pragma: no cover\n    print(1)\nelse:\n    print(2)\nwhile True:\n    break\n"}, [
        ("run --branch a.py", 0, "2\n", ""),
        ("report", 0, table(41, "Name    Stmts   Miss Branch BrPart  Cover",
                            "a.py        4      0      0      0   100%",
                            "TOTAL       4      0      0      0   100%"), ""),
    ]),
    ("Ordinary use", {"calc.py": CALC, "test_calc.py": TEST}, [
        ("run --branch test_calc.py", 0, "ok\n", ""),
        ("report -m", 0, table(58, "Name           Stmts   Miss Branch BrPart  Cover   Missing",
                               "calc.py            6      2      2      1    62%   3, 7",
                               "test_calc.py       6      0      2      1    88%   6->exit",
                               "TOTAL             12      2      4      2    75%"), ""),
    ]),
    ("Mixed", {"a.py": A}, [
        ("run --branch a.py", 0, "1\n", ""),
        ("run --append a.py", 1, "", "coverage: cannot join lines with arcs\n"),
        ("report -m", 0, None, ""),
    ]),
    ("Numbers", {"b.py": B}, [
        ("run b.py", 0, "", ""),
        ("report --fail-under=67", 2, table(27, "Name    Stmts   Miss  Cover",
                                            "b.py        3      1    67%",
                                            "TOTAL       3      1    67%"), "coverage: 2 of 3 covered is under 67 percent\n"),
    ]),
    ("Words", {"a.py": "import sys\nprint(sys.argv)\n"}, [
        ("", 1, "", "coverage: usage: stopped after 0 words\n"),
        ("run --branch", 1, "", "coverage: usage: stopped after 2 words\n"),
        ("report --frob", 1, "", "coverage: usage: stopped after 1 words\n"),
        ("make 1", 1, "", "coverage: usage: stopped after 2 words\n"),
        ("run a.py --branch", 0, "['a.py', '--branch']\n", ""),
        ("report", 0, table(27, "Name    Stmts   Miss  Cover",
                            "a.py        2      0   100%",
                            "TOTAL       2      0   100%"), ""),
    ]),
    ("Refused sources", {
        "s.py": "x = 1.5\n", "w.py": "x = 9223372036854775808\n", "r.py": "return 1\n", "n.py": "print(not 1 == 2)\n",
        "p.py": "x = " + "(" * 199 + "0" + ")" * 199 + "\n", "q.py": "x = " + "(" * 200 + "0" + ")" * 200 + "\n",
        "l.py": "#" * 1048576 + "\n"}, [
        ("arcs s.py", 1, "", "coverage: s.py:1: BadCharacter\n"), ("arcs w.py", 1, "", "coverage: w.py:1: WideNumber\n"),
        ("arcs r.py", 1, "", "coverage: r.py:1: ReturnOutside\n"), ("run n.py", 0, "True\n", ""), ("run p.py", 0, "", ""),
        ("run q.py", 1, "", "coverage: limit Expressions passed: 201\n"), ("run l.py", 1, "", "coverage: limit FileBytes passed: 1048577\n"),
    ]),
    ("Many statements in one line", {"a.py": "x=1" + ";x=1" * 262143}, [
        ("arcs --budget=262145 a.py", 0, arcs("a.py", "-1 1", "1 -1"), ""),
        ("arcs --budget=262144 a.py", 75, arcs("a.py", "-1 1"), "coverage: budget of 262144 steps is spent\n"),
    ]),
    ("Deep parentheses", {"a.py": "(" * 500000 + "0" + ")" * 500000}, [("arcs a.py", 1, "", "coverage: limit Expressions passed: 201\n")]),
    ("Deep suites", {f"{depth}.py": "".join(" " * at + "if 1:\n" for at in range(depth)) + " " * depth + "x = 1\n" for depth in (64, 65)}, [
        ("run 64.py", 0, "", ""), ("run 65.py", 1, "", "coverage: limit Suites passed: 65\n")]),
    ("Many lines", {"a.py": "\n" * 65535, "b.py": "\n" * 65536}, [
        ("run a.py", 0, "", ""), ("run b.py", 1, "", "coverage: limit Lines passed: 65536\n")]),
    ("Bytes that are no text", {"a.py": b"x\n\xff"}, [("arcs a.py", 1, "", "coverage: a.py:2: BadCharacter\n")]),
    ("Indentation and open ends", {"a.py": "if 1:\n    x = 1\n  y = 2\n", "b.py": "x = (1", "c.py": 'x = "a', "d.py": "x = 1\nx y\n", "e.py": 'f"{x',
                                   "f.py": 'f"{x!r}"', "g.py": 'f"{}"', "h.py": "def f(a=1, b): pass\n"}, [
        (f"arcs {name}.py", 1, "", f"coverage: {name}.py:{told}\n") for name, told in (
            ("a", "3: BadIndent"), ("b", "1: OpenBracket"), ("c", "1: OpenString"), ("d", "2: Unexpected"), ("e", "1: OpenString"),
            ("f", "1: BadCharacter"), ("g", "1: Unexpected"), ("h", "1: Unexpected"))]),
    ("Unset name", {"a.py": "x = 1 + y\n"}, [("arcs a.py", 1, arcs("a.py", "-1 1", "1 -1"), "NameError: name 'y' is not defined\n")]),
    ("Two `try` in a loop", {"a.py": TRIED}, [
        ("arcs --budget=18 a.py", 0, "f 0\nf 1\n1\n" + arcs("a.py", "-2 3", "-1 1", "1 2", "2 13", "3 4", "4 5", "5 6", "6 8", "8 9", "8 12", "9 10", "10 3", "12 -2", "13 -1"), ""),
        ("arcs --budget=17 a.py", 75, None, "coverage: budget of 17 steps is spent\n"),
    ]),
    ("Defaults in a loop", {"a.py": DEFAULTS}, [
        ("arcs --budget=16 a.py", 0, "10 11 3\n" + arcs("a.py", "-3 4", "-1 1", "1 2", "2 3", "2 6", "3 5", "4 -3", "5 2", "6 -1"), "")]),
    ("Fields and braces", {"a.py": 'x = 3\nprint(f"{x}+{x + 1}={{{x * 2 + 1}}}")\nd = {"k": [1]}\nprint("<" f"{d[\'k\']}" ">")\n'}, [("run a.py", 0, "3+4={7}\n<[1]>\n", "")]),
    ("Values", {"a.py": 'print(-7 // 2, -7 % 2, 7 // -2, 7 % -2)\nprint(1 < 2 < 3, 0 or "a", [] and 1)\n'
                        'print([1, "b", None], (1,), {"k": 2})\nprint("abcd"[1:3], "abcd"[-1])\n9223372036854775807 + 1\n'}, [
        ("run a.py", 1, "-4 1 -4 -1\nTrue a []\n[1, 'b', None] (1,) {'k': 2}\nbc d\n", "OverflowError: integer too large\n")]),
    ("Statuses", {"a.py": "import sys\nsys.exit(258)\n", "b.py": "raise SystemExit\n", "c.py": 'import sys\nsys.exit("x")\n',
                  "d.py": "input()\n"}, [
        ("run a.py", 2, "", ""), ("run b.py", 0, "", ""), ("run c.py", 1, "", "x\n"),
        ("run d.py", 1, "", "EOFError: no input\n")]),
    ("Settings: a key", {"a.py": A, "pyproject.toml": '[tool.coverage.report]\nfail_under = "x"\n'}, [
        ("report", 1, "", "coverage: bad setting tool.coverage.report.fail_under\n")]),
    ("Settings: a pattern", {"a.py": A, "pyproject.toml": '[tool.coverage.report]\nexclude_also = ["("]\n'}, [
        ("report", 1, "", "coverage: bad pattern 1\n")]),
    ("Settings: 33 patterns", {"a.py": A, "pyproject.toml": "[tool.coverage.report]\nexclude_lines = [" + ", ".join(['"a"'] * 33) + "]\n"}, [
        ("report", 1, "", "coverage: limit Patterns passed: 33\n")]),
    ("Script", {"a.py": A, "c.txt": "run --branch a.py\nerase\nreport\n"}, [("script c.txt", 1, "1\n= 0\n= 0\n", "coverage: no data .coverage\n")]),
    ("Make", {}, [
        ("make 0 0", 0, "make 0 0: 2 lines, 2 statements, 0 missing, 0 branches, 0 partial, 100%, 3 arcs, 3 steps\n", ""),
        ("make 0 1", 0, "make 0 1: 4 lines, 4 statements, 1 missing, 2 branches, 1 partial, 67%, 4 arcs, 4 steps\n", ""),
    ]),
    ("Suite of ordinary use", {"calc.py": CALC, "test_calc.py": TEST}, [
        ("suite --branch test_calc.py", 0, "test_div passed\n1 passed, 0 failed, 0 cut\n", ""),
        ("report", 0, table(48, "Name           Stmts   Miss Branch BrPart  Cover",
                            "calc.py            6      2      2      1    62%",
                            "test_calc.py       6      2      2      1    62%",
                            "TOTAL             12      4      4      2    62%"), ""),
    ]),
    *OF_TESTS,
]
failed = 0


def tell(title, wrong):
    global failed
    failed += wrong is not None
    print(f"FAILED {title}: {wrong}" if wrong else f"{title}: as wanted")


def call(program, words, folder):
    return subprocess.run([program, *words.split()], cwd=folder, capture_output=True, text=True, input="", timeout=60)


def wrong_in(program, files, commands, folder):
    """What the first command gave that isn't as wanted, if one did."""
    for name, text in files.items():
        os.makedirs(os.path.dirname(os.path.join(folder, name)), exist_ok=True)
        with open(os.path.join(folder, name), "wb") as it:
            it.write(text.encode() if isinstance(text, str) else text)
    for words, status, out, err in commands:
        done = call(program, words, folder)
        for what, wanted, found in (("status", status, done.returncode), ("output", out, done.stdout), ("err", err, done.stderr)):
            if wanted is not None and wanted != found:
                return f"`{words}`: {what} {found!r} in place of {wanted!r}"
    return None


@contextlib.contextmanager
def opened(path):
    """A data file that is closed at the end: one that another program has open is refused."""
    base = sqlite3.connect(path)
    try:
        with base:
            yield base
    finally:
        base.close()


def data_of(path):
    """The arcs under each path and context, with their counts."""
    with opened(path) as base:
        return sorted(base.execute(
            "select file.path, context.context, arc.fromno, arc.tono, hits.count from arc "
            "join file on file.id = arc.file_id join context on context.id = arc.context_id "
            "left join hits on hits.file_id = arc.file_id and hits.context_id = arc.context_id "
            "and hits.fromno = arc.fromno and hits.tono = arc.tono"))


def put(program, folder):
    """`json` alone puts the bytes that `json -o -` writes, and `run --append` of another kind changes no byte."""
    with open(os.path.join(folder, "a.py"), "w") as it:
        it.write(A)
    call(program, "run --branch a.py", folder)
    call(program, "json", folder)
    with open(os.path.join(folder, "coverage.json")) as it:
        if it.read() != JSON:
            return "coverage.json isn't what `json -o -` writes"
    with open(os.path.join(folder, ".coverage"), "rb") as it:
        before = it.read()
    call(program, "run --append a.py", folder)
    with open(os.path.join(folder, ".coverage"), "rb") as it:
        return None if it.read() == before else "a refused `run --append` changed the data file"


def foreign(program, folder):
    """Data files that others made: further keys and tracers, another version, an arc out of range, one with a 0."""
    with open(os.path.join(folder, "a.py"), "w") as it:
        it.write(A)
    call(program, "run --branch a.py", folder)
    name = os.path.join(folder, ".coverage")
    with opened(name) as base:
        base.execute("insert into meta values ('version', '7.4.0')")
        base.execute("insert into tracer values (1, 'plugin')")
        base.execute("insert into arc values (1, 1, 0, 4)")
    done = call(program, "report -m", folder)
    if done.returncode or "67%   5" not in done.stdout:
        return f"further keys and a tracer: {done.stdout!r}, {done.stderr!r}"
    for change, wanted in (("update arc set fromno = 70000 where tono = 2", "coverage: bad data .coverage: row 0\n"),
                           ("update coverage_schema set version = 6", "coverage: bad data .coverage: not schema 7\n")):
        with opened(name) as base:
            base.execute("delete from hits")
            if "arc" in change.split()[1]:
                base.execute("delete from arc where tono != 2")
            base.execute(change)
        done = call(program, "report", folder)
        if done.returncode != 1 or done.stderr != wanted:
            return f"`{change}`: status {done.returncode}, {done.stderr!r}"
    return None


def blobs(program, folder):
    """Line data with a blob that is longer than 65,535 lines, whose last byte is 1 and then 0."""
    with open(os.path.join(folder, "a.py"), "w") as it:
        it.write(A)
    call(program, "run a.py", folder)
    for last, wanted in ((1, (1, "", "coverage: bad data .coverage: row 0\n")), (0, (0, None, ""))):
        with opened(os.path.join(folder, ".coverage")) as base:
            base.execute("delete from hits")
            base.execute("update line_bits set numbits = ?", (bytes(8192) + bytes([last]),))
        done = call(program, "report", folder)
        if (done.returncode, done.stderr) != (wanted[0], wanted[2]):
            return f"last byte {last}: status {done.returncode}, {done.stderr!r}"
    wanted = table(27, "Name    Stmts   Miss  Cover", "a.py        4      4     0%", "TOTAL       4      4     0%")
    return None if done.stdout == wanted else f"output {done.stdout!r}"


def spoilt(program, folder):
    """A data file without a column, one that is cut short, and a text; each stays as it is."""
    with open(os.path.join(folder, "a.py"), "w") as it:
        it.write(A)
    call(program, "run --branch a.py", folder)
    name = os.path.join(folder, ".coverage")
    with open(name, "rb") as it:
        whole = it.read()
    with opened(name) as base:
        base.execute("drop table arc")
        base.execute("create table arc (file_id integer, context_id integer, fromno integer)")
    with open(name, "rb") as it:
        narrow = it.read()
    for data, status, told in ((narrow, 1, "bad data .coverage: not schema 7"), (whole[:len(whole) - 100], 74, "data store failed"),
                               (whole[:4096], 74, "data store failed"), (whole[:50], 74, "data store failed"), (A.encode() * 50, 74, "data store failed")):
        for words in ("report", "run --branch a.py", "run -a --branch a.py", "combine -a --keep .coverage"):
            with open(name, "wb") as it:
                it.write(data)
            done = call(program, words, folder)
            if (done.returncode, done.stderr) != (status, f"coverage: {told}\n"):
                return f"{len(data)} bytes, `{words}`: status {done.returncode}, {done.stderr!r}"
            with open(name, "rb") as it:
                if it.read() != data:
                    return f"{len(data)} bytes, `{words}`: the file isn't as before"
    return None


def combine(program, folder):
    """Three data of one source under three names, which the settings join; then once more."""
    with open(os.path.join(folder, "pyproject.toml"), "w") as it:
        it.write('[tool.coverage.paths]\nsource = ["src", "c:\\\\proj\\\\src", "/home/*/src"]\n')
    with open(os.path.join(folder, "a.py"), "w") as it:
        it.write(A)
    made = [(".coverage.1", "c:\\proj\\src\\a.py", [(-1, 1), (1, 2)]),
            (".coverage.2", "/home/u/src/a.py", [(-1, 1), (1, 3)]),
            (".coverage.3", "src/a.py", [(-1, 1)])]
    for name, path, pairs in made:
        call(program, f"run --branch --data-file={name} a.py", folder)
        with opened(os.path.join(folder, name)) as base:
            base.execute("update file set path = ?", (path,))
            for table in ("hits", "arc"):
                base.execute(f"delete from {table}")
            base.executemany("insert into arc values (1, 1, ?, ?)", pairs)
            base.executemany("insert into hits values (1, 1, ?, ?, 1)", pairs)
    kept = call(program, "combine --keep", folder)
    rows = [(path, pair) for path, context, *pair, count in data_of(os.path.join(folder, ".coverage"))]
    if kept.returncode or rows != [("src/a.py", [-1, 1]), ("src/a.py", [1, 2]), ("src/a.py", [1, 3])]:
        return f"`combine --keep`: {kept.stderr!r}, {rows}"
    for words, counts in (("combine --keep .coverage.3 .coverage.2 .coverage.1 .coverage.2", [4, 1, 2]), ("combine", [3, 1, 1])):
        done = call(program, words, folder)
        found = data_of(os.path.join(folder, ".coverage"))
        again = [(path, pair) for path, context, *pair, count in found]
        if done.returncode or again != rows or [row[-1] for row in found] != counts:
            return f"`{words}`: {done.stderr!r}, {found}"
    left = sorted(name for name in os.listdir(folder) if name.startswith(".coverage"))
    last = call(program, "combine", folder)
    if left != [".coverage"] or last.returncode != 1 or last.stderr != "coverage: no data .coverage\n":
        return f"left {left}, then status {last.returncode}, {last.stderr!r}"
    return None


def hooked(program, folder):
    """Labels of a hook, and of the rule for names where it gives none."""
    for name, text in (("p.py", CALLS), ("hk.py", HOOK), ("pyproject.toml", "[tool.coverage.run]\ndynamic_context = \"test_function\"\n")):
        with open(os.path.join(folder, name), "w") as it:
            it.write(text)
    done = call(program, "run --branch --hook=hk.py:label p.py", folder)
    if done.returncode or done.stdout:
        return f"status {done.returncode}, output {done.stdout!r}, {done.stderr!r}"
    found = {}
    for path, context, first, last, count in data_of(os.path.join(folder, ".coverage")):
        found.setdefault(context, []).append((first, last))
    wanted = {
        "h1": [(-1, 2), (2, -1)], "h2": [(-3, 4), (4, -3)],
        "__main__.test_a": [(-1, 2), (2, -1)], "__main__.test_b": [(-3, 4), (4, -3)],
        "": [(-1, 1), (1, 3), (3, 5), (5, 6), (6, 7), (7, 8), (8, -1)],
    }
    if found != wanted:
        return f"{found}"
    done = call(program, "run --branch --hook=hk.py:none p.py", folder)
    return None if done.stderr == "coverage: no function none\n" else f"a hook without its function: {done.stderr!r}"


def main(program):
    program = os.path.abspath(program)
    for title, files, commands in ROWS:
        with tempfile.TemporaryDirectory() as folder:
            tell(title, wrong_in(program, files, commands, folder))
    for title, of in (("What is put and kept", put), ("Foreign data", foreign), ("Combine", combine), ("Hook", hooked),
                      ("Blob beyond the last line", blobs), ("Missing column, and a file that is cut short", spoilt)):
        with tempfile.TemporaryDirectory() as folder:
            tell(title, of(program, folder))
    print(f"{len(ROWS) + 6} rows, {failed} failed")
    return failed


if __name__ == "__main__":
    if len(sys.argv) != 2:
        sys.exit(__doc__)
    sys.exit(main(sys.argv[1]))
