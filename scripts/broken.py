"""Broken input for scripts/hostile.py, made from a chance: sources, settings, data files, words and
files of commands.

    source, settings, words, script     an input of a kind
    Bases                               data files: each byte of a good one turned, cuts, other tables
"""
import re
import sqlite3

SOURCE = '''import calc
x = [1, (2, "b"), {"k": None}]
def f(a, b=2):
    global y
    for k in range(a):
        while k:
            k = k - 1
            if k == b and not x[0] < 3:
                continue
        else:
            y = f"{a}+{x[1]}"
    try:
        return calc.g(a) // b
    except (ZeroDivisionError, KeyError) as e:
        return str(e)
    finally:
        pass
match x:
    case [1, 2] | None:
        print(1)
    case [a, (b, "c")] if a:
        print(f(3))
    case _:
        assert f(1, 0) != -9223372036854775807, "no"
'''
CALC = "def g(n):\n    return n + 1\n"
OTHER = '''from calc import g as h
import sys
""" text """
d = {'a': 1, (1, "x"): [2], None: {}}
def test_a(n=d, m=h(2)):
    n["b"] = n.get("a", 0) + 1; n["a"] *= 2
    [p, (q, *_)] if 0 else None
def test_b():
    try:
        raise KeyError("k")
    except LookupError: pass
    else: return
    for c in "text"[1:-1]: assert c in ("e", 'x'), f"{c} {'q'} {{}}"
i = 0
while i < 5 and not i == 4:
    i += 1
    if i % 2: continue
    elif i // 3 > 1: break
else:
    print(i, "a" "b", r"\\n", """x
y""", -0x1F + 0b11 * 0o7)
print(*sys.argv) if 0 else print(d.keys(), d.pop("a"), str([1]), repr("'"), [1, 2].pop())
'''
LAST = '''import sys
def test_g():
    import calc
    assert calc.g(1) == 2
def up(n):
    return 0 if n < 1 else up(n - 1)
a = b = (1, 2); (c, [e]), = [(1, [2])],
print(up(20), a[0], "\\u00e9\\x41\\
b", len("é"), ", ".join(["a", "b"]).split(","), "ab".startswith("a"))
match (1, ["a", -2], None):
    case (1, [x, -2], True) | (_, _, False): pass
    case (k, [m, n], None) as w if k: print(w, sys.exit)
del_ = int(" 12 ") // 5
raise SystemExit(3) if del_ > 5 else ValueError("no", ) if 0 else SystemExit
'''
SOURCES = [SOURCE, SOURCE, OTHER.replace("[p, (q, *_)] if 0 else None", "pass").replace("*sys.argv", "sys.argv"), LAST, OTHER]
SETTINGS = '''[tool.coverage.run]
branch = true
context = "c"
data_file = ".coverage"
dynamic_context = "test_function"
budget = 10000
hook = "calc.py:g"
[tool.coverage.report]
fail_under = 50
show_missing = true
omit = ["old/*", "**/x?.py"]
exclude_also = ["raise Not.*", "if 0:", '^\\s*def f.*(?:\\n|$)', "\\\\bpass\\\\b"]
exclude_lines = ["#.*[a-z]{2,5}", "assert"]
partial_branches = ["while [01]:"]
[tool.coverage.paths]
source = ["src", "/home/*/src", "c:\\\\a"]
'''
PIECES = [
    b"(", b")", b"[", b"]", b"{", b"}", b":", b",", b"\n", b"\r\n", b"\t", b" " * 9, b'"', b"'", b'"""',
    b'f"{', b"}}", b"\\", b"#", b"\x00", b"\xff", b"\xc3\xa9", b"\xf0\x9f\x90\x8d", b"=", b"==", b"<=",
    b"9" * 40, b"9223372036854775808", b"1.5", b"_" * 3000, b"not ", b"lambda", b"while 1:", b"def f():",
    b"try:", b"else:", b"elif 1:", b"case _:", b"return", b"break", b"global x", b"*", b"**", b"//", b"0x1F",
    b"import m", b"from a import b", b"-", b"True", b"(" * 300, b"[" * 5000, b"if 1:\n " * 70,
    b"f'{f\"{1}\"}'", b"f'{x!r}'", b'f"{{{x}}}"', b"\\x", b"\\u12", b"\\U00110000", b"\r", b"\x0c", b"\xef\xbb\xbf",
    b"\xed\xa0\x80", b"\xf4\x90\x80\x80", b"match x:\n case 1: pass\n", b"1_000", b"0b", b"0777", b"...", b":=", b";",
]
SETTING_PIECES = [
    b"[", b"]", b"[[", b"]]", b"{a=1}", b'"""', b"'''", b"\\u0000", b"\\UFFFFFFFF", b"=", b".", b"#", b"\n", b"\r", b"\xff",
    b"[" * 30000, b"{a=" * 9000, b"[" + b"a." * 9000 + b"b]\n", b"(" * 190, b"inf", b"nan", b"1979-05-27T07:32:00Z", b"0xFFFFFFFFFFFFFFFFF", b"-1", b"1000000001", b"101", b"1e9", b"[" * 3000, b"a." * 3000,
    b'"' + b"a" * 201 + b'"', b'"(a{1000}){1000}"', b'"((((a*)*)*)*)*b"', b'"[a-\\\\uFFFF]"', b'"(?P<x>a)(?P<x>b)"', b'"\\\\p{L}{1000}"',
    b'"(?i)"', b'"(?s:.)*"', b'"\\\\b{9}"', b'"(?-u:\\\\xff)"', b'[["x"]]', b'""', b'"*/"', b'"**/**/**/**/**/**/**/a"', b"[tool.coverage.run]\n",
    b"paths.x = []\n", b"paths = 1\n", b'x = ["*", "*/*", "/"]\n', b"true", b'"a:b:"', b'":"',
]
WORDS = [
    "arcs", "run", "combine", "report", "json", "lcov", "annotate", "erase", "script", "make", "suite",
    "select", "mutate", "--branch", "--append", "-a", "--context", "--context=c", "--budget", "--budget=9",
    "--hook", "--hook=h.py:f", "--hook=calc.py:g", "--data-file", "--data-file=d", "--rcfile", "--rcfile=p.toml", "--keep",
    "-m", "--show-missing", "--fail-under", "--fail-under=50", "-o", "-", "a.py", "calc.py", "b.py", "m.txt", "0", "7", "1600",
    "99999999999", "-1", "--", "", " ", "\n", "é", "--budget=", "--x", "..", "/", "./a.py", "no.py", "#", ".", "sub", "sub/a.py",
    "../a.py", "./sub/../a.py", "a.py/", "a.py/x", "--data-file=../up", "--data-file=sub", "--data-file=sub/d", "-o=x", "../up.json",
    "--data-file=" + "n" * 300, "--context=" + "c" * 5000, "n" * 5000, ".coverage", ".coverage.1", "--data-file=.coverage.1",
    "--rcfile=a.py", "--rcfile=sub", "--hook=sub:f", "--hook=:f", "--fail-under=101", "--help", "--version", "\udcff", "--budget=1000000000",
]
COMMANDS = [
    ["arcs", "a.py"], ["run", "--branch", "a.py"], ["run", "-a", "--branch", "b.py"], ["report", "-m"], ["json"], ["lcov", "-o", "-"],
    ["annotate", "a.py"], ["combine", "--keep", "-a"], ["erase"], ["script", "m.txt"], ["make", "7", "40"], ["suite", "--branch", "b.py"],
    ["select", "b.py", "sub/b.py"], ["mutate", "b.py"], ["run", "--hook=calc.py:g", "--branch", "a.py"], ["report", "--fail-under", "99"],
]
# Programs whose values are large, deep or inside themselves: # is a number.
WILD = [
    "t = ()\nfor i in range(#):\n    t = (t,)\nu = ()\nfor i in range(#):\n    u = (u,)\nprint(t == u, t < u, str(t) == repr(u))\n",
    "t = [1]\nfor i in range(#):\n    t = [t]\nprint(len(str(t)))\nprint(t == [t])\n",
    "t = (1,)\nfor i in range(#):\n    t = (t, t)\nprint(len(t))\n",
    "x = [1]\nx.append(x)\nprint(x, str(x), x == x)\ny = [1]\ny.append(y)\nprint(x == y)\n",
    "d = {}\nd[0] = d\nd[(1, 2)] = [d]\nprint(d)\nprint(d == d, d in [d])\n",
    "s = 'ab'\nfor i in range(#):\n    s = s + s\nprint(len(s))\n",
    "s = 'é'\nwhile 1:\n    s += s\n    print(len(s), s[-1], s[#:], s.split('é') == 1)\n",
    "l = [0]\nfor i in range(#):\n    l = l + l\n    l += l\nprint(len(l))\n",
    "print(len('ab' * #), len([None] * #), (1,) * -#)\n",
    "for k in range(#): k\nelse: print(k)\n",
    "print(len(range(#)), len(range(-#, #, 3)), range(#, 0, -7)[-1])\n",
    "def f(n):\n    return f(n + 1)\nf(0)\n",
    "def f(n):\n    try:\n        return f(n + 1)\n    except RecursionError:\n        return n\n    finally:\n        f\nprint(f(0))\n",
    "x = #\nwhile 1:\n    x = x * x + x // -1 - -x % #\n",
    "print(int('#' * 30), int('-9223372036854775808'), -9223372036854775807 - 1)\n",
    "print(','.join(['a' * #] * 9).split('a') == 1)\n",
    "d = {}\nfor i in range(#):\n    d[(i, str(i))] = d.keys()\nprint(len(d))\n",
    "a = 'abc' * 9\nprint(a[#:], a[:-#], a[-#:#], [1, 2][#:], (1,)[-#:])\na[#]\n",
    "l = [1, 2, 3]\nfor v in l:\n    l.append(v)\n    if len(l) > #: break\n    l.pop(0)\n",
    "d = {1: 2}\nfor k in d:\n    d[k + #] = d.pop(k)\n",
    "e = ValueError('x')\nfor i in range(#):\n    e = ValueError(e)\nraise e\n",
    "try:\n    raise KeyError(KeyError)\nexcept (ValueError, (KeyError,)) as e:\n    raise\n",
    "import sys\nsys.exit([sys.argv] * #)\n",
    "raise SystemExit('a\\nb' * #)\n",
    "def f(a=[], b={}):\n    a.append(b); b[len(a)] = a\n    return f\nfor i in range(#): f()\nprint(f == f, f())\n",
    "while input() != '#': pass\n",
    "import a\nimport sys\nprint(a.a.x)\nx = a\n",
    "match [[#]] * #:\n    case [[a], *b]: pass\n    case _ if 1 // 0: pass\n",
    "x = [0] * 3\nx[0], x[x[1]], (x, y) = 2, 1, (x, x)\nprint(y)\nx[#] = 1\n",
]
NUMBERS = ["0", "1", "2", "9", "99", "150", "199", "200", "201", "1000", "9999", "100000", "1048576", "1048577", "9223372036854775807"]
NESTS = [
    ("(", "0", ")"), ("[", "", "]"), ("{0:", "0", "}"), ("not ", "1", ""), ("-", "1", ""), ("x[", "0", "]"), ("f(", "", ")"),
    ("1 if ", "1", " else 0"), ("(0, ", "", ")"), ("a.", "b", ""), ("1 + ", "1", ""), ("(1 + ", "1", ")"), ("1 < ", "1", ""), ("x = ", "1", ""),
    ("'a' ", "'b'", ""), ("f'{", "1", "}'"), ("a, ", "b", ""), ("x and ", "x", ""), ("(x or ", "x", ")"), ("0x", "1", ""), ("1", "1", ""), ("n", "n", ""),
]
BLOCKS = ["if 1:", "while 1:", "for k in x:", "try:", "match x:", "def f():", "else:", "elif 1:", "except:", "case _:", "finally:"]
TOKENS = re.compile(rb"\w+|\s+|[^\w\s]")


def broken(chance, text, pieces=PIECES):
    """A text with a few of its bytes cut, swapped, turned, or put in."""
    data = bytearray(text)
    for _ in range(chance.randrange(1, 5)):
        at = chance.randrange(len(data) + 1)
        to = min(len(data), at + chance.choice((1, 1, 4, 30)))
        way = chance.randrange(5)
        if way == 0:
            del data[at:to]
        elif way == 1 and to < len(data):
            data[at:to] = data[at:to][::-1]
        elif way == 2 and at < len(data):
            data[at] = chance.randrange(256)
        elif way == 3:
            data[at:at] = data[at:to] * chance.choice((1, 2, 40))
        else:
            data[at:at] = chance.choice(pieces)
    return bytes(data)


def shuffled(chance, parts):
    """Parts of which a few are left out, doubled, swapped, or another one."""
    parts = list(parts)
    for _ in range(chance.randrange(1, 5)):
        at, other = chance.randrange(len(parts)), chance.randrange(len(parts))
        way = chance.randrange(4)
        if way == 0:
            parts[at] = b""
        elif way == 1:
            parts[at] = parts[at] * 2
        elif way == 2:
            parts[at], parts[other] = parts[other], parts[at]
        else:
            parts[at] = parts[other]
    return b"".join(parts)


def moved(chance, text):
    """Lines of which a few are left out, doubled, swapped, or stand further in or out."""
    lines = text.splitlines(keepends=True)
    at = chance.randrange(len(lines))
    lines[at] = chance.choice((b" ", b"    ", b"\t", b"        ")) + lines[at] if chance.random() < 0.5 else lines[at].lstrip()
    return shuffled(chance, lines)


def nested(chance):
    """One form inside itself, often just as deep as it may be, with or without its ends."""
    depth = chance.choice((1, 2, 5, 30, 63, 64, 65, 66, 98, 99, 100, 101, 198, 199, 200, 201, 202, 400, 3000, 30000))
    if chance.random() < 0.3:
        heads = [chance.choice(BLOCKS[:chance.choice((1, 3, 6, 11))]) for _ in range(min(depth, 400))]
        step = chance.choice((" ", "\t", "  "))
        text = "".join(f"{step * at}{head}\n" for at, head in enumerate(heads))
        return (text + step * len(heads) + "pass\n" * chance.randrange(2)).encode()
    head, middle, end = chance.choice(NESTS)
    ends = depth if chance.random() < 0.8 else chance.randrange(depth + 1)
    name = chance.choice(("x = ", "", "if ", "print(", "match ", "a[", "for k in ", "case "))
    return f"{name}{head * depth}{middle}{end * ends}{chance.choice((':', ')', ']', ''))}\n".encode()


def wild(chance):
    """A program of WILD with its numbers, alone or in a function that a `try` calls."""
    text = re.sub("#", lambda _: chance.choice(NUMBERS), chance.choice(WILD))
    if chance.random() < 0.3:
        text = "try:\n" + "".join(f"    {line}\n" for line in text.splitlines()) + "except Exception as e:\n    print(repr(e))\n"
    return text.encode()


def soup(chance):
    words = [chance.choice(TOKENS.findall(chance.choice(SOURCES).encode()) + PIECES[:30]) for _ in range(chance.randrange(1, 60))]
    return chance.choice((b"", b" ")).join(words)


def source(chance):
    """A source that is broken, deep or wild."""
    text = chance.choice(SOURCES).encode()
    way = chance.random()
    if way < 0.4:
        return broken(chance, text)
    if way < 0.55:
        return shuffled(chance, TOKENS.findall(text))
    if way < 0.65:
        return moved(chance, text)
    if way < 0.75:
        return soup(chance)
    return nested(chance) if way < 0.85 else wild(chance)


def settings(chance):
    text = SETTINGS.encode()
    if chance.random() < 0.2:
        return shuffled(chance, TOKENS.findall(text))
    if chance.random() < 0.1:
        return moved(chance, text)
    return broken(chance, text, SETTING_PIECES if chance.random() < 0.6 else PIECES)


def words(chance):
    """Words of a command that stand anyhow, or a good command with a few words that don't belong there."""
    if chance.random() < 0.3:
        return [chance.choice(WORDS) for _ in range(chance.randrange(7))]
    given = list(chance.choice(COMMANDS))
    for _ in range(chance.randrange(4)):
        at, way = chance.randrange(len(given) + 1), chance.randrange(4)
        if way == 0 and at < len(given):
            del given[at]
        elif way == 1 and at < len(given):
            given[at] = chance.choice(WORDS)
        else:
            given.insert(at, chance.choice(WORDS))
    return given


def script(chance):
    lines = [" ".join(words(chance)) for _ in range(chance.randrange(1, 6))]
    lines[chance.randrange(len(lines))] = chance.choice(("run --branch --budget=9999 a.py", "report -m", "script m.txt", "# a", "\trun\tb.py "))
    text = "\n".join(lines).encode(errors="surrogateescape")
    return broken(chance, text) if chance.random() < 0.5 else text


SCHEMA = [
    "CREATE TABLE coverage_schema (version integer)",
    "CREATE TABLE meta (key text, value text, unique (key))",
    "CREATE TABLE file (id integer primary key, path text, unique (path))",
    "CREATE TABLE context (id integer primary key, context text, unique (context))",
    "CREATE TABLE line_bits (file_id integer, context_id integer, numbits blob, unique (file_id, context_id))",
    "CREATE TABLE arc (file_id integer, context_id integer, fromno integer, tono integer)",
    "CREATE TABLE tracer (file_id integer primary key, tracer text)",
    "CREATE TABLE hits (file_id integer, context_id integer, fromno integer, tono integer, count integer)",
]
ROWS = [
    "INSERT INTO coverage_schema VALUES (%s)", "INSERT INTO meta VALUES ('has_arcs', %s)",
    "INSERT INTO file VALUES (%s, 'a.py')", "INSERT INTO context VALUES (%s, '')",
    "INSERT INTO line_bits VALUES (1, %s, %s)", "INSERT INTO arc VALUES (1, %s, %s, %s)",
    "INSERT INTO tracer VALUES (%s, 'x')", "INSERT INTO hits VALUES (1, 1, %s, %s, %s)",
    "INSERT INTO file VALUES (2, %s)", "INSERT INTO context VALUES (2, %s)", "INSERT INTO line_bits VALUES (%s, 1, x'02')",
]
VALUES = [
    "1", "1", "1", "7", "7", "'1'", "'0'", "NULL", "0", "-1", "2", "70000", "4294967296", "1.5", "x'02'", "1e300", "'a\x00b'",
    "x''", "zeroblob(8193)", "zeroblob(70000)", "'text'", "-9223372036854775808", "9223372036854775807", "65535", "-65535", "65536",
]
FORMS = [
    ("integer", "text"), (" primary key", ""), ("integer", "real"), ("blob", "integer"), ("unique (", "check ("), (")", ", more)"), (")", ") STRICT"),
    ("TABLE", "VIEW"), ("count", "number"), ("tono", "[to no]"), (")", ") WITHOUT ROWID"), ("path", '"path"'), ("integer", "integer default 5"),
    ("text", "text collate nocase"), ("(", "(a generated always as (1), "), ("TABLE ", "TABLE x"),
]
FURTHER = [
    "CREATE INDEX more ON arc (tono)", "CREATE VIEW more AS SELECT * FROM arc", "CREATE TRIGGER more AFTER DELETE ON arc BEGIN SELECT 1; END",
    "CREATE TABLE more (a, b)", "CREATE INDEX even ON arc (fromno) WHERE tono > 1", "PRAGMA user_version = 9", "PRAGMA application_id = -1", "DROP TABLE arc",
    "ALTER TABLE arc ADD COLUMN more", "INSERT INTO file SELECT value, value FROM (WITH RECURSIVE c(value) AS (VALUES (3) UNION ALL SELECT value + 1 FROM c LIMIT 300) SELECT value FROM c)",
]
# What may stand at the end of a table's own text, far deeper than sqlite3 itself takes it.
DEEP = [
    (", check (", "(", "1", ")", "))"), (", check (", "not ", "1", "", "))"), (", check (1", "+1", "", "", "))"), (", check (", "abs(", "1", ")", "))"),
    (", x default (", "(", "1", ")", "))"), ("", ", c integer", "", "", ")"), (", check (", "case when ", "1", " then 1 end", "))"), ("/*", "*", "", "", "*/)"),
]


class Bases:
    """Data files: first each byte of a good one turned and each cut of it at a page, then such as
    have other tables or rows."""

    def __init__(self, good):
        self.good = good
        self.cuts = [at + more for at in range(0, len(good) + 1, 512) for more in (0, 1)]
        self.last = good

    def at(self, number, chance):
        if number < len(self.good):
            data = bytearray(self.good)
            data[number] = (data[number] + chance.randrange(1, 256)) % 256
            return bytes(data)
        number -= len(self.good)
        if number < len(self.cuts):
            return self.good[:self.cuts[number]]
        return self.other(chance)

    def other(self, chance):
        """A base with other tables or rows, or one whose bytes are turned, cut or doubled."""
        if chance.random() < 0.4:
            self.last = made(chance)
            return self.last
        data = bytearray(self.last if chance.random() < 0.7 else self.good)
        for _ in range(chance.randrange(1, 6)):
            if not data:
                break
            near = min(len(data), chance.choice((32, 100, 500, len(data))))
            page = chance.randrange(len(data)) // 512 * 512
            at = chance.choice((chance.randrange(near), min(len(data) - 1, page + chance.randrange(16))))
            way = chance.random()
            if way < 0.7:
                data[at] = chance.choice((0, 1, 127, 128, 255, chance.randrange(256)))
            elif way < 0.8:
                data[at:at + 4] = chance.choice((b"\xff\xff\xff\xff", b"\x00\x00\x00\x00", b"\x7f\xff\xff\xff", b"\x00\x00\x00\x01"))[:len(data) - at]
            elif way < 0.9:
                data[at:at + 512] = data[page:page + 512]
            else:
                del data[at:]
        return bytes(data)


def made(chance):
    base = sqlite3.connect(":memory:", isolation_level=None)
    base.execute(f"PRAGMA page_size = {chance.choice((512, 512, 512, 1024, 4096, 65536))}")
    if chance.random() < 0.1:
        base.execute("PRAGMA " + chance.choice(("encoding = 'UTF-16'", "auto_vacuum = 1", "auto_vacuum = 2")))
    base.execute("BEGIN")
    for text in SCHEMA:
        if chance.random() < 0.97:
            old, new = chance.choice(FORMS)
            tell(base, text if chance.random() < 0.95 else text.replace(old, new, 1))
    for text in ROWS * chance.randrange(1, 4):
        if chance.random() < 0.9:
            tell(base, text % tuple(chance.choice(VALUES) for _ in range(text.count("%s"))))
    if chance.random() < 0.2:
        tell(base, chance.choice(FURTHER))
    if chance.random() < 0.05:
        head, each, middle, end, last = chance.choice(DEEP)
        depth = chance.choice((3, 99, 999, 9999))
        tell(base, "PRAGMA writable_schema = 1")
        tell(base, "UPDATE sqlite_master SET sql = substr(sql, 1, length(sql) - 1) || "
                   f"'{head}{each * depth}{middle}{end * depth}{last}' WHERE name = '{chance.choice(('arc', 'file', 'meta', 'hits'))}'")
    tell(base, "COMMIT")
    data = base.serialize()
    base.close()
    return data


def tell(base, text):
    try:
        base.execute(text)
    except (sqlite3.Error, sqlite3.Warning):
        pass
