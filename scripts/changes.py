#!/usr/bin/env python3
"""Edits made programs in one place each, and looks at which tests `select` wants to run again.

    scripts/changes.py PROGRAM [COUNT [SEED [JOBS]]]

PROGRAM is the built program. COUNT (1,000) pairs of sources are made from SEED (0), each a script of
tests with its modules in `old/` and the same with one edit in `new/`; JOBS (1) at a time. An edit
says itself which lines of the old version it changes, and a model of the program says which lines
each test reaches and how it ends. `select` has to choose the tests that are new or reached a changed
line, in their order, and no others; in `suite` each test has to end as the model does, and one that
isn't chosen has to end in both versions alike. The exit status is the number of pairs where that
isn't so; each is printed, and kept in the folder that is printed last.
"""
import collections
import concurrent.futures
import copy
import os
import random
import re
import shutil
import subprocess
import sys
import tempfile

sys.dont_write_bytecode = True
from made import Cut, Part, Statement, ended, local_names, marks, own_marks, program, tests_of, walk, written  # noqa: E402

SCRIPT = "test_calc"
SIMPLE = ("assign", "augment", "expr", "pass", "return", "assert")


class Version:
    """The modules of a version, and the places in them."""

    def __init__(self, modules):
        self.modules = modules
        for body in modules.values():
            written(body)

    def places(self):
        for name, body in self.modules.items():
            for it in body:
                yield Place(name, body, None, body, it)
                for part in it.parts:
                    for row, inner in walk(part.body):
                        yield Place(name, body, it if it.kind == "def" else None, row, inner)

    def all_lines(self):
        return {(name, line) for name, body in self.modules.items() for line in marks(body)}


class Place:
    """A statement of a module, with the row and the function that it stands in."""

    def __init__(self, module, body, function, row, it):
        self.module, self.body, self.function, self.row, self.it = module, body, function, row, it

    def index(self):
        return next(k for k, it in enumerate(self.row) if it is self.it)

    def lines(self, of):
        return {(self.module, line) for line in of}

    def whole_module(self):
        return self.lines(marks(self.body))

    def whole_function(self):
        return self.lines(marks(self.function.parts[0].body))

    def own(self):
        return self.lines(own_marks(self.it) if not self.it.parts else {self.it.line})

    def holder(self):
        """The statement whose suite the row is."""
        return next((it for _, it in walk(self.body) if any(part.body is self.row for part in it.parts)), None)

    def whole_row(self, version):
        """All lines of the row. One that marks nothing changes all lines of what holds it."""
        lines = marks(self.row)
        if lines:
            return self.lines(lines)
        holder = self.holder()
        return self.lines(marks([holder])) if holder else version.all_lines()

    def names(self, other):
        """All lines of the function, where another version of it has other local names."""
        if self.function and local_names(self.function) != local_names(other.function):
            return self.whole_function()
        return set()


# ---- Edits. Each changes the second version, and gives the lines of the first that the rules call
# changed, or None where it can't be made.


def other_number(chance, text):
    found = list(re.finditer(r"(?<![\w.])\d+", text))
    if not found:
        return None
    it = chance.choice(found)
    return f"{text[:it.start()]}{int(it.group()) + chance.randint(1, 3)}{text[it.end():]}"


def number(chance, old, new, at, to):
    """Another number in a statement or in a header."""
    for part, other in zip(at.it.parts, to.it.parts):
        text = other_number(chance, part.value)
        if text and part.word != "while":
            other.value = text
            return at.lines({part.line})
    if at.it.kind not in SIMPLE or at.it.kind == "augment":
        return None
    text = other_number(chance, at.it.value)
    if text is None:
        return None
    to.it.value = text
    return at.own()


def operator(chance, old, new, at, to):
    """The other operator of an augmented assignment."""
    if at.it.kind != "augment" or in_loop(at):
        return None
    to.it.op = "-" if at.it.op == "+" else "+"
    return at.own()


def in_loop(at):
    """Whether the row counts a loop, which has to end."""
    holder = at.holder()
    return holder is not None and holder.kind == "while" and at.row and at.row[0] is at.it


def height(kind, parts):
    """How many lines a statement has."""
    return written([Statement(kind, parts=copy.deepcopy(parts))]).count("\n")


def real(row):
    return [it for it in row if it.kind != "blank"]


def kind(chance, old, new, at, to):
    """A statement of another kind in the same line."""
    if at.it.kind not in SIMPLE or in_loop(at):
        return None
    others = (Statement("pass"), Statement("expr", value="print(8)"), Statement("assert", value="8 < 9"))
    to.row[to.index()] = chance.choice([it for it in others if it.kind != at.it.kind])
    return at.whole_row(old) | at.names(to)


def removed(chance, old, new, at, to):
    """An empty line where a statement was."""
    if at.it.kind in ("blank", "docstring", "import") or in_loop(at) or len(real(at.row)) < 2:
        return None
    k = to.index()
    to.row[k:k + 1] = [Statement("blank") for _ in range(height(at.it.kind, at.it.parts))]
    if at.it.kind == "def":
        return at.whole_module()
    return at.whole_row(old) | at.names(to)


def moved(chance, old, new, at, to):
    """Two simple statements change places."""
    k = at.index()
    if k + 1 >= len(at.row) or in_loop(at):
        return None
    one, two = at.row[k], at.row[k + 1]
    if not {one.kind, two.kind} <= set(SIMPLE) or one.text() == two.text():
        return None
    to.row[k], to.row[k + 1] = to.row[k + 1], to.row[k]
    return at.lines({one.line, two.line}) if one.kind == two.kind else at.whole_row(old)


def shifted(chance, old, new, at, to):
    """An empty line in front of a statement, mostly in the last function, since all lines change elsewhere."""
    if at.it.kind == "blank" or (at.function is not real(at.body)[-1] and chance.random() < 0.8):
        return None
    to.row.insert(to.index(), Statement("blank"))
    return at.lines(shifted_row(at.body, at.it.line)) if marks(at.body) else old.all_lines()


def shifted_row(row, line):
    """The lines that change in a row where all lines from one on move."""
    if any(it.line >= line for it in real(row)):
        return marks(row)
    last = real(row)[-1]
    lines = set()
    for part in last.parts:
        if part.line >= line and part.word in ("elif", "except"):
            lines.add(part.line)
        if not marks(part.body) and any(it.line >= line for it in real(part.body)):
            return marks([last])
        lines |= shifted_row(part.body, line)
    return lines


def default(chance, old, new, at, to):
    """Another default value of a parameter."""
    if at.it.kind != "def" or not at.it.params or not at.it.params[-1][1]:
        return None
    name, text = at.it.params[-1]
    to.it.params[-1] = (name, str(int(text) + 1))
    return at.own()


def parameter(chance, old, new, at, to):
    """A further parameter with a default, or another name of the last one."""
    if at.it.kind != "def" or at.module == SCRIPT:
        return None
    if not at.it.params or chance.random() < 0.5:
        to.it.params.append(("more", "1"))
    else:
        to.it.params[-1] = ("other", at.it.params[-1][1])
    return at.whole_module()


def docstring(chance, old, new, at, to):
    """Another docstring, or a `print` in its place."""
    if at.it.kind != "docstring":
        return None
    holder = at.holder()
    silent = not marks(at.row)
    if chance.random() < 0.5:
        to.it.value = "Something else."
        if not silent:
            return set()
    else:
        to.row[to.index()] = Statement("expr", value="print(2)")
        if not silent:
            return at.lines(marks(at.row))
    return at.whole_row(old) if holder else old.all_lines()


def new_docstring(chance, old, new, at, to):
    """A docstring where an empty line was, or in place of the first statement."""
    if at.it.kind != "def" or real(at.it.parts[0].body)[0].kind not in ("blank", "expr", "pass", "assert"):
        return None
    k = next(k for k, it in enumerate(at.it.parts[0].body) if it.kind != "blank")
    to.it.parts[0].body[k] = Statement("docstring", value="New.")
    return at.lines(marks(at.it.parts[0].body))


def declared(chance, old, new, at, to):
    """Another name after `global`."""
    if at.it.kind != "global":
        return None
    to.it.target = chance.choice(("nothing", "nothing, shared"))
    silent = set() if marks(at.row) else at.whole_row(old)
    return silent | at.names(to)


def renamed(chance, old, new, at, to):
    """Another name for a local variable throughout its function."""
    if at.it.kind != "assign" or not at.function or at.it.target not in local_names(at.function):
        return None
    if at.it.target in (name for name, _ in at.function.params):
        return None
    word = re.compile(rf"\b{at.it.target}\b")
    for _, it in walk(to.function.parts[0].body):
        it.target = word.sub("renamed", it.target)
        it.value = word.sub("renamed", it.value)
        for part in it.parts:
            part.value = word.sub("renamed", part.value)
    return at.whole_function()


def clause(chance, old, new, at, to):
    """Another kind in an `except`."""
    if at.it.kind != "try":
        return None
    to.it.parts[1].value = "KeyError" if at.it.parts[1].value != "KeyError" else "NameError"
    return at.lines({at.it.parts[1].line})


def alternative(chance, old, new, at, to):
    """An `if` loses its `else`, whose lines stay empty."""
    if at.it.kind != "if" or len(at.it.parts) < 2 or at.it.parts[-1].word != "else":
        return None
    less = height("if", at.it.parts) - height("if", at.it.parts[:-1])
    del to.it.parts[-1]
    k = to.index()
    to.row[k + 1:k + 1] = [Statement("blank") for _ in range(less)]
    return at.lines(marks([at.it])) | at.names(to)


def test_name(chance, old, new, at, to):
    """Another name of a test, or a further test behind all others."""
    if at.module != SCRIPT or at.it.kind != "def":
        return None
    if chance.random() < 0.5:
        to.it.target = "test_other"
    else:
        to.body.append(Statement("def", "test_more", parts=[Part("def", "", [Statement("pass")])]))
    return at.whole_module()


def behind(chance, old, new, at, to):
    """Empty lines behind all statements."""
    to.body.extend([Statement("blank"), Statement("blank")])
    return set()


def imports(chance, old, new, at, to):
    """Modules in another order, or one fewer, or one more, which the old version may look for too."""
    if at.module != SCRIPT or at.it.kind != "import":
        return None
    looked_for = any(it.target == "more" for _, it in walk(at.body))
    way = 2 if looked_for else chance.randrange(3)
    if way == 0:
        to.body[0].target, to.body[1].target = to.body[1].target, to.body[0].target
    elif way == 1:
        to.body[2] = Statement("blank")
    else:
        new.modules["more"] = [Statement("assign", "x", "1")]
        if not looked_for:
            to.body[3] = Statement("import", "more")
    return old.all_lines()


def bare(chance, old, new, at, to):
    """A statement in a module that marked nothing."""
    if at.module != SCRIPT or at.it.kind != "import":
        return None
    new.modules["bare"] = [Statement("assign", "x", "1")]
    return old.all_lines()


EDITS = (
    number, number, number, operator, kind, kind, removed, removed, moved, moved, shifted, shifted, default,
    parameter, docstring, new_docstring, declared, declared, renamed, clause, alternative, test_name, behind,
    imports, bare,
)


def pair(chance):
    """Two versions that end, what was done, and the lines that it changes in the old one."""
    while True:
        old, new, edit, lines = edited(chance, Version(program(chance)))
        try:
            results(old), results(new)
            return old, new, edit, lines
        except Cut:
            pass


def edited(chance, old):
    """A version, the same with an edit, what was done, and the lines that it changes in the old one."""
    while True:
        edit = chance.choice(EDITS)
        places = list(enumerate(old.places()))
        chance.shuffle(places)
        for k, at in places[:40]:
            new = Version(copy.deepcopy(old.modules))
            lines = edit(chance, old, new, at, list(new.places())[k])
            if lines is not None:
                return old, Version(new.modules), edit.__name__, lines


# ---- what has to come


def chosen(old, new, lines):
    """The tests that have to run again, in the order of the new version."""
    known = tests_of(old.modules[SCRIPT])
    return [name for name in tests_of(new.modules[SCRIPT]) if name not in known or ended(old.modules, name)[1] & lines]


def results(version):
    """How the tests end, as far as a model tells; None where the import doesn't finish."""
    if ended(version.modules)[0]:
        return None
    ways = [(name, ended(version.modules, name)[0]) for name in tests_of(version.modules[SCRIPT])]
    return [f"{name} failed {kind}" if kind else f"{name} passed" for name, kind in ways]


def call(program, words, folder):
    return subprocess.run([program, *words], cwd=folder, capture_output=True, text=True, stdin=subprocess.DEVNULL, check=False)


def put(folder, version):
    os.mkdir(folder)
    for name, body in version.modules.items():
        with open(f"{folder}/{name}.py", "w") as it:
            it.write(written(body))


def suite_of(program, folder, which, version):
    """The lines of `suite`, by test, and what is wrong with them."""
    done = call(program, ["suite", f"--data-file={which}.db", f"{which}/{SCRIPT}.py"], folder)
    wanted = results(version)
    if wanted is None:
        return {}, None if done.returncode == 1 and "ended early" in done.stderr else f"{which}: the import should end early: {done.stderr!r}"
    lines = done.stdout.splitlines()[:-1]
    if [line.split(":")[0] for line in lines] != wanted:
        return {}, f"{which}: `suite` says {lines}, and not {wanted}: {done.stderr!r}"
    return {line.split()[0]: line for line in lines}, None


def wrong_in(program, folder, old, new, lines):
    for which, version in (("old", old), ("new", new)):
        put(f"{folder}/{which}", version)
    before, wrong = suite_of(program, folder, "old", old)
    after, also = suite_of(program, folder, "new", new)
    if wrong or also:
        return wrong or also
    names = chosen(old, new, lines)
    tests = tests_of(new.modules[SCRIPT])
    wanted = "".join(f"{name}\n" for name in names) + f"{len(names)} of {len(tests)} selected\n"
    done = call(program, ["select", f"old/{SCRIPT}.py", f"new/{SCRIPT}.py"], folder)
    if (done.returncode, done.stdout) != (0, wanted):
        return f"`select` says {done.stdout!r}, status {done.returncode}, and not {wanted!r}: {done.stderr!r}"
    for name in tests:
        if name not in names and before.get(name) != after.get(name):
            return f"{name} isn't selected, and ends in another way: {before.get(name)!r}, {after.get(name)!r}"
    return None


def tried(program, top, seed, at):
    """What is wrong with a pair, or None; the edit, and whether all, some or none of the tests are selected."""
    chance = random.Random(f"{seed} {at}")
    old, new, edit, lines = pair(chance)
    folder = tempfile.mkdtemp(prefix=f"{at}-{edit}-", dir=top)
    wrong = wrong_in(program, folder, old, new, lines)
    if wrong:
        return f"pair {at}, {edit}: {wrong}: {folder}", edit, None
    shutil.rmtree(folder)
    count, of = len(chosen(old, new, lines)), len(tests_of(new.modules[SCRIPT]))
    return None, edit, "none" if not count else "all" if count == of else "some"


def main():
    program = os.path.abspath(sys.argv[1])
    count, seed, jobs = (int(it) for it in [*sys.argv[2:], *("1000", "0", "1")[len(sys.argv) - 2:]])
    top = tempfile.mkdtemp()
    failed, seen = 0, collections.defaultdict(collections.Counter)
    with concurrent.futures.ThreadPoolExecutor(jobs) as pool:
        for wrong, edit, selected in pool.map(lambda at: tried(program, top, seed, at), range(count)):
            seen[edit][selected or "failed"] += 1
            if wrong:
                failed += 1
                print("FAILED", wrong, flush=True)
    for edit, ways in sorted(seen.items()):
        print(f"{edit}: {', '.join(f'{ways[way]} {way}' for way in ('none', 'some', 'all', 'failed') if ways[way])}")
    print(f"{count} pairs, {failed} failed; {top}")
    return min(failed, 255)


if __name__ == "__main__":
    if len(sys.argv) < 2:
        sys.exit(__doc__)
    sys.exit(main())
