"""Made programs for scripts/changes.py and scripts/mutants.py: small models that can be written out
as sources and run, so that what tests reach and how they end is known without any other program.

    Statement, Part          a statement, and a header with the statements under it
    written                  the source of a body, and the lines of its parts
    marks, walk              the lines that a row marks, and its statements
    World                    a run of a script's import or of one of its tests
    program                  a made program: its modules by name, the script first
"""
import dataclasses

SILENT = {"blank", "docstring", "global"}
LARGEST = 9223372036854775807
KINDS = {kind.__name__: kind for kind in (
    Exception, ArithmeticError, ZeroDivisionError, OverflowError, AssertionError, AttributeError, LookupError,
    IndexError, KeyError, NameError, UnboundLocalError, ImportError, RuntimeError, TypeError, ValueError)}


@dataclasses.dataclass
class Part:
    """A header and what stands under it. The value is its expression, if it has one."""
    word: str
    value: str
    body: list
    line: int = 0


@dataclasses.dataclass
class Statement:
    """The target is the name that it binds, or declares as global; blank is an empty line."""
    kind: str
    target: str = ""
    value: str = ""
    op: str = ""
    params: list = dataclasses.field(default_factory=list)
    parts: list = dataclasses.field(default_factory=list)
    line: int = 0

    def text(self):
        return {
            "assign": f"{self.target} = {self.value}", "augment": f"{self.target} {self.op}= {self.value}",
            "expr": self.value, "return": f"return {self.value}", "raise": f"raise {self.value}",
            "assert": f"assert {self.value}", "global": f"global {self.target}", "import": f"import {self.target}",
            "docstring": f'"{self.value}"', "blank": "",
        }.get(self.kind, self.kind)

    def header(self, part):
        if part.word == "def":
            return f"def {self.target}({', '.join(f'{name}={it}' if it else name for name, it in self.params)}):"
        if part.word == "for":
            return f"for {self.target} in {part.value}:"
        return f"{part.word} {part.value}:" if part.value else f"{part.word}:"


def written(body):
    """The source of a module, whose statements get their lines."""
    lines = []

    def put(row, depth):
        for it in row:
            it.line = len(lines) + 1
            if not it.parts:
                lines.append("    " * depth + it.text() if it.kind != "blank" else "")
            for part in it.parts:
                part.line = len(lines) + 1
                lines.append("    " * depth + it.header(part))
                put(part.body, depth + 1)

    put(body, 0)
    return "".join(f"{line}\n" for line in lines)


def walk(row):
    """All statements of a row, those of functions too, with the rows that hold them."""
    for it in row:
        yield row, it
        for part in it.parts:
            yield from walk(part.body)


def own_marks(it):
    """The lines that a statement marks without those in its suites; `else` and `finally` mark nothing."""
    if not it.parts:
        return set() if it.kind in SILENT else {it.line}
    return {part.line for part in it.parts if part.word not in ("else", "finally")}


def marks(row):
    """The lines that a row marks, those of functions too."""
    return set().union(*(own_marks(it) for _, it in walk(row)))


def local_names(function):
    """The names that a function assigns and doesn't declare global."""
    inside = [it for _, it in walk(function.parts[0].body)]
    assigned = {it.target for it in inside if it.kind in ("assign", "augment", "for")}
    declared = {name for it in inside if it.kind == "global" for name in it.target.split(", ")}
    return ({name for name, _ in function.params} | assigned) - declared


class Cut(BaseException):
    """A run has taken too many steps."""


class Frame:
    """The names of a function that runs, or of a module."""

    def __init__(self, module, names, local=None):
        self.module, self.names, self.local, self.own = module, names, local, {}

    def __getitem__(self, name):
        if self.local is None or name not in self.local:
            return self.names[name]
        if name not in self.own:
            raise UnboundLocalError(name)
        return self.own[name]

    def put(self, name, value):
        (self.names if self.local is None or name not in self.local else self.own)[name] = value


class Module:
    """What an import binds."""

    def __init__(self, names):
        self.names = names

    def __getattr__(self, name):
        if name not in self.names:
            raise AttributeError(name)
        return self.names[name]


class World:
    """A run: the lines that it reached, and how it ended."""

    def __init__(self, modules, most=50000):
        self.modules, self.left, self.begun, self.reached = modules, most, {}, set()

    def imported(self, name):
        if name not in self.modules:
            raise ModuleNotFoundError
        if name not in self.begun:
            names = {"__builtins__": {"print": lambda *it: None, "range": lambda *it: list(range(*it)), "len": len, **KINDS}}
            self.begun[name] = names
            self.row(self.modules[name], Frame(name, names))
        return self.begun[name]

    def value(self, text, frame):
        it = eval(text, frame.names, frame)  # the expressions of made programs mean the same in Python
        if type(it) is int and abs(it) > LARGEST:
            raise OverflowError
        return it

    def mark(self, line, frame):
        self.left -= 1
        if self.left < 0:
            raise Cut
        self.reached.add((frame.module, line))

    def row(self, row, frame):
        """The way that it ends: None at its end, or what a statement asks for, with the value of a `return`."""
        for it in row:
            way = self.compound(it, frame) if it.parts else self.simple(it, frame)
            if way:
                return way
        return None

    def simple(self, it, frame):
        if it.kind in SILENT:
            return None
        self.mark(it.line, frame)
        if it.kind == "assign":
            frame.put(it.target, self.value(it.value, frame))
        elif it.kind == "augment":
            frame.put(it.target, self.value(f"{it.target} {it.op} ({it.value})", frame))
        elif it.kind == "expr":
            self.value(it.value, frame)
        elif it.kind == "return":
            return "return", self.value(it.value, frame)
        elif it.kind == "raise":
            raise self.value(it.value, frame)
        elif it.kind == "assert" and not self.value(it.value, frame):
            raise AssertionError
        elif it.kind == "import":
            frame.put(it.target, Module(self.imported(it.target)))
        return (it.kind, None) if it.kind in ("break", "continue") else None

    def compound(self, it, frame):
        word = it.parts[0].word
        if word == "if":
            return self.branches(it, frame)
        if word == "try":
            return self.guarded(it, frame)
        if word == "def":
            self.mark(it.line, frame)
            frame.put(it.target, self.function(it, frame))
            return None
        return self.loop(it, frame, word)

    def branches(self, it, frame):
        for part in it.parts:
            if part.word != "else":
                self.mark(part.line, frame)
            if part.word == "else" or self.value(part.value, frame):
                return self.row(part.body, frame)
        return None

    def loop(self, it, frame, word):
        head = it.parts[0]
        items = None
        while True:
            self.mark(head.line, frame)
            if word == "for":
                items = iter(self.value(head.value, frame)) if items is None else items
                try:
                    frame.put(it.target, next(items))
                except StopIteration:
                    break
            elif not self.value(head.value, frame):
                break
            way = self.row(head.body, frame)
            if way and way[0] == "break":
                return None
            if way and way[0] == "return":
                return way
        return self.row(it.parts[1].body, frame) if it.parts[1:] else None

    def guarded(self, it, frame):
        self.mark(it.line, frame)
        *inner, last = it.parts
        if last.word != "finally":
            return self.clauses(it.parts, frame)
        try:
            way = self.clauses(inner, frame)
        except Exception:
            way = self.row(last.body, frame)
            if way:
                return way
            raise
        return self.row(last.body, frame) or way

    def clauses(self, parts, frame):
        body, *rest = parts
        try:
            way = self.row(body.body, frame)
        except Exception as it:
            for part in rest:
                if part.word == "except":
                    self.mark(part.line, frame)
                    if not part.value or isinstance(it, self.value(part.value, frame)):
                        return self.row(part.body, frame)
            raise
        return way or next((self.row(part.body, frame) for part in rest if part.word == "else"), None)

    def function(self, it, outer):
        defaults = [self.value(text, outer) for _, text in it.params if text]
        names = [name for name, _ in it.params]
        local = local_names(it)

        def called(*given):
            missing = len(names) - len(given)
            if not 0 <= missing <= len(defaults):
                raise TypeError
            frame = Frame(outer.module, outer.names, local)
            frame.own.update(zip(names, [*given, *defaults[len(defaults) - missing:]]))
            way = self.row(it.parts[0].body, frame)
            return way[1] if way else None

        return called


def tests_of(body):
    """The names of the tests of a script, in order."""
    return list(dict.fromkeys(it.target for it in body if it.kind == "def" and it.target.startswith("test")))


def ended(modules, test=None):
    """How the import of the first module ends, or one of its tests after it: None, or the kind of the exception; and its lines."""
    script = next(iter(modules))
    world = World(modules)
    try:
        names = world.imported(script)
        if test:
            eval(f"{test}()", names)
        return None, world.reached
    except Exception as it:
        return type(it).__name__, world.reached


# ---- programs by chance


class Maker:
    """The names that stand at a place, and statements with them."""

    def __init__(self, chance, calls):
        self.chance, self.calls, self.names, self.fresh = chance, calls, [], 0

    def number(self):
        return str(self.chance.choice((0, 1, 1, 2, 2, 3, 4, 5, 7)))

    def atom(self):
        return self.chance.choice(self.names) if self.names and self.chance.random() < 0.6 else self.number()

    def expression(self):
        way = self.chance.randrange(9)
        if way < 4:
            return f"{self.atom()} {self.chance.choice('+-+-')} {self.atom()}"
        if way == 4:
            return f"{self.atom()} * {self.atom()} % 97"
        if way == 5:
            return f"{self.atom()} {self.chance.choice(('//', '%'))} {self.atom()}"
        if way == 6:
            return f"({self.atom()} if {self.test()} else {self.atom()})"
        if way == 7 and self.calls:
            name, least, most = self.chance.choice(self.calls)
            return f"{name}({', '.join(self.atom() for _ in range(self.chance.randint(least, most)))})"
        return self.atom()

    def test(self):
        one = f"{self.atom()} {self.chance.choice(('==', '!=', '<', '<=', '>', '>='))} {self.atom()}"
        way = self.chance.randrange(8)
        if way == 0:
            return f"{one} and not {self.atom()}"
        if way == 1:
            return f"{one} or {self.atom()} % 2 == 0"
        return self.chance.choice(("True", "False")) if way == 2 else one

    def name(self):
        self.fresh += 1
        return f"v{self.fresh}"

    def row(self, depth, most=4):
        return [it for _ in range(self.chance.randint(1, most)) for it in self.statements(depth)]

    def suite(self, depth):
        """A row whose new names are unknown behind it."""
        known = list(self.names)
        row = self.row(depth, 3)
        self.names = known
        return row if any(it.kind != "blank" for it in row) else [*row, Statement("pass")]

    def part(self, word, value, depth):
        return Part(word, value, self.suite(depth + 1))

    def sometimes(self, often, word, value, depth):
        """A part, or none."""
        return [self.part(word, value, depth)] if self.chance.random() < often else []

    def statements(self, depth):
        way = self.chance.randrange(12 if depth < 3 else 6)
        if way < 6:
            return [self.simple(way)]
        if way < 9:
            return [Statement("if", parts=[
                self.part("if", self.test(), depth), *self.sometimes(0.3, "elif", self.test(), depth),
                *self.sometimes(0.5, "else", "", depth)])]
        if way == 9:
            return [self.walked(depth)]
        if way == 10:
            name = self.name()
            part = self.part("while", f"{name} < {self.chance.randrange(4)}", depth)
            part.body.insert(0, Statement("augment", name, "1", "+"))
            return [Statement("assign", name, "0"), Statement("while", parts=[part])]
        kind = self.chance.choice(("ZeroDivisionError", "NameError", "ArithmeticError", ""))
        return [Statement("try", parts=[
            self.part("try", "", depth), self.part("except", kind, depth), *self.sometimes(0.3, "else", "", depth),
            *self.sometimes(0.3, "finally", "", depth)])]

    def simple(self, way):
        if way < 3:
            old = self.names and self.chance.random() < 0.4
            it = Statement("assign", self.chance.choice(self.names) if old else self.name(), self.expression())
            self.names = list(dict.fromkeys([*self.names, it.target]))
            return it
        if way == 3:
            return Statement("expr", value=f"print({self.expression()})")
        if way == 4 and self.names:
            return Statement("augment", self.chance.choice(self.names), self.atom(), self.chance.choice("+-"))
        return self.chance.choice((Statement("pass"), Statement("blank"), Statement("assert", value=f"{self.atom()} < 90")))

    def walked(self, depth):
        """A `for` over a few numbers; some of them end early."""
        name = self.name()
        known = list(self.names)
        self.names.append(name)
        part = self.part("for", f"range({self.chance.randrange(5)})", depth)
        self.names = known
        if self.chance.random() < 0.3:
            way = Statement(self.chance.choice(("break", "continue")))
            part.body.append(Statement("if", parts=[Part("if", self.test(), [way])]))
        return Statement("for", name, parts=[part, *self.sometimes(0.3, "else", "", depth)])


def function(chance, name, calls, shared):
    """A function with a parameter or two; some have a docstring, and some change a shared name of the module."""
    maker = Maker(chance, calls)
    params = [("a", ""), ("b", maker.number() if chance.random() < 0.5 else "")][:chance.randint(1, 2)]
    maker.names = [it for it, _ in params]
    body = [Statement("docstring", value=f"What {name} does.")] if chance.random() < 0.3 else []
    if chance.random() < 0.3:
        if chance.random() < 0.5:
            body.append(Statement("global", shared))
        else:
            body.append(Statement("if", parts=[Part("if", maker.test(), [Statement("global", shared)])]))
        body.append(Statement("augment", shared, maker.number(), "+"))
    body += maker.row(1, 3)
    body.append(Statement("return", value=f"({maker.expression()}) % 97"))
    least = sum(1 for _, it in params if not it)
    return Statement("def", name, params=params, parts=[Part("def", "", body)]), (name, least, len(params))


def library(chance, imports, calls):
    """A module of functions, and the calls that another can make of it."""
    body = [Statement("docstring", value="Made by chance.")] if chance.random() < 0.3 else []
    body += [Statement("import", name) for name in imports]
    body.append(Statement("assign", "shared", str(chance.randrange(4))))
    if chance.random() < 0.3:
        less = Part("if", "shared > 1", [Statement("augment", "shared", "2", "-")])
        body.append(Statement("if", parts=[less, Part("else", "", [Statement("pass")])]))
    own = []
    for k in range(chance.randint(2, 5)):
        it, call = function(chance, f"f{k}", [*calls, *own], "shared")
        body += [it, *([Statement("blank")] if chance.random() < 0.4 else [])]
        own.append(call)
    if chance.random() < 0.2:
        body.append(Statement("def", "told", parts=[Part("def", "", [Statement("docstring", value="Nothing.")])]))
    return body, own


def test(chance, name, modules, calls):
    """A test that calls what stands in the modules, and mostly wants what that gives."""
    body = [Statement("docstring", value="A test.")] if chance.random() < 0.3 else []
    for k in range(chance.randint(1, 2)):
        module, least, most = chance.choice(calls)
        text = f"{module}({', '.join(str(chance.randrange(9)) for _ in range(chance.randint(least, most)))})"
        body.append(Statement("assign", f"r{k}", text))
        probe = {**modules, "probe": [*(Statement("import", it) for it in ("calc", "base")), Statement("assign", "it", text)]}
        world = World(probe)
        try:
            known = world.imported("probe")["it"]
        except (Exception, Cut):
            known = None
        if type(known) is int and chance.random() < 0.8:
            body.append(Statement("assert", value=f"r{k} == {known}"))
        elif chance.random() < 0.5:
            part = Part("if", f"r{k} == 3", [Statement("assert", value="False")])
            body.append(Statement("if", parts=[part, Part("else", "", [Statement("pass")])]))
    return Statement("def", name, parts=[Part("def", "", body)])


def program(chance):
    """A script of tests, the modules `calc` and `base`, and one that marks nothing."""
    base, of_base = library(chance, [], [])
    calc, of_calc = library(chance, ["base"], [(f"base.{name}", *rest) for name, *rest in of_base])
    modules = {"base": base, "calc": calc}
    for body in modules.values():
        written(body)
    calls = [(f"calc.{name}", *rest) for name, *rest in of_calc] * 2 + [(f"base.{name}", *rest) for name, *rest in of_base]
    script = [Statement("import", "calc"), Statement("import", "base"), Statement("import", "bare"), Statement("blank")]
    if chance.random() < 0.3:
        looked_for = Part("try", "", [Statement("import", "more")])
        script.append(Statement("try", parts=[looked_for, Part("except", "ImportError", [Statement("pass")])]))
    script.append(Statement("assign", "count", "0"))
    for k in range(chance.randint(2, 5)):
        script.append(test(chance, f"test_{k}", modules, calls))
    bare = [Statement("docstring", value="Nothing.")] if chance.random() < 0.5 else []
    made = {"test_calc": script, "calc": calc, "base": base, "bare": bare}
    for body in made.values():
        written(body)
    return made
