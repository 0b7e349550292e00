"""The worked rows of tests: those of `suite`, `select` and `mutate`, which rows.py runs with its own.

A row has a title, its files, and its commands, each with status, output and standard error.
"""
CALC = "def div(a, b):\n    if b == 0:\n        return None\n    return a // b\n\ndef unused(x):\n    return x\n"
TEST = """import calc

def test_div():
    assert calc.div(6, 3) == 2

if __name__ == "__main__":
    test_div()
    print("ok")
"""
THREE = """n = [0]
def test_a():
    n[0] = n[0] + 1
    assert n[0] == 1
def test_b():
    n[0] = n[0] + 1
    assert n[0] == 1
def test_c():
    assert n[0] == 1, "no"
"""
TRIES = "try:\n    import extra\nexcept ImportError:\n    pass\ndef test_a():\n    pass\ndef test_b():\n    pass\n"
IMPORTS = "import m\ndef test_a():\n    pass\ndef test_b():\n    pass\n"
DOC = 'def test_a():\n    "told"\n    pass\ndef test_b():\n    pass\n'
MUTANTS = "1 calc.py:2 == -> != killed\n2 calc.py:2 0 -> 1 survived\n3 calc.py:4 // -> * killed\n"
# Forty tests over four modules: functions rebound and defined twice, tests that end in every way, and
# globals, lists and dicts that they change. CPython ends each alike, in a process of its own.
FORTY = {
    "stock.py": """items = {"nut": 3, "bolt": 5}
log = []
def take(name, count=1):
    if items[name] < count:
        raise ValueError(f"{name}: {items[name]} left")
    items[name] -= count
    log.append(name)
    return items[name]
def put(name, count=1):
    items[name] = items.get(name, 0) + count
    return items[name]
def total():
    sum = 0
    for name in items:
        sum += items[name]
    return sum
""",
    "words.py": """count = 0
def title(text):
    global count
    count += 1
    return text + "!"
def join(parts, by=", "):
    return by.join(parts)
def kind(value):
    match value:
        case 0 | 1:
            return "small"
        case [first, second]:
            return "list"
        case _:
            return "other"
""",
    "shop.py": """import stock
open_ = True
def buy(name, count=1):
    global open_
    if not open_:
        raise RuntimeError("closed")
    left = stock.take(name, count)
    if left == 0:
        open_ = False
    return left
def close():
    global open_
    open_ = False
""",
    "tally.py": """import words
import shop
seen = []
def see(name):
    seen.append(words.title(name))
    return len(seen)
def spin():
    while True:
        pass
def twice(f, x):
    return f(f(x))
""",
    "t.py": """import sys
import stock
import words
import shop
import tally
board = [0]
level = 1
def helper(x):
    return 2 * x
def test_01():
    assert stock.take("nut") == 2
def test_02():
    assert stock.take("nut", 3) == 0
    assert stock.items["nut"] == 0
def test_03():
    stock.take("nut", 4)
def test_04():
    assert stock.items == {"nut": 3, "bolt": 5}
def test_05():
    stock.take("screw")
def test_06():
    assert stock.put("screw", 2) == 2
    assert stock.total() == 10
def test_07():
    assert stock.total() == 8
def test_08():
    stock.log.append("x")
    assert len(stock.log) == 1
def test_09():
    assert stock.log == [], "the log is empty"
def test_10():
    assert words.title("a") == "a!"
    assert words.count == 1
def test_11():
    words.title("a")
    words.title("b")
    assert words.count == 2
def test_12():
    assert words.count == 1, f"{words.count} titles"
def test_13():
    assert words.join(["a", "b"]) == "a, b"
def test_14():
    words.join([1])
def test_15():
    assert words.kind(1) == "small"
    assert words.kind([1, 2]) == "list"
def test_16():
    assert words.kind(7) == "small"
def test_17():
    assert shop.buy("nut", 3) == 0
    shop.buy("bolt")
def test_18():
    assert shop.buy("bolt") == 4
def test_19():
    shop.close()
    assert not shop.open_
def test_20():
    assert shop.open_
def test_21():
    sys.exit(2)
def test_22():
    sys.exit()
def test_23():
    tally.spin()
def test_24():
    assert tally.see("x") == 1
def test_25():
    assert tally.see("x") == 1
    assert tally.see("y") == 2
    assert tally.seen == ["x!", "y!"]
def test_26():
    assert tally.twice(helper, 3) == 12
def test_27():
    local = {}
    local["k"] = [1]
    local["k"].append(2)
    assert local == {"k": [1, 2]}
def test_28():
    board.append(1)
    assert board == [0, 1]
def test_29():
    board.append(2)
    assert board == [0, 2]
def test_30():
    assert len(board) == 1
def test_31():
    global level
    level = level + 1
    assert level == 2
def test_32():
    assert level == 1
def test_33():
    global helper
    helper = None
    helper(1)
def test_34():
    assert helper(4) == 8
def test_35():
    print("nothing of this is printed")
def test_36():
    raise KeyError("gone")
def test_37():
    missing
def test_38():
    assert 1 // 0 == 0
def test_39():
    x = y
    y = 1
def test_wants(a):
    pass
def test_01():
    assert stock.take("bolt", 5) == 0
test_02 = helper
""",
}
FORTY_ENDED = """test_01 passed
test_02 failed TypeError: wrong number of arguments
test_03 failed ValueError: nut: 3 left
test_04 passed
test_05 failed KeyError: 'screw'
test_06 passed
test_07 passed
test_08 passed
test_09 passed
test_10 passed
test_11 passed
test_12 failed AssertionError: 0 titles
test_13 passed
test_14 failed TypeError: bad argument
test_15 passed
test_16 failed AssertionError
test_17 failed RuntimeError: closed
test_18 passed
test_19 passed
test_20 passed
test_21 failed SystemExit: 2
test_22 failed SystemExit
test_23 cut
test_24 passed
test_25 passed
test_26 passed
test_27 passed
test_28 passed
test_29 passed
test_30 passed
test_31 passed
test_32 passed
test_33 failed TypeError: not callable
test_34 passed
test_35 passed
test_36 failed KeyError: 'gone'
test_37 failed NameError: name 'missing' is not defined
test_38 failed ZeroDivisionError: division by zero
test_39 failed UnboundLocalError: local variable 'y' is not set
test_wants failed TypeError: wrong number of arguments
24 passed, 15 failed, 1 cut
"""
ROWS = [
    ("Three tests", {"t.py": THREE}, [
        ("suite t.py", 1, "test_a passed\ntest_b passed\ntest_c failed AssertionError: no\n"
                          "2 passed, 1 failed, 0 cut\n", "")]),
    ("Import that raises", {"i.py": 'raise ValueError("no")\n'}, [
        ("suite i.py", 1, "", "coverage: import of i.py ended early\n"),
        ("report", 1, "", "coverage: no data .coverage\n"),
    ]),
    ("Forty tests", FORTY, [("suite --budget 2000 t.py", 1, FORTY_ENDED, "")]),
    *[(title, {"old/calc.py": CALC, "old/test_calc.py": TEST, "new/calc.py": new, "new/test_calc.py": TEST}, [
        ("select old/test_calc.py new/test_calc.py", 0, out, "")]) for title, new, out in (
            ("Change that no test reaches", CALC.replace("return x", "return x + 1"), "0 of 1 selected\n"),
            ("Change that a test reaches", CALC.replace("a // b", "b // a"), "test_div\n1 of 1 selected\n"),
            ("Empty line in front", "\n" + CALC, "test_div\n1 of 1 selected\n"))],
    ("Other modules", {"old/t.py": TRIES, "new/t.py": TRIES, "new/extra.py": "x = 1\n"}, [
        ("select old/t.py new/t.py", 0, "test_a\ntest_b\n2 of 2 selected\n", "")]),
    ("Module without a mark", {"old/t.py": IMPORTS, "old/m.py": "", "new/t.py": IMPORTS, "new/m.py": "x = 1\n"}, [
        ("select old/t.py new/t.py", 0, "test_a\ntest_b\n2 of 2 selected\n", "")]),
    ("Docstring that goes", {"old.py": DOC, "new.py": DOC.replace('"told"', "print(2)")}, [
        ("select old.py new.py", 0, "test_a\n1 of 2 selected\n", "")]),
    ("Mutants of ordinary use", {"calc.py": CALC, "test_calc.py": TEST}, [
        ("mutate test_calc.py", 0, MUTANTS + "2 killed, 1 survived, 0 unreached\n", "")]),
    ("Unreached mutants", {"calc.py": CALC.replace("return x", "return x + 1"), "test_calc.py": TEST}, [
        ("mutate test_calc.py", 0, MUTANTS + "4 calc.py:7 + -> - unreached\n5 calc.py:7 1 -> 2 unreached\n"
                                             "2 killed, 1 survived, 2 unreached\n", "")]),
]
