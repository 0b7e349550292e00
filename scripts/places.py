#!/usr/bin/env python3
"""Lists where a thing stands: a statement, an instruction, a method, an option, a key of the settings.

    places.py WORD [WORD..]                files with a name that has a WORD in it, from the lowest crate up
    places.py --lines WORD [WORD..]        each line as well
    places.py WORD [WORD..] --against NEW  only files that have fewer lines with NEW, with both counts

A name has WORD in it where its parts do: `while` is found in `While`, `while_test`, `WhileTest` and `a_while`, and not in
`meanwhile`. `fail-under`, `fail_under` and `failunder` are one word, and all find `FailUnder`. A WORD with a capital stands
as it is: `Len` finds no `len`. Macros as `assert!(..)` and keywords of Rust don't count; names of files and folders do.

Within a crate the order is specs, src, proofs, must-fail, README; then come the documents, examples and scripts. What the
lists of docs/CHANGING.md name stands among these places; the lists give the words, the order and the reasons. `--against`
shows what is left to do: give the form to follow as WORD, and the new one as NEW.
"""
import os
import re
import sys

TOP = os.path.dirname(os.path.dirname(os.path.abspath(__file__)))
FOLDERS = ["specs", "src", "proofs", "must-fail"]
NAME = re.compile(r"[A-Za-z_][A-Za-z0-9_-]*(?![A-Za-z0-9_-]|!\()")
RUST = {"as", "break", "continue", "else", "for", "if", "in", "let", "match", "return", "while"}
CODE = re.compile(r"[{};]")
PART = re.compile(r"[A-Z]+(?![a-z])|[A-Z]?[a-z]+|[0-9]+")


def letters(text):
    """A word without what stands between its parts."""
    return text.replace("_", "").replace("-", "")


def has_capital(word):
    return word != word.lower()


def stands_in(word, name):
    """Whether some parts of a name, one after another, spell a word. Capitals count where the word has one."""
    parts = [it if has_capital(word) else it.lower() for it in PART.findall(name)]
    return any("".join(parts[at:end]) == word for at in range(len(parts)) for end in range(at + 1, len(parts) + 1))


def names_in(line, is_rust):
    """The names in a line. Keywords of Rust count in comments and in sources that stand in strings."""
    is_code = is_rust and CODE.search(line) and '"' not in line and "//" not in line
    return [it for it in NAME.findall(line) if not (is_code and it in RUST)]


def lines_with(words, text, is_rust):
    """The numbers and texts of the lines with a name that has one of the words in it."""
    found = []
    for number, line in enumerate(text.splitlines(), 1):
        plain = letters(line)
        asked = [it for it in words if it in (plain if has_capital(it) else plain.lower())]
        if asked and any(stands_in(word, name) for name in names_in(line, is_rust) for word in asked):
            found.append((number, line.rstrip()))
    return found


def files():
    """The files of each crate, the lowest crate first, then all others."""
    for line in open(f"{TOP}/crates.txt"):
        if ":" not in line or line.startswith("#"):
            continue
        crate = f"crates/{line.split(':')[0]}"
        for folder in FOLDERS:
            for path, _, names in sorted(os.walk(f"{TOP}/{crate}/{folder}")):
                yield from (f"{os.path.relpath(path, TOP)}/{it}" for it in sorted(names))
        yield from (f"{crate}/{it}" for it in sorted(os.listdir(f"{TOP}/{crate}")) if os.path.isfile(f"{TOP}/{crate}/{it}"))
    yield from ("README.md", "crates.txt", "coverage")
    for folder in ["docs", "examples", "scripts"]:
        for path, _, names in sorted(os.walk(f"{TOP}/{folder}")):
            yield from (f"{os.path.relpath(path, TOP)}/{it}" for it in sorted(names) if not it.endswith(".pyc"))


def below(file):
    """The folders of a file and its name, without its crate."""
    return file.split("/")[2 if file.startswith("crates/") else 0 :]


def main(said):
    shows = "--lines" in said
    said = [it for it in said if it != "--lines"]
    cut = said.index("--against") if "--against" in said else len(said)
    words, new = [letters(it) for it in said[:cut]], [letters(it) for it in said[cut + 1 :]]
    if not words or cut < len(said) and not new:
        print(__doc__.strip(), file=sys.stderr)
        return 2
    count = 0
    for file in files():
        try:
            text = open(f"{TOP}/{file}", errors="replace").read()
        except FileNotFoundError:
            continue
        found, also = (lines_with(it, text, file.endswith(".rt")) for it in (words, new))
        if not found and not any(stands_in(word, name) for name in below(file) for word in words):
            continue
        if new and len(also) >= max(len(found), 1):
            continue
        count += 1
        at = f":{found[0][0]}" if found else ""
        print(f"{file}{at}  {len(found)}" + (f", {len(also)} of the new" if new else ""))
        if shows:
            print("".join(f"    {number}: {line}\n" for number, line in found), end="")
    print(f"{count} files")
    return 0 if count else 1


try:
    status = main(sys.argv[1:])
except BrokenPipeError:
    os.dup2(os.open(os.devnull, os.O_WRONLY), 1)
    status = 1
sys.exit(status)
