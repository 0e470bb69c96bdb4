#!/usr/bin/env python3
"""Brings the repository's own definitions and lemmas to the spelling of today's Rattle.

usage: python3 tools/respell.py [--check] [ROOT]    run once, after /opt/rattle/port/port.py

A type, and a function into types, is written in upper camel case (IsIn for Is-in), every other name in snake case
(total_le for total-le).
A name turns only if an .antt file of this repository declares it: names of the library, and the names of goals
that Rattle makes, keep their dashes. It turns whole words in .antt files, in the ghost lines of .rt files, and in
the code spans of README.md and docs/*.md. Strings, and the functions, types and constants of src/, keep their names.
--check writes nothing. Names that would fall together stop it before anything is written.
"""

import os
import re
import sys

WORD = re.compile(r"[^\s(){}.;,@\"«»`]+")
MODIFIERS = r"(?:(?:pub|abbrev|unfoldable|pattern|data|record) +)*"
DECLARED = re.compile(rf"(?m)^ *{MODIFIERS}([^\s(){{}}.;,@\"«»:=]+)((?: [^=\n]*?)?) : (?!goal\.)")
TYPE = re.compile(rf"(?m)^ *{MODIFIERS}([^\s(){{}}.;,@\"«»:=]+)(?: [^=\n]*?)? : (?:[^\n=]*→ *)?Type 0$")
LET = re.compile(r"\blet +([^\s(){}.;,@\"«»:=]+) +[:=]")
BOUND = re.compile(r"λ ([^.]*)\.")
RENAMED = re.compile(r" as ([^\s(){}.;,@\"«»]+)")
CLAUSE_WORD = re.compile(r"\b(?:requires|ensures|ghost)\b")


def files(root, *endings):
    for folder, folders, names in os.walk(root):
        folders[:] = sorted(f for f in folders if f not in ("out", "target", ".git"))
        for name in sorted(names):
            if name.endswith(endings):
                yield os.path.join(folder, name)


def read(path):
    with open(path, encoding="utf-8") as file:
        return file.read()


def without_comments(text):
    return re.sub(r"(?m)(?<!\S)--(?=\s).*$", "", text)


def respelled(name, types=()):
    bare = name.rstrip("'")
    primes = name[len(bare) :]
    if name in types:
        bare = bare[0].upper() + bare[1:]
    if bare[0].isupper():
        first, *rest = re.split("[-_]", bare)
        return first + "".join(part[:1].upper() + part[1:] for part in rest) + primes
    return bare.replace("-", "_") + primes


def is_word(name):
    """Letters, digits, dashes, underscores and primes: no operator, no number, no arrow."""
    return re.fullmatch(r"[^\W\d](?:[\w]|-(?=\w))*'*", name) is not None


def own_names(root):
    names = set()
    for path in files(root, ".antt"):
        text = without_comments(read(path))
        found = [m[1] for m in DECLARED.finditer(text)] + [m[1] for m in LET.finditer(text)]
        found += [m[1] for m in RENAMED.finditer(text)]
        for m in BOUND.finditer(text):
            found += WORD.findall(m[1])
        names |= {name for name in found if is_word(name)}
    return names


def own_types(root):
    """What is declared as a type, or as a function into types."""
    return {m[1] for path in files(root, ".antt") for m in TYPE.finditer(without_comments(read(path)))}


def vocabulary(root):
    """The words of antt: those of .antt files and of the imports of .rt files, without the paths of modules."""
    text = " ".join(without_comments(read(path)) for path in files(root, ".antt"))
    text += " ".join(use for path in files(root, ".rt") for use in re.findall(r"ghost use [^;]*;", read(path)))
    return set(WORD.findall(re.sub(r"\bRattle\.[\w.+]+|\bmod \w+", " ", text)))


def clashes(table, words):
    seen = {}
    for word in words:
        seen.setdefault(table.get(word, word), set()).add(word)
    return [sorted(olds) for olds in seen.values() if len(olds) > 1 and any(old in table for old in olds)]


def turn_words(text, table):
    return WORD.sub(lambda m: table.get(m[0], m[0]), text)


def turn_source(text, table):
    """The clauses, the ghost items and the comments: a word with a dash stands nowhere else, and one without is turned on ghost lines alone."""
    dashed = {old: new for old, new in table.items() if "-" in old}
    lines, deep, ghost = [], 0, False
    for line in text.split("\n"):
        ghost = ghost or CLAUSE_WORD.search(line) is not None
        lines.append(turn_words(line, table if ghost else dashed))
        deep = deep + line.count("{") - line.count("}") if ghost else 0
        ghost = ghost and deep > 0
    return "\n".join(lines)


def turn_prose(text, table):
    return re.sub(r"`[^`\n]*`", lambda m: "`" + turn_words(m[0][1:-1], table) + "`", text)


def main(words):
    check = "--check" in words
    rest = [word for word in words if word != "--check"]
    root = rest[0] if rest else "."
    crates = os.path.join(root, "crates")
    types = own_types(crates)
    table = {name: respelled(name, types) for name in own_names(crates) if respelled(name, types) != name}
    together = clashes(table, vocabulary(crates))
    for olds in together:
        print("falls together:", " ".join(olds), "->", table.get(olds[0], olds[0]))
    if check:
        for old in sorted(table):
            print(f"{old}\t{table[old]}")
    if together or check:
        return 1 if together else 0
    pages = [path for path in files(root, ".md") if not path.startswith(os.path.join(root, "tools"))]
    turned = 0
    for path in [*files(crates, ".antt", ".rt"), *pages]:
        old = read(path)
        turn = turn_source if path.endswith(".rt") else turn_prose if path.endswith(".md") else turn_words
        new = turn(old, table)
        if new != old:
            turned += 1
            with open(path, "w", encoding="utf-8") as file:
                file.write(new)
    print(f"respell: {len(table)} names, {turned} files")
    return 0


if __name__ == "__main__":
    raise SystemExit(main(sys.argv[1:]))
