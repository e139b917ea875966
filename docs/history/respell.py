#!/usr/bin/env python3
"""Spells this repository's own definitions and lemmas as today's Rattle does: words in snake case, facts and types in camel case.

usage: python3 tools/respell.py [--check]      at the top of the repository, once, after port.py

A name is turned if a file of specs/ or proofs/ declares it, it has a dash, and it is no goal that Rattle makes. It is turned wherever it
stands as a whole word: in specs, proofs, clauses, and in code spans of the pages. Comments, strings and the code of src/ stay.
--check only says what would be turned, and which names would fall together.
"""

import os
import re
import sys

WORD = r'[^\s(){}\[\].;,@"«»|]+'
DECLARED = re.compile(r"^\s*(?:(?:pub|abbrev|unfoldable)\s+)*(" + WORD + r")(?:\s+[^\s:()]+)*\s*:\s(.*)$")
TYPE = re.compile(r"^\s*(?:pub\s+)?(?:record|data)\s+(" + WORD + r")")
GOAL = re.compile(r"^goal\.")
OVERRIDES = {"Number-operator": "NumberOperation", "Truth-operator": "TruthOperation"}
# code pieces that stay: comments and strings of .rt files, comments of .antt files
RT_QUIET = re.compile(r'//[^\n]*|"(?:[^"\\\n]|\\.)*"')
ANTT_QUIET = re.compile(r"(?<![^\s(){}.;,@])--[^\n]*")
SPAN = re.compile(r"`[^`\n]+`")


def files(*endings):
    for folder, dirs, names in os.walk("crates"):
        dirs[:] = sorted(d for d in dirs if d not in ("out", ".git"))
        for n in sorted(names):
            if n.endswith(endings):
                yield os.path.join(folder, n)


def pages():
    for folder in (".", "docs"):
        for n in sorted(os.listdir(folder)):
            if n.endswith(".md") and n != "PORT.md":
                yield os.path.join(folder, n)


def read(path):
    with open(path, encoding="utf-8") as f:
        return f.read()


def spelled(name):
    """Camel case for what begins with a capital, else snake case."""
    if name in OVERRIDES:
        return OVERRIDES[name]
    parts = name.split("-")
    if name[:1].isupper():
        return "".join(p[:1].upper() + p[1:] for p in parts)
    return "_".join(parts)


def declarations():
    """The names that the repository declares in specs/ and proofs/: all, and those that are goals."""
    own, goals, bound = set(), set(), set()
    for path in files(".antt"):
        for line in read(path).split("\n"):
            if line.lstrip().startswith("--"):
                continue
            m = TYPE.match(line)
            if m:
                own.add(m.group(1))
                continue
            m = DECLARED.match(line)
            if m:
                (goals if GOAL.match(m.group(2)) else own).add(m.group(1))
    return own, goals


def words_of(text, quiet):
    at = 0
    for m in quiet.finditer(text):
        yield text[at : m.start()], True
        yield m.group(0), False
        at = m.end()
    yield text[at:], True


def turn(text, table, quiet):
    def one(m):
        return table.get(m.group(0), m.group(0))

    return "".join(re.sub(WORD, one, part) if live else part for part, live in words_of(text, quiet))


def turn_page(text, table):
    def span(m):
        return re.sub(WORD.replace('"', '"`'), lambda w: table.get(w.group(0), w.group(0)), m.group(0))

    return SPAN.sub(span, text)


def main(argv):
    own, goals = declarations()
    table = {n: spelled(n) for n in own if "-" in n.strip("-") and n not in goals and not n.startswith("-")}
    seen = {}
    clashes = []
    for old, new in sorted(table.items()):
        if new in seen or (new in own and new not in table):
            clashes.append((old, new, seen.get(new, new)))
        seen[new] = old
    for old, new, other in clashes:
        print(f"falls together: {old} and {other} as {new}")
    if "--check" in argv:
        print(f"{len(table)} names")
        return
    n = 0
    for path in files(".antt", ".rt"):
        old = read(path)
        new = turn(old, table, ANTT_QUIET if path.endswith(".antt") else RT_QUIET)
        if new != old:
            n += 1
            with open(path, "w", encoding="utf-8") as f:
                f.write(new)
    for path in pages():
        old = read(path)
        new = turn_page(old, table)
        if new != old:
            n += 1
            with open(path, "w", encoding="utf-8") as f:
                f.write(new)
    print(f"{len(table)} names, {n} files")


main(sys.argv[1:])
