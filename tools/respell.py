#!/usr/bin/env python3
"""Gives this repository's definitions and lemmas the spelling of today's Rattle: words in snake case.

usage: python3 tools/respell.py     in the repository, once, after the kit's port.py

tools/respelled.tsv has a row for each name: old, a tab, new. Whole words turn, all in one pass, so that two names may change places;
a name with a dash stays behind a dot, since goals have such names. Files: .antt and .rt below crates/, and code spans of README.md and docs/.
A second run would turn names that are new already: where no old name with a capital inside is left, it writes nothing.
"""
import os
import re

HERE = os.path.dirname(os.path.abspath(__file__))
TOP = os.path.dirname(HERE)
WORD = re.compile(r'[^\s(){}.;,@"«»\x60]+')
SPAN = re.compile(r"\x60[^\x60\n]+\x60")

with open(os.path.join(HERE, "respelled.tsv"), encoding="utf-8") as f:
    ROWS = dict(line.rstrip("\n").split("\t") for line in f)


def turned(text):
    def word(m):
        old = m.group(0)
        if "-" in old and m.start() > 0 and text[m.start() - 1] == ".":
            return old
        return ROWS.get(old, old)

    return WORD.sub(word, text)


def files():
    for folder, dirs, names in os.walk(os.path.join(TOP, "crates")):
        dirs[:] = sorted(d for d in dirs if d != "out")
        for name in sorted(names):
            if name.endswith((".antt", ".rt")):
                yield os.path.join(folder, name), turned
    for folder in (TOP, os.path.join(TOP, "docs")):
        for name in sorted(os.listdir(folder)):
            if name.endswith(".md"):
                yield os.path.join(folder, name), lambda text: SPAN.sub(lambda m: turned(m.group(0)), text)


TEXTS = []
for path, turn in files():
    with open(path, encoding="utf-8") as f:
        TEXTS.append((path, turn, f.read()))

OLD = {name for name in ROWS if re.search("[a-z][A-Z]", name)}
if not any(OLD.intersection(WORD.findall(text)) for path, _, text in TEXTS if not path.endswith(".md")):
    raise SystemExit("respell: the names have the new spelling already; nothing was written")

for path, turn, old in TEXTS:
    new = turn(old)
    if new != old:
        with open(path, "w", encoding="utf-8") as f:
            f.write(new)
