#!/usr/bin/env python3
"""Gives the repository's own definitions and lemmas their names in snake case.

usage: respell.py      at the top of the repository, once, after the kit's port.py and on a clean tree

names.tsv has a row for each name: as it was and as it is. lemmas.tsv has the lemmas that stood in the spelling that a
definition takes: they end in _lem, and are renamed where no dot stands before them. Turned are the specs and proofs,
clauses and imports of the sources, the must-fail edits, and what stands in backticks in the pages.
Functions, strings, inputs and outputs keep their names. Needs Python 3, and nothing else.
"""

import os
import re

HERE = os.path.dirname(os.path.realpath(__file__))
PAGES = ["README.md"] + [os.path.join("docs", f) for f in ("CHANGES.md", "CHECK_TIMES.md", "DECISIONS.md", "DIFFERENCES.md", "GUIDE.md", "SPEED.md", "TABLES.md")]


def table(name):
    with open(os.path.join(HERE, name), encoding="utf-8") as f:
        return dict(line.rstrip("\n").split("\t") for line in f if line.strip())


NAMES, LEMMAS = table("names.tsv"), table("lemmas.tsv")
CAMEL = {a: b for a, b in NAMES.items() if "-" not in a}
# a comment, a string, or a word
TOKEN = re.compile(r"--[^\n]*|\"(?:[^\"\\\n]|\\.)*\"|[^\s(){}.;,@\"«»\[\]\\λ`]+")
WORD = re.compile(r"[A-Za-z_][\w'₀-₉]*(?:-[\w'₀-₉]+)*")


def quoted(text):
    """What stands in backticks has its names in the new spelling."""
    return re.sub(r"`[^`\n]*`", lambda q: WORD.sub(lambda w: NAMES.get(w.group(), w.group()), q.group()), text)


def of_antt(text):
    def one(m):
        t = m.group()
        if t.startswith("--"):
            return quoted(WORD.sub(lambda w: CAMEL.get(w.group(), w.group()), t))
        if t.startswith('"'):
            return t
        if t in LEMMAS and not text[: m.start()].endswith("."):
            return LEMMAS[t]
        return NAMES.get(t, t)

    return TOKEN.sub(one, text)


def of_source(text):
    """Names wherever they stand outside strings and comments; in comments those in camel case."""
    out = []
    for line in text.split("\n"):
        parts = re.split(r"(\"(?:[^\"\\]|\\.)*\"|//.*)", line)
        for i, p in enumerate(parts):
            names = CAMEL if p.startswith("//") else NAMES
            if not p.startswith('"'):
                parts[i] = WORD.sub(lambda w: names.get(w.group(), w.group()), p)
        out.append("".join(parts))
    return "\n".join(out)


def of_edit(text):
    head = lambda line: line.split(" ")[0]
    lines = []
    for line in text.split("\n"):
        if head(line) in ("old:", "new:"):
            line = TOKEN.sub(lambda m: m.group() if m.group().startswith('"') else NAMES.get(m.group(), m.group()), line)
        lines.append(line)
    return "\n".join(lines)


def turn(path, how):
    with open(path, encoding="utf-8", newline="") as f:
        text = f.read()
    new = how(text)
    if new != text:
        with open(path, "w", encoding="utf-8", newline="") as f:
            f.write(new)


def main():
    for folder, dirs, files in os.walk("crates"):
        dirs[:] = sorted(d for d in dirs if d != "out")
        for f in sorted(files):
            how = {".antt": of_antt, ".rt": of_source, ".edit": of_edit}.get(os.path.splitext(f)[1])
            if how:
                turn(os.path.join(folder, f), how)
    for page in PAGES:
        if os.path.exists(page):
            turn(page, quoted)


main()
