#!/usr/bin/env python3
"""In the pages, names of theorems that moved: `crate/specs/File.name` becomes `crate/proofs/File.name` where only that file declares the name.

usage: moved.py      at the top of the repository
"""

import os
import re

PAGES = ["README.md"] + [os.path.join("docs", f) for f in ("DECISIONS.md", "DIFFERENCES.md", "GUIDE.md", "TABLES.md")]


def declares(path, name):
    if not os.path.isfile(path):
        return False
    with open(path, encoding="utf-8") as f:
        text = f.read()
    word = re.escape(name)
    return re.search(rf"(?m)^\s*(?:(?:unfoldable|abbrev|pub|record|data)\s+)*(?:[^\s:(){{}}=]+\s+)*{word}(?:\s+[^\s:(){{}}=]+)*\s*(?::|where|$)", text) is not None


def main():
    for page in PAGES:
        with open(page, encoding="utf-8") as f:
            text = f.read()

        def one(m):
            crate, file, name = m.group(1), m.group(2), m.group(3)
            specs, proofs = f"crates/{crate}/specs/{file}.antt", f"crates/{crate}/proofs/{file}.antt"
            if not declares(specs, name) and declares(proofs, name):
                return f"`{crate}/proofs/{file}.{name}`"
            return m.group()

        new = re.sub(r"`([a-z0-9_]+)/specs/([A-Za-z0-9]+)\.([^`\s]+)`", one, text)
        if new != text:
            with open(page, "w", encoding="utf-8") as f:
                f.write(new)
            print(page)


main()
