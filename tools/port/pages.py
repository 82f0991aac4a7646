#!/usr/bin/env python3
"""Spells names in README, docs/ and comments of tools/ as the code has them now: a word between backticks that the code no longer has, and has in the new spelling.

usage: pages.py [TOP]    behind names.py
"""
import glob
import os
import re
import sys

TOP = sys.argv[1] if len(sys.argv) > 1 else "."
WORD = r"[^\s(){}.;,@\"«»\[\]\\`:/|]+"
code = set()
for kind in ("antt", "rt"):
    for p in glob.glob(os.path.join(TOP, "crates", "*", "**", "*." + kind), recursive=True):
        if "/out/" not in p:
            with open(p, encoding="utf-8") as f:
                code.update(re.findall(WORD, f.read()))
with open(os.path.join(TOP, "tools/port/names.tsv"), encoding="utf-8") as f:
    table = dict(line.rstrip("\n").split("\t") for line in f)


def spelled(w):
    if w in table and w not in code:
        return table[w]
    new = re.sub(r"(?<=[a-z0-9])([A-Z]+)", lambda m: "_" + m[1].lower(), w) if re.match(r"[a-z]", w) else w
    new = re.sub(r"(?<=\w)-(?=\w)", "_", new)
    return new if new != w and w not in code and new in code else w


pages = [os.path.join(TOP, "README.md")]
pages += glob.glob(os.path.join(TOP, "docs", "**", "*.md"), recursive=True)
pages += [p for p in glob.glob(os.path.join(TOP, "tools", "**", "*"), recursive=True) if os.path.isfile(p) and not p.endswith((".edit", ".tsv", ".py")) and "/oracle/" not in p]
pages += [os.path.join(TOP, p) for p in ("include/laddertick.h", "crates.txt", ".ci/run")]
turned = {}
for p in pages:
    if p.endswith("docs/PORT.md") or "/docs/src/" in p or not os.path.isfile(p):
        continue
    try:
        with open(p, encoding="utf-8") as f:
            old = f.read()
    except UnicodeDecodeError:
        continue
    # Words of a shell or of C are no names of the code.
    def span(m):
        def one(w):
            n = spelled(w[0])
            if n != w[0]:
                turned[w[0]] = n
            return n

        return "`" + re.sub(WORD, one, m[1]) + "`"

    new = re.sub(r"`([^`\n]+)`", span, old)
    if p.endswith(".md"):
        new = re.sub(r"`bytes(?=::|/)", "`byte_slices", new)
    if new != old:
        with open(p, "w", encoding="utf-8") as f:
            f.write(new)
for w in sorted(turned):
    print(w, turned[w])
