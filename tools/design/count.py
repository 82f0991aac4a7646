#!/usr/bin/env python3
"""Places in src/ that docs/DESIGN-PASS.md counts, point by point.

    tools/design/count.py [COMMIT] [--list]    counts of a commit, or of the files as they stand; with --list each place

The rules are rough on purpose: each names more than it should rather than less, and the page says of what is left why it stays.
"""
import collections
import re
import subprocess
import sys

words = [w for w in sys.argv[1:] if w != "--list"]
commit, listing = (words[0] if words else None), "--list" in sys.argv


def run(*command):
    return subprocess.run(command, capture_output=True, text=True, check=True).stdout


def files(pattern):
    if commit:
        names = run("git", "ls-tree", "-r", "--name-only", commit, "crates").split("\n")
        texts = lambda name: run("git", "show", f"{commit}:{name}")
    else:
        names = run("git", "ls-files", "-co", "--exclude-standard", "crates").split("\n")
        texts = lambda name: open(name).read()
    for name in names:
        if re.fullmatch(pattern, name):
            try:
                yield name, texts(name)
            except FileNotFoundError:
                pass


SOURCES = dict(files(r"crates/\w+/src/.*\.rt"))
Function = collections.namedtuple("Function", "place name parameters result body comment")


def functions():
    for name, text in SOURCES.items():
        lines = text.split("\n")
        for i, line in enumerate(lines):
            head = re.match(r"( *)(?:pub(?:\([a-z]+\))? )?(?:extern \"C\" )?fn (\w+)", line)
            if not head:
                continue
            end = next((j for j in range(i, len(lines)) if lines[j] == head[1] + "}"), i)
            whole = "\n".join(lines[i : end + 1])
            opens = next((j for j in range(i, end + 1) if lines[j] in (head[1] + "{",) or lines[j].endswith(" {")), i)
            body = "\n".join(lines[opens + 1 : end])
            signature = " ".join(lines[i : opens + 1]).split(" ensures ")[0].split(" requires ")[0]
            comment = []
            j = i - 1
            while j >= 0 and lines[j].strip().startswith(("//", "#[")):
                comment.insert(0, lines[j].strip())
                j -= 1
            parameters = re.findall(r"(\w+): ([^,()]+(?:\([^)]*\))?)", signature)
            result = (re.search(r"-> ([^{]*)", signature) or ["", ""])[1].strip()
            yield Function(f"{name}:{i + 1} {head[2]}", head[2], parameters, result, body, " ".join(comment))


FUNCTIONS = list(functions())


def items(kind):
    for name, text in SOURCES.items():
        for found in re.finditer(rf"^(?:pub(?:\([a-z]+\))? )?{kind} (\w+)[^{{;]*\{{\n(.*?)^\}}", text, re.M | re.S):
            yield f"{name}:{text[: found.start()].count(chr(10)) + 1} {found[1]}", found[1], re.sub(r" *//.*", "", found[2])


FAILS = "Outside|SizeOutside|Unlisted|Over|Bad|NoNumber|Beyond|Empty|Position|Size|Fine|NoGraphic|NoBlock|NoLabel|Denied|Refused|Fault|Objected"


def shaped():
    for place, name, body in items("enum"):
        variants = re.findall(r"^    (\w+)(.*?),?$", body, re.M)
        fails = [v for v, holds in variants if re.fullmatch(FAILS, v) or re.search(r"\bRefusal\b", holds)]
        if fails and len(fails) < len(variants) and name not in ("Refusal", "Held"):
            yield place


def flags():
    for place, name, body in items("struct"):
        if not re.match(r"crates/(elements|structs|dots)/", place):
            for flag in re.findall(r"^    (?:pub )?(\w+): bool,", body, re.M):
                yield f"{place}.{flag}"


def numbers_for_none():
    for name, text in SOURCES.items():
        for i, line in enumerate(text.split("\n")):
            if re.search(r"//.*(\bor 0\b|\b0 (where|for|past)\b|[Ss]ize 0|\belse 0\b|\b0, and\b|, 0 for\b|\bor 64\b|\bor NEAR\b)", line):
                yield f"{name}:{i + 1}"


def numbers_for_kinds():
    for f in FUNCTIONS:
        arms = re.findall(r"=> (.*?),?$", f.body, re.M)
        if len(arms) > 1 and all(re.fullmatch(r"(0x)?[0-9a-f]+|b'.'", a) for a in arms):
            yield f.place


def normal(body):
    body = re.sub(r"//.*", "", body)
    body = re.sub(r"\b\w*?[A-Z]\w*\b", "T", body)
    body = re.sub(r"\b[0-9][0-9a-fx_]*\b", "N", body)
    body = re.sub(r"(?<=[a-z])_?[0-9]+(_of|_at)?\b", "", body)
    return " ".join(body.split())


def twins():
    groups = collections.defaultdict(list)
    for f in FUNCTIONS:
        if len(f.body.split()) >= 12:
            groups[normal(f.body)].append(f.place)
    for places in groups.values():
        if len(places) > 1:
            for place in places:
                yield place
    shapes = collections.defaultdict(list)
    for place, name, body in items("struct"):
        if body.count(":") > 1:
            shapes[normal(body)].append(place)
    for places in shapes.values():
        if len(places) > 1:
            for place in places:
                yield place + " (type)"


def loops():
    for f in FUNCTIONS:
        for step in set(re.findall(r"\b(\w+) (?:[+-]= 1|= \w+ [+-] 1);", f.body)):
            if re.search(r"\b(while|loop)\b", f.body) and re.search(rf"\[[^\]]*\b{step}\b", f.body):
                yield f"{f.place} {step}"


def by_hand():
    for f in FUNCTIONS:
        body = " ".join(f.body.split())
        one = len(f.parameters) == 1
        if re.fullmatch(r"(equal|min|max|least|larger|same\w*|entry_of|element_of|answered|to_fill|starting)", f.name) and "self" not in body:
            yield f.place
        elif one and re.fullmatch(r"match \w+ \{( [\w:]+(\([\w, ]*\))? => ([\w:]+(\([\w, ]*\))?|b'.'|[0-9x]+),)+( _ => [\w:]+,)? \}", body):
            yield f.place
        elif re.fullmatch(r"(of_\w+|flat_step|struct_of|flat_element|plain_of|bits|flag|wide)", f.name):
            yield f.place


def travel():
    groups = {
        "out, at": lambda p: p.get("out", "").startswith("&mut [u8]") and "at" in p,
        "s, at, default": lambda p: "default" in p and "at" in p,
        "input, entries, number": lambda p: "entries" in p and "number" in p,
        "n, i, e": lambda p: {"n", "i", "e"} <= set(p),
        "sets, copies": lambda p: {"sets", "copies"} <= set(p),
        "input, st": lambda p: {"input", "st"} <= set(p),
    }
    for words, has in groups.items():
        found = [f.place for f in FUNCTIONS if has(dict(f.parameters))]
        if len(found) >= 3:
            for place in found:
                yield f"{place} ({words})"


def switches():
    for f in FUNCTIONS:
        for name, kind in f.parameters:
            if kind.strip() == "bool" and re.search(rf"(if|match|&&|\|\|) *!?{name}\b|{name} *[&?]|, {name}[,)]", f.body):
                yield f"{f.place} {name}"


def proofs(pattern, says=""):
    return [name for name, text in files(pattern) if says in text]


ROWS = [
    ("1a enums of the shape of Option or Result", shaped),
    ("1b flags beside a value", flags),
    ("1c numbers that stand for none", numbers_for_none),
    ("1d numbers for kinds", numbers_for_kinds),
    ("2 twins, functions and types", twins),
    ("3 loops that count an index", loops),
    ("4 equality, order, copying, conversion by hand", by_hand),
    ("5 parameters that travel together, three functions and more", travel),
    ("7 flags that say which step to run", switches),
    ("8a proofs of functions in the older form (tie.close)", lambda: proofs(r"crates/\w+/proofs/.*Proof\.antt", "tie.close")),
    ("8b files of answers", lambda: proofs(r"crates/\w+/proofs/.*Answers\.antt")),
]
for words, places in ROWS:
    places = sorted(set(places()))
    print(f"{len(places):4} {words}")
    if listing:
        for place in places:
            print("      ", place)
