#!/usr/bin/env python3
"""Spells the repository's own definitions, lemmas and fields as today's Rattle does: words in snake case, facts and modules in camel case.

usage: names.py [TOP]    run once, at the top of the repository, behind port.py; it rewrites the files of crates/ and crates.txt

A word that a file takes from elsewhere keeps its spelling, and so does what Rattle makes for a function's proof. It prints each pair of names that would fall together,
and then writes nothing. The crate `bytes` is renamed too, since Rattle has a library of that name, and laddertick's specs/Contracts.antt, since Rattle makes such a module.
"""
import collections
import glob
import os
import re
import subprocess
import sys

TOP = sys.argv[1] if len(sys.argv) > 1 else "."
WORD = r"[^\s(){}.;,@\"«»\[\]\\]+"
TOKEN = re.compile(r"--[^\n]*|\"(?:[^\"\\\n]|\\.)*\"|«[^»\n]*»|" + WORD)
DECLARED = re.compile(r"(?m)^ *(?:abbrev |unfoldable |pub |opaque )*(?:record |data )?(%s)(?=(?: [({].*)? :(?: |$))" % WORD)
FIELD = re.compile(r"(?m)^ +(?:pub )?(%s) : " % WORD)
USE = re.compile(r"(?m)^ *(?:pub )?(?:ghost )?use (\S+?)(?:\.\{([^}]*)\}| as (\S+?))?;?$")
# What Rattle makes: it has its own spelling.
MADE = re.compile(r".*-spec$|[+μ]")
# Facts, which are types.
FACTS = {"hasData": "HasData", "hasText": "HasText", "rangeBy": "RangeBy"}
# Names that would fall together with another's.
APART = {
    "well-formed": "is_well_formed",
    "row-bytes": "bytes_a_row",
    "text-height": "height_of_text",
    "text-width": "width_of_text",
    "sameWay": "is_same_way",
    "last-number": "last_number_lem",
    "last-count": "last_count_lem",
    "no-label": "is_no_label",
}
CRATES = {"bytes": "byte_slices"}


def snake(name):
    """The name as it is spelled now; a lemma that would have the name of a definition gets `_lem`."""
    new = spelled(name)
    if name == new:
        return new + "_lem" if name in lemmas and new in humped else new
    return new + "_lem" if "-" in name and new in plain and name not in fields else new


def spelled(name):
    if name in FACTS or name in APART:
        return FACTS.get(name) or APART[name]
    if not re.match(r"[a-z]", name) or MADE.match(name):
        return name
    name = re.sub(r"(?<=[a-z0-9])([A-Z]+)", lambda m: "_" + m[1].lower(), name)
    return re.sub(r"(?<=[\w'])-(?=\w)", "_", name).replace("′", "'")


def read(path):
    with open(path, encoding="utf-8") as f:
        return f.read()


def write(path, text):
    with open(path, "w", encoding="utf-8") as f:
        f.write(text)


def bare(text):
    """The text without comments."""
    return re.sub(r"(?<![^\s(){}])--[^\n]*", "", text)


def files(pattern):
    return sorted(glob.glob(os.path.join(TOP, "crates", "*", pattern), recursive=True))


def below_a_function(path):
    return os.path.basename(path) in ("Proof.antt", "Answers.antt", "Invariants.antt")


antts = files("specs/**/*.antt") + files("proofs/**/*.antt")
crates = {os.path.basename(p) for p in glob.glob(os.path.join(TOP, "crates", "*"))}
text = {p: read(p) for p in antts + files("src/**/*.rt")}


def is_ours(path):
    parts = path.split(".")
    return parts[0] == "Rattle" and len(parts) > 1 and parts[1] in crates


# What is declared where.
declared = {}
fields = set()
for p in antts:
    t = bare(text[p])
    declared[p] = {m[1] for m in DECLARED.finditer(t) if not re.match(r"\s*tie\.", t[m.end() :][2:])}
    for record in re.findall(r"(?ms)^ *(?:abbrev |pub )*record .*?(?=^\S|\n\n|\Z)", t):
        fields |= {m[1] for m in FIELD.finditer(record)}
everyone = set().union(*declared.values())
plain = {spelled(w) for w in everyone if "-" not in w}
humped = {spelled(w) for w in everyone if spelled(w) != w and "-" not in w}
lemmas = {w for p in antts if "/proofs/" in p and not below_a_function(p) for w in declared[p] if "_" in w} - fields
everywhere = set().union(*(declared[p] for p in antts if not below_a_function(p)))


def table(p):
    """The words of the file at p that change, and those that it takes from elsewhere."""
    t = text[p] if p.endswith(".rt") else bare(text[p])
    ours, others, heads = set(), set(), set()
    for path, names, alias in USE.findall(t):
        path = path.rstrip(";")
        for item in re.split(r",\s*", names):
            parts = item.split(" as ")
            (ours if is_ours(path) else others).update(x.strip() for x in parts if x.strip())
        if alias:
            ours.add(alias.rstrip(";"))
            if is_ours(path):
                heads.add(alias.rstrip(";"))
    if p.endswith(".antt"):
        ours |= declared[p] | fields
    others -= declared.get(p, set())
    made = set(re.findall(r"(?m)^ *(?:abbrev )?(?:pub )?(%s) : tie\." % WORD, t))
    words = {w: snake(w) for w in ours - others - made}
    return {w: n for w, n in words.items() if n != w}, others | made, heads


def turn(t, words, others, heads, dotted):
    def one(m):
        w = m[0]
        if w.startswith("--"):
            return re.sub(r"`([^`]+)`", lambda s: "`" + TOKEN.sub(lambda x: every.get(x[0], x[0]), s[1]) + "`", w)
        if w[0] in "\"«":
            return w
        before = t[m.start() - 1 : m.start()]
        if before == ".":
            head = re.search(r"([^\s(){}.;,@\"]+)\.$", t[max(0, m.start() - 60) : m.start()])
            if w in dotted or (head and head[1] in heads and w in everywhere):
                return snake(w)
            return w
        return words.get(w, w)

    return TOKEN.sub(one, t)


every = {w: snake(w) for w in everywhere if snake(w) != w}
dotted = {w for w in fields if snake(w) != w}
bad = 0
out = {}
for p in text:
    words, others, heads = table(p)
    rust = p.endswith(".rt")
    t = text[p]
    if rust:
        # Comments of Rust begin otherwise; a word with a dash or a hump stands in clauses alone.
        new = re.sub(r"//[^\n]*", lambda m: re.sub(r"`([^`]+)`", lambda s: "`" + TOKEN.sub(lambda x: every.get(x[0], x[0]), s[1]) + "`", m[0]), t)
        t = re.sub(r"(?m)^(?!\s*//).*$", lambda m: turn(m[0], words, others, heads, dotted), new)
    else:
        t = turn(t, words, others, heads, dotted)
    # Names that fall together: in one file two words that become one.
    here = collections.defaultdict(set)
    code = re.sub(r"(?m)^ *(?:pub )?(use|mod) .*$", "", bare(text[p])) if not rust else ""
    for m in TOKEN.finditer(code):
        w = m[0]
        if w.startswith('"') or code[m.start() - 1 : m.start()] == ".":
            continue
        here[words.get(w, w)].add(w)
    for n, ws in here.items():
        if len(ws) > 1 and any(w in words for w in ws):
            print(f"together: {p}: {n}: {sorted(ws)}")
            bad += 1
    out[p] = t
if bad and "--force" not in sys.argv:
    sys.exit(f"names: {bad} pairs fall together, nothing is written")
for p, t in out.items():
    # The crate that is renamed.
    for old, new in CRATES.items():
        t = re.sub(r"(?<![\w.])Rattle\.%s(?=\.)" % old, "Rattle." + new, t)
        if p.endswith(".rt"):
            t = re.sub(r"(?<![\w:.])%s(?=::)" % old, new, t)
    t = re.sub(r"\bRattle\.laddertick\.specs\.Contracts\b", "Rattle.laddertick.specs.HostContracts", t)
    if p.endswith("crates/laddertick/specs/Lib.antt"):
        t = re.sub(r"(?m)^pub mod Contracts$", "pub mod HostContracts", t)
    if t != text[p]:
        write(p, t)
listed = os.path.join(TOP, "crates.txt")
lines = read(listed).split("\n")
for i, line in enumerate(lines):
    if not line.startswith("#"):
        lines[i] = re.sub(r"(?<![\w])(%s)(?![\w])" % "|".join(CRATES), lambda m: CRATES[m[1]], line)
        lines[i] = re.sub(r"^laddertick_c:", "laddertick_c staticlib:", lines[i])
write(listed, "\n".join(lines))
for old, new in CRATES.items():
    os.rename(os.path.join(TOP, "crates", old), os.path.join(TOP, "crates", new))
os.rename(os.path.join(TOP, "crates/laddertick/specs/Contracts.antt"), os.path.join(TOP, "crates/laddertick/specs/HostContracts.antt"))
with open(os.path.join(TOP, "tools/port/names.tsv"), "w", encoding="utf-8") as f:
    for w in sorted(every | {w: snake(w) for w in dotted}):
        f.write(f"{w}\t{snake(w)}\n")
print(f"names: {len(every)} words, {len(dotted)} fields")
