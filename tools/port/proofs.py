#!/usr/bin/env python3
"""Turns the names of Rattle's own in the proofs of functions: the goals, places and steps that a Proof.antt cites.

usage: proofs.py NAMES TOP [CRATE..]    NAMES holds CRATE/names.json for each crate, as `rattle check --generated NAMES/CRATE --old-names` writes them

Run once, behind names.py. What it cannot turn it prints.
"""
import json
import os
import re
import sys

NAMES, TOP, only = sys.argv[1], sys.argv[2], sys.argv[3:]
W = r"[^\s(){}.;,@\"«»\[\]\\]+"
norm = lambda it: it.replace("-", "_")
KINDS = r"overflow|nonzero|bounds|slice_bounds|offset_bounds"


def functions(crate):
    with open(os.path.join(NAMES, crate, "names.json"), encoding="utf-8") as f:
        for key, of in json.load(f).items():
            m = re.fullmatch(r"Rattle-\w+-proofs\.(.*)\.Lts", key)
            if m:
                yield m[1], of


def turned(text, of, path, say):
    # goals
    goals = {}
    for old, new in of["needs"]:
        for o in (old, new):
            goals.setdefault(norm(o), new)
    for old, new in of["needs"]:
        goals[norm(old)] = new
        if norm(old) != norm(new):
            goals.setdefault(norm("overflow-" + old), new)
            goals.setdefault(norm("nonzero-" + old), new)
    places = {}
    for place, new in zip(of["places"], of["places_by_name"]):
        places.setdefault(norm(place[0]), new)
    loops = {}
    for (old, new), _ in of["loops"]:
        loops[old] = new

    def tie(m):
        kind, name = m[1], m[2]
        if kind == "Need-":
            if norm(name) in goals:
                return "tie.Need-" + goals[norm(name)]
            say(f"no goal {name}")
            return m[0]
        if kind in ("invariant-", "decreases-"):
            if name in loops:
                return f"tie.{kind}{loops[name]}"
            return m[0]
        return m[0]

    text = re.sub(r"(?<![\w.])tie\.(Need-|invariant-|decreases-)(%s)" % W, tie, text)

    def place(m):
        if norm(m[1]) in places:
            return "tie." + places[norm(m[1])]
        if m[1] not in ("close", "spec", "spec-by") and not m[1].startswith(("Need-", "invariant-", "decreases-")):
            say(f"no place {m[1]}")
        return m[0]

    text = re.sub(r"(?<![\w.])tie\.(%s)" % W, place, text)
    # steps and arms
    steps, fields = {}, {}
    for p in of["places"]:
        old, new = p[2]
        if old:
            steps.setdefault(norm(old), new)
            if p[4]:
                fields[norm(old)] = {**fields.get(norm(old), {}), **dict(p[4])}
    arms = []
    for arm in of["arms"]:
        if arm:
            for field, head, way in arm[2]:
                if way:
                    arms.append(((norm(head), *way), (arm[0], field)))
    arms = sorted(set(arms), key=lambda it: -len(it[0]))
    heads = {a[0][0] for a in arms}

    def inline(body):
        """A name that is let to the middle of an arm's path is written out."""
        while True:
            m = re.search(r"\blet (%s) = ((?:%s\.)+(%s)(?:\.(?:given|0|1|keys\d+))*) in\s*" % (W, W, W), body)
            found = None
            for m in re.finditer(r"\blet (%s) = ((?:%s\.)+%s) in\s*" % (W, W, W), body):
                parts = m[2].split(".")
                for i in range(1, len(parts)):
                    tail = tuple([norm(parts[i]), *parts[i + 1 :]])
                    if parts[i - 1] != "" and any(a[0][: len(tail)] == tail and len(a[0]) > len(tail) for a in arms):
                        found = m
                        break
                if found:
                    break
            if not found:
                return body
            m = found
            rest = re.sub(r"(?<![\w.'′-])%s(?=\.)" % re.escape(m[1]), lambda _: m[2], body[m.end() :])
            if re.search(r"(?<![\w.'′-])%s(?![\w'′-])" % re.escape(m[1]), rest):
                say(f"still uses {m[1]} = {m[2]}")
            body = body[: m.start()] + rest

    text = "\n\n".join(inline(b) for b in text.split("\n\n"))

    OUTER = ("args", "ranges", "requires", "auto", "well_formed")
    records = set()

    def chain(m):
        parts = m[0].split(".")
        if parts[0] in records:
            return m[0]
        out, i = [parts[0]], 1
        while i < len(parts):
            # What stands behind a step is a field of it.
            if out[-1] in OUTER or (i > 1 and parts[i - 1] != "before"):
                out += parts[i:]
                break
            for old, new in arms:
                if tuple([norm(parts[i]), *parts[i + 1 : i + len(old)]]) == old:
                    out += new
                    i += len(old)
                    break
            else:
                p = norm(parts[i])
                if p in steps:
                    out.append(steps[p])
                    if p in fields and i + 1 < len(parts) and parts[i + 1] in fields[p]:
                        out.append(fields[p][parts[i + 1]])
                        i += 1
                elif p in heads:
                    say(f"no arm for {'.'.join(parts[i:])}")
                    out.append(parts[i])
                else:
                    out.append(parts[i])
                i += 1
        return ".".join(out)

    code = []
    for line in text.split("\n"):
        if not line.strip():
            records.clear()
        for v, way in re.findall(r"\blet (%s) = ((?:%s\.)+%s) in\b" % (W, W, W), line):
            if way.split(".")[-1] in OUTER or norm(way.split(".")[-1]) in steps:
                records.add(v)
        if not re.match(r"\s*(--|use |pub use )", line):
            line = re.sub(r"(?<![\w.«])(?!tie\.)%s(?:\.%s)+" % (W, W), chain, line)
            # a step behind a parenthesis
            line = re.sub(r"(?<=\))(?:\.%s)+" % W, lambda m: chain(re.match(r".*", "x" + m[0]))[1:], line)
        code.append(line)
    text = "\n".join(code)
    # A field further out can be named from here, so a way to it needs no `.before`.
    text = re.sub(r"(?<![\w.'′-])(%s)(?:\.before)+(?=\.(?!before\b))" % W, r"\1", text)

    def outer(body):
        for m in list(re.finditer(r"\blet (%s) = (%s)((?:\.before)+) in\b" % (W, W), body)):
            rest = body[m.end() :]
            if not re.search(r"(?<![\w.'′-])%s(?![\w'′.-])" % re.escape(m[1]), rest):
                body = body.replace(m[0], f"let {m[1]} = {m[2]} in", 1)
        return body

    text = "\n\n".join(outer(b) for b in text.split("\n\n"))
    name = path.split(".")[-1]
    text = re.sub(r"(?<![\w.-])(\+?%s)(?![\w-])" % "[-_]".join(map(re.escape, re.split("[-_]", name + "_spec"))), name + "_spec", text)
    return text


for crate in sorted(os.listdir(NAMES)):
    if not os.path.isdir(os.path.join(NAMES, crate)) or (only and crate not in only):
        continue
    for path, of in functions(crate):
        file = os.path.join(TOP, "crates", crate, "proofs", *path.split("."), "Proof.antt")
        if not os.path.exists(file):
            continue
        with open(file, encoding="utf-8") as f:
            text = f.read()
        if "Tie as tie" not in text:
            continue
        said = []
        new = turned(text, of, path, said.append)
        if new != text:
            with open(file, "w", encoding="utf-8") as f:
                f.write(new)
        for s in dict.fromkeys(said):
            print(f"{crate} {path}: {s}")
