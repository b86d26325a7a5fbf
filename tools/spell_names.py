#!/usr/bin/env python3
"""Spells the repository's own definitions and lemmas as today's Rattle does: words in snake case, types and facts in camel case.

usage: python3 tools/spell_names.py [--list]      at the top, once, right after port.py; --list only prints the names

It turns names that .antt files of this repository declare. It leaves functions, fields, types and constants of src/, names that
Rattle makes (goals and steps in proofs/F/), names of the kit, strings and comments of .rt files. Edits in must-fail/ are turned alike.
"""
import os, re, sys

WORD = r"[A-Za-z0-9_'+₀-₉-]+"
DECL = re.compile(r"^\s*(?:(?:pub|unfoldable|abbrev|record|data|module) +)*(" + WORD + r")((?: +[({][^:]*:[^)}]*[)}])*) +:( |$)")
IMPORT = re.compile(r"use +([A-Za-z][^\s;{]*?)\.?(?:\{([^}]*)\}|\s|;|$)", re.S)


def files(root, *ends):
    for folder, dirs, names in os.walk(os.path.join(root, "crates")):
        dirs[:] = sorted(d for d in dirs if d not in ("out", ".git"))
        for n in sorted(names):
            if n.endswith(ends):
                yield os.path.join(folder, n)


def is_walk(path):
    """a file of a function's proof, whose goals Rattle names"""
    return os.path.basename(path) in ("Proof.antt", "Invariants.antt", "Answers.antt")


def ours(module):
    m = re.match(r"Rattle\.(\w+)\.", module + ".")
    return bool(m) and m.group(1) in CRATES


def spell(name):
    if name in SPECIAL:
        return SPECIAL[name]
    if name[0].isupper():
        return "".join(p[:1].upper() + p[1:] for p in name.split("-"))
    return name.replace("-", "_")


SPECIAL = {
    "P1-file": "p1_file", "P3-file": "p3_file", "P8-file": "p8_file", "P8-rows": "p8_rows", "P8-answered": "p8_answered",
    "bothTy": "both_ty", "jobTy": "job_ty", "rowsTy": "rows_ty",
}

root = "."
CRATES = {c for c in os.listdir(os.path.join(root, "crates")) if os.path.isdir(os.path.join(root, "crates", c))}
texts = {p: open(p, encoding="utf-8").read() for p in files(root, ".antt", ".rt", ".edit")}

kit, declared, goals = set(), {}, {}
for p, t in texts.items():
    if p.endswith(".edit"):
        continue
    for m in IMPORT.finditer(t):
        if m.group(2) is not None and not ours(m.group(1)):
            for item in m.group(2).split(","):
                words = item.split()
                kit.update(w for w in words if w not in ("as", "pub"))
for p, t in texts.items():
    if not p.endswith(".antt"):
        continue
    for line in t.split("\n"):
        m = DECL.match(line)
        if not m:
            continue
        name = m.group(1)
        rest = line[m.end():].strip()
        if is_walk(p) and re.match(r"(tie|goal)\.", rest) and not re.match(r"(tie|goal)\.(Start|After|In)\b", rest):
            goals.setdefault(p, set()).add(name)
            continue
        declared.setdefault(name, set()).add(p)

turn = {n: spell(n) for n in declared if n not in kit and spell(n) != n and re.fullmatch(WORD, n)}
if "--list" in sys.argv:
    for n in sorted(turn):
        print(n, "->", turn[n])
taken = {n for n in declared if n not in turn}
back = {}
for n, s in turn.items():
    back.setdefault(s, set()).add(n)
for s, ns in sorted(back.items()):
    if len(ns) > 1 or s in taken or s in kit:
        print("falls together:", s, "<-", sorted(ns), "taken" if s in taken else "", "kit" if s in kit else "")
both = {n for n in declared if n in kit and "-" in n}
if both:
    print("named as the kit's:", sorted(both))
if "--list" in sys.argv:
    raise SystemExit

TOKEN = re.compile(r"(?<![A-Za-z0-9_'₀-₉◌-])(" + WORD + r")(?![A-Za-z0-9_'₀-₉-])")
FUNCTIONS = {f.replace("_", "-"): f for p, t in texts.items() if p.endswith(".rt") for f in re.findall(r"\bfn (\w+_\w+)", t)}


def turned(text, keep, walk=False):
    """each word of the text; in a function's proof the step of a call has the function's name, in its own spelling"""
    def one(m):
        word, dotted = m.group(1), text[m.start() - 1:m.start()] == "."
        if walk and dotted and word in FUNCTIONS:
            return FUNCTIONS[word]
        return turn[word] if word in turn and (dotted or word not in keep) else word
    return TOKEN.sub(one, text)


def turned_rt(text):
    """clauses and imports alone: `ghost use ..;` and what stands in { } behind requires, ensures or a ghost item"""
    out, i = [], 0
    for m in re.finditer(r"ghost use [^;]*;|\b(?:requires|ensures)\*?(?: +\w+)? *\{", text):
        if m.start() < i:
            continue
        end = m.end()
        if m.group(0).endswith("{"):
            depth = 1
            while depth:
                depth += {"{": 1, "}": -1}.get(text[end], 0)
                end += 1
        out += [text[i:m.start()], turned(text[m.start():end], set())]
        i = end
    return "".join(out) + text[i:]


changed = 0
for p, t in texts.items():
    if p.endswith(".rt"):
        new = turned_rt(t)
    elif p.endswith(".edit"):
        new, here = [], ""
        for line in t.split("\n"):
            if line.startswith("file: "):
                here = line
            elif line.startswith(("old: ", "new: ")):
                line = line[:5] + turned(line[5:], set())
            new.append(line)
        new = "\n".join(new)
    else:
        new = turned(t, goals.get(p, set()), is_walk(p))
    if new != t:
        changed += 1
        with open(p, "w", encoding="utf-8") as f:
            f.write(new)
print(f"{len(turn)} names, {changed} files")
