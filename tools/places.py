#!/usr/bin/env python3
"""Counts the places of the design pass (docs/DESIGN-PASS.md) in crates/*/src and the answers in crates/*/proofs; -v lists them.

1  enums    own enums in the shape of Option or Result: one variant of two carries nothing, or a variant tells a fault
1  flags    fields `NAME: bool` of a struct that has other fields
1  numbers  lines that tell a refusal or a fault by a number
2  twins    pairs of functions with bodies of five lines or more that are one text but for names, numbers and strings
3  loops    `while` loops that step a counter of their condition by one
4  by hand  functions that are a match to true and false over kinds, or one cast, and lines that make a decimal digit
5  facts    clauses `requires` with a fact that three or more contracts of one crate set ask for; and functions that take `table` with `n`
6  lengths  struct fields that count what lies in an array beside them
7  switches matches on a step or a mode; tables of functions
8  answers  answers in proofs/**/Answers.antt
"""
import glob, re, sys
from collections import Counter
verbose = "-v" in sys.argv[1:]
files = {f: open(f).read() for f in sorted(glob.glob("crates/*/src/**/*.rt", recursive=True))}
rows = []
def row(point, name, places):
    rows.append((point, name, places))
def line_of(text, at):
    return text.count("\n", 0, at) + 1
FAULT = re.compile(r"^(Refused|Wrong|Failed|Deep|Clash|Faulty)$")
enums, flags, numbers, loops, hand, facts, lengths, switches, functions = [], [], [], [], [], [], [], [], []
for f, s in files.items():
    for m in re.finditer(r"^(?:pub )?enum (\w+)[^{]*\{\n(.*?)^\}", s, re.M | re.S):
        variants = re.findall(r"^    (\w+)(\()?", m[2], re.M)
        names = [v[0] for v in variants]
        bare = [v[0] for v in variants if not v[1]]
        option = len(variants) == 2 and len(bare) == 1
        if option or any(FAULT.match(n) for n in names) and len(names) > 1 and any(v[1] for v in variants):
            enums.append(f"{f}:{line_of(s, m.start())} {m[1]}")
    for m in re.finditer(r"^(?:pub )?struct (\w+)[^{;]*\{\n(.*?)^\}", s, re.M | re.S):
        fields = re.findall(r"^    (?:pub )?(\w+): (.*),$", m[2], re.M)
        if len(fields) > 1:
            flags += [f"{f}:{line_of(s, m.start())} {m[1]}.{n}" for n, t in fields if t == "bool"]
        arrays = [n for n, t in fields if t.startswith("[") or t in ("Table", "Run", "Row", "Words")]
        if arrays:
            lengths += [f"{f}:{line_of(s, m.start())} {m[1]}.{n}" for n, t in fields if t == "usize" and n in ("count", "cells", "events", "n", "len")]
    for i, l in enumerate(s.split("\n"), 1):
        if re.search(r"Refused\((\d+|u8|number)\b|^fn short_fault.*-> u8|Err\(\d+\)", l): numbers.append(f"{f}:{i} {l.strip()}")
        if "b'0' +" in l: hand.append(f"{f}:{i} {l.strip()}")
        if re.search(r"match (step|mode|state|phase)\b|\[fn\(", l) and "EventStep" not in s and "CellStep" not in s: switches.append(f"{f}:{i} {l.strip()}")
    lines = s.split("\n")
    for i, l in enumerate(lines):
        m = re.match(r"^(\s*)while (.*) \{$", l)
        if not m: continue
        body = []
        for k in lines[i + 1:]:
            if k == m[1] + "}": break
            body.append(k)
        if any(re.search(rf"\b{re.escape(w)}\b", m[2]) for w in re.findall(r"^\s*(\w+) [+-]= 1;", "\n".join(body), re.M)):
            loops.append(f"{f}:{i + 1} {l.strip()}")
    for m in re.finditer(r"^( *)(?:pub )?(?:extern \"C\" )?fn (\w+)((?:(?!^\1\}).)*?)(?:^\1\{| \{)\n(.*?)^\1\}", s, re.M | re.S):
        name, head, body = m[2], m[3], m[4]
        place = f"{f}:{line_of(s, m.start())} {name}"
        functions.append((place, body))
        arms = re.findall(r"=> ([^\n]*),\n", body)
        if re.match(r"\s*(let \w+ = [^\n]*\n\s*)?match ", body) and len(arms) >= 3 and all(a in ("true", "false") for a in arms): hand.append(place)
        if re.fullmatch(r"\s*\w+ as \w+\s*", body): hand.append(place)
        for c in re.findall(r"requires (?:\w+ )?\{ (.*?) \}\n", head, re.S):
            for w in set(re.findall(r"\b(TableWords|RunWords|Kept|Solved|ClassRow|MarkRow|LowClasses|LowParts|Given|Whole|Lacking|Lower)\b", c)): facts.append((w, place))
def shape(body):
    t = re.sub(r"//[^\n]*", "", body); t = re.sub(r'b?"[^"]*"|b?\'[^\']*\'', "S", t)
    return re.sub(r"\s+", " ", re.sub(r"\b\d+\b", "0", re.sub(r"\b(?!let|mut|if|else|while|for|in|match|return|loop|true|false)[A-Za-z_]\w*\b", "x", t)))
shapes = {}
for place, body in functions:
    if body.count("\n") >= 5: shapes.setdefault(shape(body), []).append(place)
twins = [" ~ ".join(v) for v in shapes.values() if len(v) > 1]
count = Counter(w for w, _ in facts)
travel = []
for f, s in files.items():
    for m in re.finditer(r"fn (\w+)[^(]*\(([^)]*)\)", s):
        if re.search(r"\btable: &(?:'\w+ )?\w+,\s*n: usize", m[2]): travel.append(f"{f}:{line_of(s, m.start())} {m[1]}")
answers = []
for f in sorted(glob.glob("crates/*/proofs/**/Answers.antt", recursive=True)):
    answers += [f"{f} {g}" for g in re.findall(r"^pub (\S+) : goal\.", open(f).read(), re.M)]
row(1, "enums", enums); row(1, "flags", flags); row(1, "numbers", numbers); row(2, "twins", twins); row(3, "loops", loops); row(4, "by hand", hand)
row(5, "facts", [f"{p} {w}" for w, p in facts if count[w] >= 3]); row(5, "table, n", travel); row(6, "lengths", lengths); row(7, "switches", switches); row(8, "answers", answers)
for point, name, places in rows:
    print(f"{point}  {name:10} {len(places)}")
    if verbose: print("".join(f"     {p}\n" for p in places), end="")
if verbose: print("facts:", dict(count))
