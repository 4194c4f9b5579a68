#!/usr/bin/env python3
"""Spells the definitions and lemmas of this repository in snake case, as the library does: asCell is as_cell, read-case-settled is read_case_settled.

usage: respell.py [--dry]        at the top of the repository, once

Names that the repository's own .antt files declare are respelled wherever they stand: in specs/, proofs/, clauses of .rt files and must-fail edits. A name that a file
imports from a library stays in that file. What Rattle makes (goals, and the fields of a goal's context) stays. Where a lemma would fall together with the definition that
it is about, it gets _lem.
"""

import collections
import os
import re
import sys

NAME = re.compile(r"[^\s(){}\[\].;,@\"«»:|`]+")
HEAD = re.compile(r"(?m)^ *(?:(?:pub|abbrev|unfoldable|data|record|mutual|opaque) +)*([^\s(){}.;,@\"«»:]+)(?: +[({][^\n]*?[)}])* +:(?!:)")
USE = re.compile(r"(?m)^ *(?:pub )?(?:ghost )?use +([^\s;{]+?)\.?\{([^}]*)\}")
LIBRARY = re.compile(r"(mathlib|Prim|native|lib|borrow|denote|Rattle\.(std|core|std_\w+|io|libc))\b")
OTHERS = {"read_as": "read_as_lem", "in_cell": "in_cell_lem"}
MADE = re.compile(r"tie\.|goal\.|statement\b")


def in_snake_case(name):
    if not re.match(r"[a-z]", name):
        return name.replace("-", "_") if re.match(r"[A-Z][\w'-]*$", name) else name
    words = re.sub(r"(?<=[a-z0-9])[A-Z]", lambda m: "_" + m[0].lower(), name)
    return words.replace("-", "_")


def files(ends):
    for folder, dirs, names in os.walk("."):
        dirs[:] = sorted(d for d in dirs if d not in ("out", ".git", "target"))
        for n in sorted(names):
            if n.endswith(ends):
                yield os.path.join(folder, n)


def read(p):
    with open(p, encoding="utf-8") as f:
        return f.read()


def is_walk(p):
    return os.path.basename(p) in ("Proof.antt", "Answers.antt", "Invariants.antt")


def declared(p, text):
    for m in HEAD.finditer(text):
        name = m[1]
        if is_walk(p):
            line = text[m.start():text.find("\n", m.start())]
            if MADE.search(line) or name.startswith(("invariant-", "decreases-")) or name.endswith("-spec"):
                continue
        yield name


def main(words):
    dry = "--dry" in words
    antt = {p: read(p) for p in files(".antt")}
    names = collections.defaultdict(set)
    for p, t in antt.items():
        for n in declared(p, t):
            names[n].add(p)
    table = {n: in_snake_case(n) for n in names if in_snake_case(n) != n}
    table |= OTHERS
    for n, m in list(table.items()):
        if "-" in n and (m in names or sum(m == o for o in table.values()) > 1):
            table[n] = m + "_lem"
    taken = collections.defaultdict(list)
    for n, m in table.items():
        taken[m].append(n)
    for m, ns in taken.items():
        if len(ns) > 1 or (m in names and m not in OTHERS):
            print("falls together:", m, ns, sorted(names.get(m, []))[:3])
    functions = set()
    for p in files(".rt"):
        functions |= set(re.findall(r"\bfn (\w+)", read(p)))
    print("as functions of src:", sorted(m for m in taken if m in functions))
    fields = set()
    for t in antt.values():
        for m in re.finditer(r"(?m)^  (?:pub )?([^\s(){}.;,@\"«»:]+) +:(?!:)", t):
            fields.add(m[1])
    count = 0
    for p in files((".antt", ".rt", ".edit")):
        t = read(p)
        kept = set()
        for u in USE.finditer(t):
            if LIBRARY.match(u[1]):
                kept |= {w.strip().split(" as ")[-1] for w in u[2].split(",")} | {w.strip().split(" as ")[0] for w in u[2].split(",")}
        present = set(NAME.findall(t))

        def turn(m):
            n = m[0]
            if n not in table or n in kept:
                return n
            if m.start() and t[m.start() - 1] == "." and is_walk(p) and n not in fields:
                return n
            if table[n] in present and table[n] not in names:
                clash.add((n, p))
            return table[n]

        clash = set()
        new = NAME.sub(turn, t)
        for c in sorted(clash):
            print("stands there already:", c)
        if new != t:
            count += 1
            if not dry:
                with open(p, "w", encoding="utf-8") as f:
                    f.write(new)
    print(len(table), "names,", count, "files")


main(sys.argv[1:])
