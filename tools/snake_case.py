#!/usr/bin/env python3
"""Brings the repository's own definitions and lemmas to snake case.

usage: python3 tools/snake_case.py     at the top of the repository, right after the kit's port.py

A name is renamed if it is declared in a specs/ or proofs/ file (a signature, a record or one of its fields, a local
name, a bound variable) and has a dash or a capital within a lower-case name. Goals, which the prover names, and the
library's names stay. Functions of src/, strings, inputs and outputs are left alone: in src/ only clauses, ghost lines
and comments change. Names in backquotes in README.md and docs/ follow.
"""

import glob
import re
import sys

# a tactic has this name
SPECIAL = {"first_of": "first_length_of"}

PROOFS = sorted(glob.glob("crates/*/specs/**/*.antt", recursive=True) + glob.glob("crates/*/proofs/**/*.antt", recursive=True))
SOURCES = sorted(glob.glob("crates/*/src/**/*.rt", recursive=True))
PAGES = sorted(["README.md"] + glob.glob("docs/*.md"))
NAME = r"[A-Za-z_][\w'\-]*"


def read(path):
    with open(path, encoding="utf-8") as f:
        return f.read()


def snake(name):
    name = re.sub(r"([a-z])([A-Z])", lambda m: m.group(1) + "_" + m.group(2).lower(), name)
    return name.replace("-", "_")


def declared():
    found, goals, library = set(), set(), set()
    for path in PROOFS:
        for line in re.sub(r"--[^\n]*", "", read(path)).split("\n"):
            m = re.match(r"\s*use (?:Rattle\.std|mathlib|Prim|native|lib)\b[^{]*\{([^}]*)\}", line)
            if m:
                library |= {x.strip() for n in m.group(1).split(",") for x in n.split(" as ")}
            goals |= set(re.findall(r"goal\.([\w\-']+)", line))
            m = re.match(rf"\s*(?:pub |abbrev |unfoldable )*({NAME})\s*:", line)
            if m and "goal." not in line:
                found.add(m.group(1))
            m = re.match(rf"\s*(?:pub )?(?:record|data|module)\s+({NAME})", line)
            if m:
                found.add(m.group(1))
            found |= set(re.findall(rf"let ({NAME})\s*[:=]", line))
            for names in re.findall(r"[({]([A-Za-z_][\w'\- ]*?) :", line) + re.findall(r"λ ([A-Za-z_][\w'\- ]*?)\.", line):
                found |= set(names.split())
    mine = {n for n in found if n[0].islower() and ("-" in n or re.search(r"[a-z][A-Z]", n))}
    return found, mine - goals - library


def main():
    found, mine = declared()
    names = {n: snake(n) for n in mine} | {n: m for n, m in SPECIAL.items() if n in found}
    clash = [n for n, m in names.items() if m in found or sum(m == k for k in names.values()) > 1]
    if clash:
        sys.exit(f"names that would fall together: {sorted(clash)}")

    token = re.compile(r"[^\s(){}\[\],;.:«»`\"]+")

    def turned(text):
        return token.sub(lambda m: names.get(m.group(0), m.group(0)), text)

    def source(text):
        # strings stay as they are
        return "".join(p if i % 2 else turned(p) for i, p in enumerate(re.split(r"(\"(?:[^\"\\\n]|\\.)*\")", text)))

    def page(text):
        return re.sub(r"`[^`\n]+`", lambda m: turned(m.group(0)), text)

    changed = 0
    for paths, turn in ((PROOFS, turned), (SOURCES, source), (PAGES, page)):
        for path in paths:
            old = read(path)
            new = turn(old)
            if new != old:
                changed += 1
                with open(path, "w", encoding="utf-8") as f:
                    f.write(new)
    print(f"{len(names)} names, {changed} files")


main()
