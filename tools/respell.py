#!/usr/bin/env python3
"""Respells this repository's own definitions and lemmas: words in snake case, and a dash only between two operations.

usage: python3 tools/respell.py [FOLDER]     (FOLDER: the top of the repository, by default the current folder)

A name is respelled where a file of specs/ or proofs/ defines it: by a signature, as a field of a record, or in a `let`.
Names that Rattle makes (goals, steps, arms) and names of the library keep their spelling, and so do functions of src/.
Two names that would fall together stop it, and then nothing is written.
"""

import glob
import os
import re
import sys

# Operations: a lemma that is named by the operations of its left side keeps the dash between them, as `mul-zero` and `length-powers`.
HEADS = {"length", "lin", "mod", "mul", "pow", "add", "neg", "inv", "one", "act", "get_or", "map", "multiples", "bits", "number"}
OPERATIONS = HEADS | {"zero", "scale", "plus", "powers", "coefficients", "xor", "append", "set"}

NAME = r"[^\W\d][\w']*(?:-[\w']+)+"
SIGNATURE = re.compile(r"^\s*(?:(?:abbrev|unfoldable|pub)\s+)*(" + NAME + r")\s*:\s*(?!=)(goal\.)?")
LOCAL = re.compile(r"\b(?:let|where)\s+(" + NAME + r")\s*[:=]")
IMPORT = re.compile(r"use (?:Rattle\.std|mathlib|native|lib|borrow|denote|Prim)[\w'.]*\.\{([^}]*)\}")
PLAIN = {"getD-plus": "get_or-plus", "getD-scaled": "get_or-scaled", "bit-xor": "bit_of_xor"}


def respelled(name):
    if name in PLAIN:
        return PLAIN[name]
    parts = name.split("-")
    out, joined = parts[0], parts[0] in HEADS
    for part in parts[1:]:
        joined = joined and part in OPERATIONS
        out += ("-" if joined else "_") + part
    return out


def main():
    top = sys.argv[1] if len(sys.argv) > 1 else "."
    logic = sorted(p for kind in ("specs", "proofs") for p in glob.glob(f"{top}/crates/*/{kind}/**/*.antt", recursive=True))
    code = sorted(glob.glob(f"{top}/crates/*/src/**/*.rt", recursive=True))
    docs = sorted(glob.glob(f"{top}/docs/*.md")) + [f"{top}/README.md"]
    texts = {p: open(p, encoding="utf-8").read() for p in logic + code + docs if os.path.isfile(p)}
    own, library, defined = set(), set(), {}
    for p in logic:
        for line in texts[p].split("\n"):
            m = SIGNATURE.match(line)
            if m and not m[2]:
                own.add(m[1])
                defined.setdefault(p, set()).add(m[1])
            own.update(LOCAL.findall(line))
            m = re.match(r"^\s*(?:(?:abbrev|unfoldable|pub)\s+)*([^\W\d][\w'-]*)\s*:\s*(?!=)", line)
            if m:
                defined.setdefault(p, set()).add(m[1])
    for t in texts.values():
        for items in IMPORT.findall(t):
            library.update(w.split(" as ")[0].strip() for w in items.split(","))
    turn = {n: respelled(n) for n in own - library if respelled(n) != n}
    for p, names in defined.items():
        seen = {}
        for n in sorted(names):
            seen.setdefault(turn.get(n, n), []).append(n)
        for new, old in seen.items():
            if len(old) > 1:
                raise SystemExit(f"{p}: {', '.join(old)} would all be {new}")
    for new in sorted(set(turn.values()) & library):
        raise SystemExit(f"{new} is a name of the library: {[n for n in turn if turn[n] == new]}")
    if not turn:
        print("respell: nothing to do")
        return
    names = re.compile(r"(?<![\w'-])(" + "|".join(sorted(map(re.escape, turn), key=len, reverse=True)) + r")(?![\w'-])")
    files = 0
    for p, t in texts.items():
        if p.endswith(".md"):
            new = re.sub(r"`[^`\n]*`", lambda m: names.sub(lambda w: turn[w[1]], m[0]), t)
        else:
            new = names.sub(lambda w: turn[w[1]], t)
        if new != t:
            files += 1
            with open(p, "w", encoding="utf-8") as f:
                f.write(new)
    print(f"respell: {len(turn)} names in {files} files")


if __name__ == "__main__":
    main()
