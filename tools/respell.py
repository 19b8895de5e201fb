#!/usr/bin/env python3
"""Respells the names of this repository's own definitions and lemmas: words in snake case (`nodeAt` is `node_at`, `drop-next` is `drop_next`).

usage: respell.py        at the top of the repository, right after the kit's port.py

Types, modules and facts keep their capitals, and so does a name that begins with one (`All-each`). A name that the library has too is left. Where a
file has both a definition's and a lemma's name, and they would be one name, the lemma gets `_lem`. What is left or gets `_lem` is printed.
"""

import os
import re
import sys

TOKEN = re.compile(r"(?<![\w'◌-])[A-Za-z][\w']*(?:-[\w']+)*(?![\w'◌])")
BARE = re.compile(r"(?<![\w'◌.-])[A-Za-z][\w']*(?:-[\w']+)*(?![\w'◌])")
DECLARED = re.compile(r"\s*(?:(?:abbrev|unfoldable|pub|constructor|field) )*([A-Za-z][\w'-]*(?:,? [A-Za-z][\w'-]*)*)(?: \{[^}]*\}| \([^)]*\))* :(?: |$)")


def files(ends):
    for folder, dirs, names in os.walk("crates"):
        dirs[:] = sorted(d for d in dirs if d != "out")
        for n in sorted(names):
            if n.endswith(ends):
                yield os.path.join(folder, n)


def read(p):
    with open(p, encoding="utf-8") as f:
        return f.read()


def snake(name):
    name = re.sub(r"(?<![a-z])getD(?![a-z])", "get_or", name).replace("-", "_")
    return re.sub(r"(?<=[a-z0-9'])([A-Z])", lambda m: "_" + m.group(1).lower(), name)


def wanted(name):
    return name[0].islower() and ("-" in name or re.search(r"[a-z0-9'][A-Z]", name))


def main():
    own = set(re.findall(r"^([a-z_0-9]+)(?: \w+)*:", read("crates.txt"), re.M))
    declared, imported, bare = set(), set(), {}
    for p in files((".antt",)):
        text = read(p)
        bare[p] = {m.group(0) for m in BARE.finditer(text)}
        if not p.endswith("Proof.antt"):
            declared |= {n for m in map(DECLARED.match, text.split("\n")) if m for n in re.split(r",? ", m.group(1))}
        for m in re.finditer(r"^use ([\w.◌+'-]+)\.\{([^}]*)\}", text, re.M):
            crate = re.match(r"Rattle\.(\w+)", m.group(1))
            if not (crate and crate.group(1) in own):
                imported |= {w.strip().split(" as ")[0] for w in m.group(2).split(",")}
    for n in sorted(n for n in declared & imported if wanted(n)):
        print(f"kept, as the library has it: {n}")
    names = {n: snake(n) for n in declared - imported if wanted(n)}
    lemmas = {}  # names in snake case already that give way to a definition
    for p, tokens in bare.items():
        for n in sorted(tokens & set(names)):
            new = snake(n)
            rivals = {o for o in tokens if o != n and snake(o) == new}
            if not rivals:
                continue
            if "-" in n:
                names[n] = new + "_lem"
            elif new in rivals and new in declared - imported:
                lemmas[new] = new + "_lem"
            elif new in rivals:
                print(f"look: {n} beside {new} in {p}")
    for n in sorted(lemmas):
        print(f"{n} gives way: {lemmas[n]}")
    print("with _lem:", *sorted(n for n in names if names[n].endswith("_lem")))
    count = 0
    for p in files((".antt", ".rt", ".edit")):
        text = read(p)
        new = TOKEN.sub(lambda m: names.get(m.group(0), m.group(0)), text) if not p.endswith(".antt") else text
        if p.endswith(".antt"):
            # a lemma that gives way first; a path, as `proofs.first_leaf.Goals`, is a name from the source
            new = BARE.sub(lambda m: lemmas.get(m.group(0), m.group(0)), text)
            new = TOKEN.sub(lambda m: names.get(m.group(0), m.group(0)), new)
        if p.endswith(".rt"):
            strings = r'"(?:[^"\\]|\\.)*"'
            if re.findall(strings, text) != re.findall(strings, new):
                print(f"look: a string moved in {p}")
        if new != text:
            count += 1
            with open(p, "w", encoding="utf-8") as f:
                f.write(new)
    print(f"{len(names) + len(lemmas)} names in {count} files")


if __name__ == "__main__":
    sys.exit(main())
