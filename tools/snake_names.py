#!/usr/bin/env python3
"""Brings this repository's own definitions and lemmas to the spelling of today's Rattle.

usage: python3 tools/snake_names.py [TOP]     (TOP: the checkout, else this folder)

Run once, right behind the kit's port.py. Definitions, lemmas, record fields and constructors of specs/ and proofs/ come
to snake case, and types to upper camel case: codes-of is codes_of, trueIn is true_in, One-script is OneScript. Names that
Rattle makes (those an answer gives a goal), names of src/ and strings stay. It names the pairs that would fall together and
then changes nothing.
"""

import os
import re
import sys

# types with a dash
TYPES = {
    n: "".join(w[0].upper() + w[1:] for w in n.split("-"))
    for n in (
        "Reads-its-bytes",
        "Refuses-first",
        "Refuses-the-first",
        "Reader-stands",
        "One-script",
        "Runs-one-script",
        "Read-as",
        "One-loaded",
        "Loads-one",
    )
}
# lemmas that would fall together with a definition
LEMMAS = {
    "first_some": "first-some",
    "run-from": "run_from_lem",
    "shortest-of": "shortest_of_lem",
    "spot-from": "spot_from_lem",
}
DECLARED = re.compile(
    r"^\s*(?:(?:abbrev|unfoldable|pub|ruleset)\s+)*([a-z][\w'-]*(?:\s+[a-z][\w'-]*)*)\s*:(?:\s|$)"
)


def texts(top):
    for folder, dirs, files in os.walk(os.path.join(top, "crates")):
        dirs[:] = sorted(d for d in dirs if d != "out")
        for f in sorted(files):
            if f.endswith((".antt", ".rt")):
                yield os.path.join(folder, f)


def snake(name):
    name = name.replace("-", "_")
    return re.sub(r"(?<=[a-z0-9])([A-Z])", lambda m: "_" + m.group(1).lower(), name)


def own_names(top):
    found = set()
    for path in texts(top):
        if not path.endswith(".antt"):
            continue
        with open(path, encoding="utf-8") as f:
            for line in f:
                if re.match(r"\s*(--|use\b|module\b)", line):
                    continue
                m = DECLARED.match(line)
                if m and not re.search(r":\s*goal\.", line):
                    found.update(m.group(1).split())
    return found


def main():
    top = sys.argv[1] if len(sys.argv) > 1 else "."
    names = own_names(top)
    turned = {n: LEMMAS.get(n, snake(n)) for n in names}
    back = {}
    for n in sorted(names):
        back.setdefault(turned[n], []).append(n)
    turned = {n: to for n, to in turned.items() if n != to}
    turned.update(TYPES)
    together = [ns for ns in back.values() if len(ns) > 1]
    for ns in together:
        print("fall together: " + ", ".join(ns))
    if together:
        return 1
    pattern = re.compile(
        r"(?<![\w'\-◌])(" + "|".join(re.escape(n) for n in sorted(turned, key=len, reverse=True)) + r")(?![\w'\-◌])"
    )
    changed = 0
    for path in texts(top):
        with open(path, encoding="utf-8") as f:
            old = f.read()
        new = pattern.sub(lambda m: turned[m.group(1)], old)
        if new != old:
            with open(path, "w", encoding="utf-8") as f:
                f.write(new)
            changed += 1
    print(f"{len(turned)} names turned in {changed} files")
    return 0


sys.exit(main())
