#!/usr/bin/env python3
"""What stands together in contracts: each clause that three or more functions of a crate have,
and each two parameters that three or more functions of a crate have, with how many they are.
Usage: together.py [FOLDER], from the top of the repository by default."""

import collections
import glob
import itertools
import os
import re
import sys

root = sys.argv[1] if len(sys.argv) > 1 else "."
clauses = collections.Counter()
pairs = collections.Counter()
for path in sorted(glob.glob(os.path.join(root, "crates/*/src/*.rt"))):
    crate = os.path.relpath(path, root).split(os.sep)[1]
    text = open(path).read()
    for word, fact in re.findall(r"^ *(requires|ensures)(?: [a-z_]+)? \{ (.*) \}$", text, re.M):
        clauses[crate, word, fact] += 1
    for parameters in re.findall(r"\bfn \w+(?:<[^(]*>)?\(([^)]*)\)", text):
        names = {p.strip() for p in re.findall(r"(\w+)\s*:", parameters)}
        for pair in itertools.combinations(sorted(names), 2):
            pairs[(crate,) + pair] += 1

print("clauses")
for (crate, word, fact), n in sorted(clauses.items(), key=lambda e: (e[0][0], -e[1])):
    if n >= 3:
        print(f"{crate} {n} {word} {fact}")
print("parameters")
for (crate, a, b), n in sorted(pairs.items(), key=lambda e: (e[0][0], -e[1])):
    if n >= 3:
        print(f"{crate} {n} {a}, {b}")
