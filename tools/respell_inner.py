#!/usr/bin/env python3
"""Brings the definitions that stand inside `module _` blocks of specs/ to snake case, once, after respell.py.

usage: python3 tools/respell_inner.py [--dry]      at the top of the repository
"""

import collections
import glob
import re
import sys

sys.path.insert(0, "tools")
TOKEN = re.compile(r'"(?:[^"\\\n]|\\.)*"|[^\s(){}\[\],;.@"`]+')


def lower(name):
    name = re.sub(r"([a-z0-9'])([A-Z])", lambda m: m.group(1) + "_" + m.group(2).lower(), name)
    return re.sub(r"([A-Z])", lambda m: m.group(1).lower(), name)


def main():
    new = {}
    for p in sorted(glob.glob("crates/*/specs/**/*.antt", recursive=True)):
        inside = False
        for l in open(p, encoding="utf-8"):
            if l[:1] not in (" ", "\n", "-"):
                inside = l.startswith("module")
            m = re.match(r"^ +(?:abbrev |unfoldable |pub )*([a-z][A-Za-z0-9_']*[A-Z][A-Za-z0-9_']*)(?: |$)", l)
            if m and inside:
                new[m.group(1)] = lower(m.group(1))
    met = collections.defaultdict(list)
    kinds = ["crates/*/specs/**/*.antt", "crates/*/proofs/**/*.antt", "crates/*/src/**/*.rt", "crates/*/must-fail/*.edit"]
    for p in sorted(q for k in kinds for q in glob.glob(k, recursive=True) if "/out/" not in q):
        text = open(p, encoding="utf-8").read()
        words = set(TOKEN.findall(text))
        for w in words & set(new):
            if new[w] in words and not p.endswith(".rt"):
                met[w, new[w]].append(p)
        got = TOKEN.sub(lambda m: new.get(m.group(0), m.group(0)), text)
        if got != text and "--dry" not in sys.argv:
            open(p, "w", encoding="utf-8").write(got)
    for p in sorted(q for k in ["README.md", "docs/**/*.md"] for q in glob.glob(k, recursive=True)):
        text = open(p, encoding="utf-8").read()
        got = re.sub(r"(?<![\w-])[a-z]\w*[A-Z]\w*(?![\w-])", lambda m: new.get(m.group(0), m.group(0)), text)
        if got != text and "--dry" not in sys.argv:
            open(p, "w", encoding="utf-8").write(got)
    for k, v in sorted(met.items()):
        print("met:", *k, v)
    print(len(new), "names")


main()
