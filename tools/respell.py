#!/usr/bin/env python3
"""Brings the repository's own definitions and lemmas to today's spelling, once, right after port.py.

usage: python3 tools/respell.py [--dry]      at the top of the repository

A definition is in snake case. In a lemma's name a dash joins two names; plain words are joined by `_`.
Names of src/, of std and of Rattle's own making stay; so do strings. The words of pages (README, docs/) follow.
A lemma that would fall together with a definition gets `_lem`.
"""

import collections
import glob
import re
import sys

TOKEN = re.compile(r'"(?:[^"\\\n]|\\.)*"|[^\s(){}\[\],;.@"`]+')
HEAD = re.compile(r"^(?:(?:abbrev|unfoldable|pub|record|data)\s+)*([^\s:(){}]+)(?:\s*[({][^)}]*[)}])*\s*:\s")
FIELD = re.compile(r"^  (?:pub )?([a-z][\w'-]*)(?: [a-z][\w'-]*)* :\s")
WORDS = set(
    "add sub mul div mod pow le lt eq ne pos zero suc cons nil not and or if append length take drop get_or "
    "get set map min max head tail foldl foldr reverse".split()
)
# names of one file's own, which would fall together with a definition that it takes: (file, name)
OWN = {("crates/evf_video/proofs/Answers.antt", "from_start")}


def crates():
    return sorted(p.split("/")[1] for p in glob.glob("crates/*/src"))


def files(kinds):
    out = []
    for k in kinds:
        out += glob.glob(k, recursive=True)
    return sorted(set(p for p in out if "/out/" not in p))


def snake(word):
    w = re.sub(r"([a-z0-9])([A-Z])", r"\1_\2", word)
    w = re.sub(r"([A-Z]+)([A-Z][a-z])", r"\1_\2", w)
    return w


def lower(name):
    """isMouse to is_mouse; a capital that begins a name is a fact's and stays"""
    parts = []
    for part in name.split("-"):
        if re.match(r"^[a-z]", part):
            part = re.sub(r"([a-z0-9'])([A-Z])", lambda m: m.group(1) + "_" + m.group(2).lower(), part)
            part = re.sub(r"([A-Z])", lambda m: m.group(1).lower(), part)
        parts.append(part)
    return "-".join(parts)


def defined():
    """The names that the repository's files of definitions and lemmas make, with the file."""
    specs, lemmas, fields = collections.defaultdict(set), collections.defaultdict(set), collections.defaultdict(set)
    for p in files(["crates/*/specs/**/*.antt", "crates/*/proofs/**/*.antt"]):
        if re.search(r"/(Proof|Answers|Invariants)\.antt$", p):
            continue
        into = specs if "/specs/" in p else lemmas
        lines = open(p, encoding="utf-8").read().split("\n")
        inside = False
        for i, l in enumerate(lines):
            if l and l[0] not in " -":
                inside = bool(re.match(r"(?:pub )?(?:record|data)\b", l))
                if not re.match(r"(use|pub use|mod|pub mod|infix\w*|syntax|ruleset|pub ruleset|unfolding)\b", l):
                    m = HEAD.match(l + " ")
                    if m:
                        into[m.group(1)].add(p)
            elif inside:
                m = FIELD.match(l)
                if m:
                    fields[m.group(1)].add(p)
    return specs, lemmas, fields


def foreign(text, own):
    """The names that a file takes from libraries that are not the repository's."""
    out = set()
    for m in re.finditer(r"\buse\s+([\w.\u00b7'+-]+?)\.\{([^}]*)\}", text):
        root = m.group(1).split(".")
        if root[0] == "Rattle" and len(root) > 1 and root[1] in own:
            continue
        for n in re.split(r"[,\s]+", m.group(2)):
            out.add(n)
    return out


def table():
    specs, lemmas, fields = defined()
    new = {}
    for n in list(specs) + list(fields):
        if re.search(r"\u25cc", n) or n[:1].isupper():
            continue
        t = lower(n).replace("-", "_")
        if t != n:
            new[n] = t
    names = {lower(n) for n in specs} | WORDS
    for n in lemmas:
        if n in specs or re.search(r"\u25cc", n):
            continue
        t = lower(n)
        parts = t.split("-")
        if len(parts) > 1 and all(parts):
            out = parts[0]
            for a, b in zip(parts, parts[1:]):
                last = a[:1].isupper() or a in names
                out += ("-" if last and (b[:1].isupper() or b in names) else "_") + b
            t = out
        if t != n:
            new[n] = t
    made = {new.get(n, n) for n in specs}
    ended = {}
    for n in lemmas:
        t = new.get(n, n)
        if n not in specs and t in made:
            if "-" in n or re.search(r"[A-Z]", n):
                new[n] = t + "_lem"
            else:
                ended[n] = t + "_lem"
    return {k: v for k, v in new.items() if k != v}, ended, specs, lemmas, fields


def apply(text, new, skip):
    def one(m):
        w = m.group(0)
        if w[0] == '"' or w in skip:
            return w
        return new.get(w, w)

    return TOKEN.sub(one, text)


def end(path, text, ended, lemmas):
    """Gives a lemma that is spelled as a definition now its ending, where it is made or taken."""
    for n, t in ended.items():
        homes = lemmas[n]
        takes = any(
            re.search(r"\buse\s+Rattle\." + h.split("/")[1] + r"\.proofs\." + h.split("/")[-1][:-5] + r"\.\{[^}]*(?<![\w-])" + n + r"(?![\w-])", text)
            for h in homes
        )
        if path in homes or takes:
            text = re.sub(r"(?<![\w.'-])" + n + r"(?![\w'-]|\.\w)", t, text)
    for p, n in OWN:
        if p == path:
            text = re.sub(r"(?<![\w.'-])" + n + r"(?![\w'-])", n + "_lem", text)
    return text


def main():
    own = set(crates())
    new, ended, specs, lemmas, fields = table()
    words_of_src = {k: v for k, v in new.items() if k in specs or k in fields}
    dry = "--dry" in sys.argv
    code = files(["crates/*/specs/**/*.antt", "crates/*/proofs/**/*.antt", "crates/*/src/**/*.rt", "crates/*/must-fail/*.edit"])
    met = collections.defaultdict(set)
    for p in code:
        text = open(p, encoding="utf-8").read()
        skip = foreign(text, own)
        words = set(TOKEN.findall(text))
        for w in words & set(new):
            if w in skip:
                continue
            if new[w] in words and not (p.endswith(".rt") and w in specs):
                met[(w, new[w])].add(p)
        got = text if p.endswith(".rt") else end(p, text, ended, lemmas)
        got = apply(got, words_of_src if p.endswith(".rt") else new, skip)
        if got != text and not dry:
            open(p, "w", encoding="utf-8").write(got)
    back = collections.defaultdict(set)
    for k, v in new.items():
        back[v].add(k)
    for v, ks in sorted(back.items()):
        if len(ks) > 1:
            print("two to one:", v, sorted(ks), sorted(set().union(*[specs.get(k, set()) | lemmas.get(k, set()) | fields.get(k, set()) for k in ks])))
    for (a, b), ps in sorted(met.items()):
        print("met:", a, b, sorted(ps)[:4])
    pages = files(["README.md", "docs/**/*.md", "oracle/**/*.md", "tools/*.md", "examples/**/*.md"])
    camel = {k: v for k, v in new.items() if k in specs and re.search(r"[a-z0-9][A-Z]", k)}
    for p in pages:
        text = open(p, encoding="utf-8").read()
        got = re.sub(r"(?<![\w-])[a-z]\w*[A-Z]\w*(?![\w-])", lambda m: camel.get(m.group(0), m.group(0)), text)
        if got != text and not dry:
            open(p, "w", encoding="utf-8").write(got)
    print(len(new), "names;", "ended:", ended)


main()
