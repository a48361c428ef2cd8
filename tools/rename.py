#!/usr/bin/env python3
"""Brings this repository's own definitions and lemmas to snake case, once, after the toolchain's scripts.

usage: python3 tools/rename.py [--dry]      at the top of the repository

A name is renamed if it is declared in a file of specs/ or proofs/, or is another name for an import, and begins with
a small letter: a capital within it and a dash become an underscore. Types and facts, which begin with a capital, stay,
and so do fields (a name after a dot) and the goals and steps that the check names. It goes by text.
The library's AllByRecursion goes by its own name, since All is another word of the library now.
"""
import os
import re
import sys

WORD = re.compile(r"(?<![\w'\-◌.«])([A-Za-z_][\w'\-]*)(?![\w'\-◌])")
HEAD = re.compile(r"^ *(?:(?:pub|abbrev|unfoldable)\s+)*([A-Za-z_][\w'\-]*) :")
ALIAS = re.compile(r"\w as ([a-z]+[A-Z]\w*)(?=[,}])")
# names that would fall together with another name
OTHER = {
    "bit-or": "bit_of_or",
    "bits-from": "bits_from_place",
    "chunkPrice": "price_of_chunk",
    "count-indices": "count_of_indices",
    "fromBits": "number_of_bits",
    "indices-fault": "indices_fault_is",
    "last-of": "last_of_list",
    "runs-fault": "runs_fault_is",
    "word-bit": "word_bit_is",
    "keptFrom": "kept_between_places",
    "pext-from": "pext_from_bits",
    "sparseLimit": "limit_at_width",
    "window-bits": "bits_of_window",
    "wordCount": "count_of_words",
}


def files():
    for folder, dirs, names in os.walk("crates"):
        dirs[:] = sorted(d for d in dirs if d not in ("out", "must-fail", "data"))
        for name in sorted(names):
            if name.endswith((".antt", ".rt")):
                yield os.path.join(folder, name)


def snake(name):
    if name in OTHER:
        return OTHER[name]
    name = re.sub(r"(?<=[a-z0-9])([A-Z])", lambda m: "_" + m[1].lower(), name)
    return re.sub(r"-([A-Z])", lambda m: "_" + m[1].lower(), name).replace("-", "_")


def main():
    texts = {p: open(p, encoding="utf-8").read() for p in files()}
    everything = "\n".join(texts.values())
    own = {}
    for p, t in texts.items():
        if not p.endswith(".antt"):
            continue
        for line in t.split("\n"):
            m = HEAD.match(line)
            if m and not re.search(r": (?:goal|given)\.", line) and not m[1][0].isupper():
                # what stands behind a dot somewhere is a field
                if snake(m[1]) != m[1] and not (line.startswith(" ") and "." + m[1] in everything):
                    own[m[1]] = snake(m[1])
    words = {}
    for p, t in texts.items():
        for m in WORD.finditer(t):
            words.setdefault(m[1], set()).add(p)
    bad = False
    seen = {}
    for old, new in sorted(own.items()):
        if new in seen:
            print(f"{old} and {seen[new]} would both be {new}")
            bad = True
        seen[new] = old
        if new in words:
            print(f"{old} -> {new}, which stands in {sorted(words[new])[:4]}; {old} in {sorted(words[old])[:4]}")
            bad = True
    if "--dry" in sys.argv or bad:
        print(len(own), "names")
        return 1 if bad else 0
    for p, t in texts.items():
        here = {m[1]: snake(m[1]) for m in ALIAS.finditer(t)}
        if "AllByRecursion as All" in t:
            t = t.replace("AllByRecursion as All", "AllByRecursion")
            here["All"] = "AllByRecursion"
        new = WORD.sub(lambda m: here.get(m[1], own.get(m[1], m[1])), t)
        t = texts[p]
        if new != t:
            open(p, "w", encoding="utf-8").write(new)
    print(len(own), "names")
    return 0


if __name__ == "__main__":
    sys.exit(main())
