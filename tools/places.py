#!/usr/bin/env python3
"""Lists the places that docs/DESIGN-PASS.md counts, one line each, in src/ as it stands or at a commit.

    python3 tools/places.py [COMMIT]

It goes by text: it finds candidates, and says nothing of what is right.
"""
import collections
import re
import subprocess
import sys

commit = sys.argv[1] if len(sys.argv) > 1 else None


def git(*words):
    return subprocess.run(["git", *words], capture_output=True, text=True, check=True).stdout


def sources():
    names = (git("ls-tree", "-r", "--name-only", commit) if commit else git("ls-files", "-co", "--exclude-standard")).split("\n")
    for name in sorted(n for n in names if re.fullmatch(r"crates/\w+/src/.*\.rt", n)):
        text = git("show", f"{commit}:{name}") if commit else open(name).read()
        yield name.removeprefix("crates/").replace("/src/", "/"), text


def show(title, found):
    print(f"\n{title}: {len(found)}")
    for line in found:
        print("  " + line)


files = list(sources())


def lines(pattern, unless=None):
    found = []
    for name, text in files:
        for k, line in enumerate(text.split("\n"), 1):
            if re.search(pattern, line) and not (unless and re.search(unless, line)):
                found.append(f"{name}:{k}: {line.strip()}")
    return found


# Each function: where it stands, its name, its parameters and its clauses.
functions = []
for name, text in files:
    for m in re.finditer(r"^( *)(?:pub(?:\(crate\))? )?fn (\w+)", text, re.M):
        rest = text[m.end():]
        stop = re.search(r"\{\n|;\n", rest)
        head = rest[: stop.start()] if stop else rest
        params = re.findall(r"(?:^|[(,]\s*)(\w+): (?!\{)", head.split(" requires")[0].split("\n    ensures")[0])
        clauses = re.findall(r"^\s+(requires|ensures)(?: \w+)? \{ (.*) \}$", head, re.M)
        functions.append((name, m.group(2), params, clauses))

show("1 enums of our own", lines(r"\benum [A-Z]"))
show("1 fields and answers that are a flag or a pair of numbers", lines(r": bool\b|-> bool\b|-> (?:Option<)?\(u\d+, u\d+\)"))
show("1 comparisons with a constant that stands for a kind", lines(r"[=!]= [A-Z_]{3,}\b"))
shapes = collections.defaultdict(list)
for name, text in files:
    for m in re.finditer(r"^ *(?:pub(?:\(crate\))? )?fn (\w+).*?\n(?: *)\{\n(.*?)\n *\}\n", text, re.M | re.S):
        body = re.sub(r"\b[a-z_]+\b|\d+|\s+", lambda w: "x" if w.group()[0].isalpha() else ("0" if w.group()[0].isdigit() else ""), m.group(2))
        if len(body) > 24:
            shapes[body].append(f"{name} {m.group(1)}")
show("2 bodies of the same shape", [", ".join(v) for v in shapes.values() if len(v) > 1])
show("3 loops over a range of numbers", lines(r"\bfor \w+ in .*\.\."))
show("3 while and loop", lines(r"^\s*(while|loop)\b"))
show("3 places moved on by hand", lines(r"^\s*(at|pos|i|k|done|next|from|self\.at) \+= "))
show("4 getters by let", lines(r"let (\w+) = self\.\1;"))
show("4 values named before they are printed", [l for l in lines(r"let (\w+) = \w+\.(\w+)(\(\))?;", r"self\.|window|push\.|alloc\(\)") if re.match(r"\w+/main", l)])
show("4 lossless as", lines(r"(count_ones|count_zeros|trailing_zeros|leading_zeros|trailing_ones)\(\) as (u64|u128)"))
show("4 equality by hand", lines(r"fn same_"))
facts = collections.defaultdict(set)
for name, f, _, clauses in functions:
    for kind, body in clauses:
        facts[re.sub(r"\.(old|new|now|entry|exit)\b", "", body)].add(f"{name.split('/')[0]}::{f}")
show("5 facts in the contracts of three or more", [f"{len(v)} times {k}: {', '.join(sorted(v))}" for k, v in sorted(facts.items(), key=lambda p: -len(p[1])) if len(v) > 2])
taking = [(f"{name.split('/')[0]}::{f}", frozenset(params)) for name, f, params, _ in functions]
groups = {a & b for _, a in taking for _, b in taking if len(a & b) > 2}
groups = {g: [f for f, p in taking if g <= p] for g in groups}
groups = {g: fs for g, fs in groups.items() if len(fs) > 2 and not any(g < h and len(fs) == len(gs) for h, gs in groups.items())}
show("5 three or more parameters that travel together through three or more functions", [f"{len(fs)} times {', '.join(sorted(g))}: {', '.join(fs)}" for g, fs in sorted(groups.items(), key=lambda p: (-len(p[1]), -len(p[0]), sorted(p[0])))])
show("6 a length or a place beside a slice", [f"{name} {f}: {', '.join(p)}" for name, f, p, _ in functions if set(p) & {"_len", "pos", "at", "n", "len"} and set(p) & {"dst", "out", "output", "words", "values", "bytes"}])
show("7 a match on a number that says what to do", lines(r"match (width|T::)"))
proofs = [n for n in (git("ls-tree", "-r", "--name-only", commit) if commit else git("ls-files", "-co", "--exclude-standard")).split("\n") if re.fullmatch(r"crates/\w+/proofs/.*\.antt", n)]
texts = {n: git("show", f"{commit}:{n}") if commit else open(n).read() for n in proofs}
answers = sum(len(re.findall(r"^pub [\w'-]+ :", t, re.M)) for n, t in texts.items() if n.endswith("Answers.antt"))
lemmas = sum(len(re.findall(r"^(?:pub )?[\w'-]+ :", t, re.M)) for n, t in texts.items() if not n.endswith(("Answers.antt", "Invariants.antt")))
print(f"\n8 proofs: {answers} answers, {lemmas} lemmas, {sum(t.count(chr(10)) for t in texts.values())} lines in {len(proofs)} files")
