#!/usr/bin/env python3
"""Turns this repository's own definitions and lemmas to snake case, and its types to camel case: `task-fault` to `task_fault`, `Each-once` to `EachOnce`.

usage: python3 tools/respell.py     at the top of the repository, once, after Rattle's own script turned the rest

Own names are the words of specs/ and of the lemma files of proofs/ that no file imports from a library. A dash beside a sign (`untimes-≡`) stays.
Names that Rattle makes (goals, and what an answer reads of its context) are left as they are. Two names that would fall together are told, and nothing is written;
a name of src/ or of a module may be spelled like a definition, since clauses and proofs tell them apart.
"""

import glob
import re
import sys

WORD = re.compile(r"[^\s(){}\[\].,;\"«»`]+")
JOINED = re.compile(r"[A-Za-z0-9]-[A-Za-z0-9]")
CAMEL = re.compile(r"[a-z0-9][A-Z]")
CRATES = {p.split("/")[1] for p in glob.glob("crates/*/src")}
ANSWERS = ("Answers.antt", "Invariants.antt", "Proof.antt")
IMPORT = re.compile(r"^(?:ghost |pub )*use ([^{\n]*)\.\{([^}]*)\}", re.M)
PARTS = {"getD": "item"}
# names that would fall together with another definition of the repository
WHOLE = {"halves-value": "halves_value_same", "In-line": "IsInLine", "value-at": "value_of"}


def bare(text):
    return re.sub(r"--.*", "", text)


def is_own(module):
    return module.split(".")[0] == "Rattle" and module.split(".")[1] in CRATES


def imported(text, own):
    return {n.strip().split(" as ")[0] for m in IMPORT.finditer(text) if is_own(m.group(1)) == own for n in m.group(2).split(",")}


def snake(part):
    for old, new in PARTS.items():
        part = part.replace(old, new)
    part = re.sub(r"([a-z0-9])([A-Z])", r"\1_\2", part)
    return part.lower()


def respelled(word):
    if word in WHOLE:
        return WHOLE[word]
    if word[0].isupper():
        return re.sub(r"(?<=[A-Za-z0-9])-([A-Za-z0-9])", lambda m: m.group(1).upper(), word)
    return re.sub(r"(?<=[A-Za-z0-9])-(?=[A-Za-z0-9])", "_", snake(word))


def turn(text, names, generated):
    def one(m):
        w, before = m.group(), text[max(0, m.start() - 5) : m.start()]
        return w if w not in names or (generated and before.endswith("goal.")) else names[w]

    return WORD.sub(one, text)


def main():
    files = sorted(glob.glob("crates/*/specs/**/*.antt", recursive=True) + glob.glob("crates/*/proofs/**/*.antt", recursive=True))
    texts = {f: open(f).read() for f in files + sorted(glob.glob("crates/*/src/**/*.rt", recursive=True))}
    library = set().union(*(imported(t, False) for t in texts.values()))
    words = {w for f in files if not f.endswith(ANSWERS) for w in WORD.findall(bare(texts[f]))}
    names = {w: respelled(w) for w in words - library if JOINED.search(w) or (w[0].islower() and CAMEL.search(w))}
    names = {w: n for w, n in names.items() if w != n}
    code = {w for f, t in texts.items() if f.endswith(".rt") for w in re.findall(r"\w+", bare(t))}
    modules = {f.split("/")[-1][:-5] for f in files} | {part for f in files for part in f.split("/")}
    clash = {w: n for w, n in names.items() if (n in words | library and n not in code | modules) or list(names.values()).count(n) > 1}
    if clash:
        print("\n".join(f"{w} -> {n}" for w, n in sorted(clash.items())))
        sys.exit(1)
    for f, t in texts.items():
        new = turn(t, names, f.endswith(ANSWERS))
        if new != t:
            open(f, "w").write(new)
    for f in sorted(glob.glob("crates/*/must-fail/*.edit") + glob.glob("docs/*.md") + ["README.md"]):
        t = open(f).read()
        new = turn(t, names, False) if f.endswith(".edit") else re.sub(r"`[^`]*`", lambda m: turn(m.group(), names, False), t)
        if new != t:
            open(f, "w").write(new)
    print(f"{len(names)} names")


main()
