#!/usr/bin/env python3
"""Respells the repository's own definitions and lemmas, once: words in snake case, types in camel case.

usage: python3 tools/respell.py            at the top of the repository, after the kit's own port script
       python3 tools/respell.py --list     prints the names and what they become, and writes nothing
       python3 tools/respell.py --anyway   writes, though names fall together with others that stand elsewhere

Only names that a file of specs/ or proofs/ declares, binds or imports under another name are touched; the names of
goals, which the kit makes, are not, and a name that the kit has too keeps the kit's spelling. Names that would fall together are printed, and then nothing is written.
"""

import os
import re
import sys

BEFORE = r"(?<![\w\-'\u25cc])"
AFTER = r"(?![\w\-'\u25cc])"
DECLARED = re.compile(r"^ *(?:(?:abbrev|unfoldable|pub|record|data|axiom) )*([A-Za-z][\w'-]*)(?= (?:\(|\{|:))(.*)$", re.M)
BOUND = re.compile(r"[({]((?:[A-Za-z][\w'-]* )+): ")
KIT = re.compile(r"use (?:Rattle\.(?:std|core)|borrow|lib|mathlib|native|denote)\.[^{]*\{([^}]*)\}")
RENAMED = re.compile(r" as ([A-Za-z][\w'-]*)")
LAMBDA = re.compile(r"\u03bb ([^.()]*)\.")
GENERATED = re.compile(r"^(returns|loop|invariant|overflow|decreases|bounds|slice_bounds|nonzero|ghost|iterator|prove)-|-(requires|init|preserved|smaller)(-|$)")


def files(root):
    for folder, dirs, names in os.walk(os.path.join(root, "crates")):
        dirs[:] = sorted(d for d in dirs if d != "out")
        for name in sorted(names):
            if name.endswith((".antt", ".rt", ".edit")):
                yield os.path.join(folder, name)


def own_names(texts):
    found = set()
    for path, text in texts.items():
        if not path.endswith(".antt"):
            continue
        text = re.sub(r"--.*", "", text)
        for m in DECLARED.finditer(text):
            if "goal." not in m.group(2):
                found.add(m.group(1))
        for m in BOUND.finditer(text):
            found.update(m.group(1).split())
        for m in RENAMED.finditer(text):
            found.add(m.group(1))
        for m in LAMBDA.finditer(text):
            found.update(w for w in m.group(1).split() if re.fullmatch(r"[A-Za-z][\w'-]*", w))
    for text in texts.values():
        for m in KIT.finditer(text):
            found.difference_update(w.strip() for w in m.group(1).split(","))
    return {n for n in found if not GENERATED.search(n)}


# Names that would fall together with another by the rules alone, and facts whose names did not begin like a type's.
BY_HAND = {
    "at-end": "at_end_ok",
    "if-listed": "if_listed_ok",
    "unless-listed": "unless_listed_ok",
    "unless-same": "unless_same_ok",
    "getD-rising": "get_or_rising",
    "heard-in": "HeardIn",
}


def respelled(name):
    if name in BY_HAND:
        return BY_HAND[name]
    if name[0].isupper():
        return "".join(part[:1].upper() + part[1:] for part in name.split("-"))
    snake = re.sub(r"(?<=[a-z0-9])([A-Z])", lambda m: "_" + m.group(1).lower(), name)
    return snake.replace("-", "_")


def main():
    root = os.getcwd()
    texts = {p: open(p, encoding="utf-8").read() for p in files(root)}
    names = {n: respelled(n) for n in own_names(texts) if respelled(n) != n}
    used = set()
    for text in texts.values():
        used.update(re.findall(r"[A-Za-z][\w'-]*", text))
    clashes = sorted((n, r) for n, r in names.items() if r in used or list(names.values()).count(r) > 1)
    if "--list" in sys.argv:
        for n in sorted(names):
            print(n, names[n])
    for n, r in clashes:
        print(f"clash: {n} would be {r}, which is there already", file=sys.stderr)
    if "--list" in sys.argv or (clashes and "--anyway" not in sys.argv):
        return 1 if clashes else 0
    word = re.compile(BEFORE + "(" + "|".join(re.escape(n) for n in sorted(names, key=len, reverse=True)) + ")" + AFTER)
    for path, text in texts.items():
        new = word.sub(lambda m: names[m.group(1)], text)
        if new != text:
            with open(path, "w", encoding="utf-8") as out:
                out.write(new)
    return 0


if __name__ == "__main__":
    raise SystemExit(main())
