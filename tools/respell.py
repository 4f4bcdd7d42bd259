#!/usr/bin/env python3
"""Respells this repository's own definitions, lemmas, ghost members and aliases in snake case.

usage: tools/respell.py [--list]     at the top of the repository; --list only prints the names

A name is turned where a file of specs/ or proofs/ defines it, where a ghost field or member declares it, or where
an import renames to it, and it is in camel case with a small first letter or has a dash. Types and facts (capital
first letter), names of functions in src/ and what the toolchain generates keep their spelling. It prints the new
names that also stand elsewhere: a definition may have the name of the function that it is about.
"""

import os
import re
import sys

LETTERS = r"[^\s(){}\[\],;:.·`\"]+"
DEFINES = re.compile(r"^\s*(?:(?:abbrev|unfoldable|pub|ghost)\s+)*(" + LETTERS + r")\s*:\s+(?!goal\.|given\.|need\.)", re.M)
GHOST = re.compile(r"\bghost\s+(\w+)\s*[:=]")
ALIAS = re.compile(r"\bas\s+(" + LETTERS + r")")
TOKEN = re.compile(LETTERS)


# a lemma that would have the name of a definition
APART = {"delay-at": "delay_at_lem"}


def snake(name):
    if name in APART:
        return APART[name]
    name = re.sub(r"(?<=[a-z0-9])([A-Z])", lambda m: "_" + m.group(1).lower(), name)
    return name.replace("-", "_")


def wanted(name):
    return bool(re.fullmatch(r"[a-z][\w'-]*", name)) and ("-" in name or re.search(r"[a-z0-9][A-Z]", name) is not None)


def files():
    for folder, dirs, names in os.walk("crates"):
        dirs[:] = sorted(d for d in dirs if d != "out")
        for name in sorted(names):
            if name.endswith((".antt", ".rt")):
                yield os.path.join(folder, name)


def own(text, path):
    if path.endswith(".rt"):
        ghost = [line for line in text.splitlines() if "ghost use" in line]
        return GHOST.findall(text) + [n for line in ghost for n in ALIAS.findall(line)]
    uses = [line for line in text.splitlines() if line.lstrip().startswith(("use ", "pub use "))]
    return DEFINES.findall(text) + [n for line in uses for n in ALIAS.findall(line)]


def main():
    texts = {p: open(p, encoding="utf-8").read() for p in files()}
    names = {n for p, t in texts.items() for n in own(t, p) if wanted(n)}
    turned = {n: snake(n) for n in sorted(names)}
    tokens = {w for t in texts.values() for w in TOKEN.findall(t)}
    clash = sorted(f"{n} -> {m}" for n, m in turned.items() if m in tokens or list(turned.values()).count(m) > 1)
    if "--list" in sys.argv:
        print("\n".join(f"{n} -> {m}" for n, m in turned.items()))
        print(f"{len(turned)} names; fall together: {clash}")
        return
    for path, text in texts.items():
        new = TOKEN.sub(lambda w: turned.get(w.group(0), w.group(0)), text)
        if new != text:
            open(path, "w", encoding="utf-8").write(new)
    print(f"{len(turned)} names turned; fall together: {clash}")


if __name__ == "__main__":
    main()
