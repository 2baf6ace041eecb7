#!/usr/bin/env python3
"""Respells this repository's own definitions and lemmas: keyAt and key-at become key_at, in specs, proofs, sources and
pages. Run once, at the top, after the kit's port.py. Where a lemma's name falls together with a definition's, the lemma
gets _lem. Names that a file takes from the kit's library stay, and so do functions of src/, types and facts.

usage: python3 tools/respell.py            specs, proofs and sources
       python3 tools/respell.py pages      README.md, docs/ and the edits in must-fail/
"""

import os
import re
import sys

HERE = os.path.dirname(os.path.abspath(__file__))
PAGES = os.path.join(HERE, "respelled.txt")
TOKEN = re.compile(r"[^\s(){}\[\];,.·⌜⌝`\"]+")
DECLARED = re.compile(r"\s*(?:abbrev\s+)?(?:pub\s+)?([^\s(){};,.·]+)(?:\s+\{[^}]*\})?\s*:(?:\s|$)")
QUOTED = re.compile(r"`[^`\n]+`")
EDITED = re.compile(r"^(?:old|new):.*$", re.M)
TAKEN = re.compile(r"^\s*(?:ghost )?use ((?:Rattle\.(?:std|core)|mathlib|lib|native|borrow|denote|Prim)[\w.'-]*)\.\{([^}]*)\}", re.M)


def files(endings, below="crates"):
    for folder, dirs, names in os.walk(below):
        dirs[:] = sorted(d for d in dirs if d not in ("out", "target", ".git"))
        for name in sorted(names):
            if name.endswith(endings):
                yield os.path.join(folder, name)


def read(path):
    with open(path, encoding="utf-8") as f:
        return f.read()


def snake(name):
    if name[0].isupper() or not name[0].isalpha():
        return name
    return re.sub(r"([a-z0-9])([A-Z])", lambda m: m[1] + "_" + m[2].lower(), name).replace("-", "_")


def declared():
    """Each lower-case name that a file of specs/, or a lemma file of proofs/, declares, and its new spelling."""
    names = set()
    for path in files(".antt"):
        if os.path.basename(path) == "Proof.antt":
            continue
        for line in read(path).split("\n"):
            m = DECLARED.match(re.sub(r"--.*", "", line))
            if m:
                names.add(m[1])
    fallen = {}
    for name in names:
        fallen.setdefault(snake(name), []).append(name)
    turned = {}
    for new, olds in fallen.items():
        for old in olds:
            lemma = len(olds) > 1 and "-" in old
            if lemma:
                turned[old] = new + "_lem"
            elif old != new:
                turned[old] = new
    return turned


def respell(text, turned, kept=frozenset()):
    return TOKEN.sub(lambda m: m[0] if m[0] in kept else turned.get(m[0], m[0]), text)


def write(path, old, new):
    if new != old:
        with open(path, "w", encoding="utf-8") as f:
            f.write(new)


def main():
    if sys.argv[1:] == ["pages"]:
        turned = dict(line.split() for line in read(PAGES).splitlines())
        pages = ["README.md", *files(".md", "docs"), *files(".edit")]
        for path in pages:
            text = read(path)
            part = EDITED if path.endswith(".edit") else QUOTED
            write(path, text, part.sub(lambda m: respell(m[0], turned), text))
        return
    turned = declared()
    for path in files((".antt", ".rt")):
        text = read(path)
        kept = {n for m in TAKEN.finditer(text) for n in re.split(r"[\s,]+", m[2])}
        write(path, text, respell(text, turned, kept))
    with open(PAGES, "a", encoding="utf-8") as f:
        f.writelines(f"{old} {new}\n" for old, new in sorted(turned.items()))


main()
