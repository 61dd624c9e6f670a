#!/usr/bin/env python3
"""Which crates cite some definitions: tools/touches.py NAME .. prints each crate but the definitions' own with the number of its files that name one of them, and
those whose files open one (`unfolding`, `unfold .. in`, `unfolding(..)` of an attribute): what is proved from a definition's text, and so moves with it."""
import re
import sys
from pathlib import Path

MOST = 10


def words(text):
    return set(re.split(r"[\s(){};,.@\"]+", re.sub(r"^(?:ghost )?use [^\n]*$", "", text, flags=re.M)))


def opened(text):
    """the names behind each `unfolding`, which may run over deeper lines, each `unfold .. in`, and each `unfolding(..)` of an attribute"""
    found = re.findall(r"^( *)unfolding\b(.*(?:\n\1 +[^\n]*)*)", text, re.M)
    asked = [path.strip().split("::")[-1] for paths in re.findall(r"\bunfolding\(([^)]*)\)", text) for path in paths.split(",")]
    return set(" ".join([n for _, n in found] + re.findall(r"\bunfold ((?:[^\s(){};,]+ )+?)in\b", text) + asked).split())


def citing(names, files):
    found = {}
    for crate, text in files:
        if crate != "spec" and names & text:
            found[crate] = found.get(crate, 0) + 1
    return sorted(found.items(), key=lambda f: (-f[1], f[0]))


def said(found):
    crates = ", ".join("`%s` %d" % f for f in found[:MOST]) + (", .." if len(found) > MOST else "")
    return "%d crates, %d files: %s" % (len(found), sum(n for _, n in found), crates) if found else "none"


folders = [d for part in ("src", "specs", "proofs") for d in Path("crates").glob("*/" + part)]
texts = [(f.parts[1], f.read_text()) for d in folders for f in sorted(d.rglob("*")) if f.suffix in (".antt", ".rt")]
names = set(sys.argv[1:])
print("cited: " + said(citing(names, [(c, words(t)) for c, t in texts])))
print("opened: " + said(citing(names, [(c, opened(t)) for c, t in texts])))
