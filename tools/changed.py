#!/usr/bin/env python3
"""What changed between two commits, by crate: tools/changed.py OLD NEW prints a table of lines changed (added and removed) of the lines that NEW has, without blanks, comments and
`use` lines. Definitions are the text of crates/spec; promises that of crates/spec_demands and every contract (`requires`, `ensures`); laws the specs of the other crates but the
theorems'; proofs the proofs/ folders, the specs of the theorems' crates and the tactics that src/lib.rt asks for; code what src/lib.rt has beside these and its contracts. Crates with
no change are left out; wrong programs and must-fail edits do not count. A line that moves to another file counts twice."""
import io
import re
import subprocess
import sys
import tarfile
import tempfile
from collections import Counter, defaultdict
from pathlib import Path

KINDS = ["definitions", "promises", "laws", "proofs", "code"]
OWN = {"spec": "definitions", "spec_demands": "promises"}
CLAUSE = re.compile(r"(?:requires|ensures)(?: [^\s{]+)? \{")
TACTIC = re.compile(r"#!?\[tactic\b")


def kind_of(crate, folder):
    if folder == "proofs" or folder == "specs" and crate.startswith("proof_"):
        return "proofs"
    return OWN.get(crate, "laws" if folder == "specs" else "code")


def sorted_lines(crate, folder, text):
    """the lines that count, each with its kind"""
    depth = 0  # of the brackets of a clause, which may run over several lines
    for line in (x.strip() for x in text.splitlines()):
        if line and not line.startswith(("--", "//", "use ", "pub use ", "ghost use ")):
            contract = depth > 0 or folder == "src" and CLAUSE.match(line) is not None
            yield ("promises" if contract else "proofs" if folder == "src" and TACTIC.match(line) else kind_of(crate, folder)), line
            depth += line.count("{") - line.count("}") if contract else 0


def tree(commit, root):
    """puts the lines that count of each file under root/CRATE/KIND; how many there are of each crate and kind"""
    there = Counter()
    data = subprocess.run(["git", "archive", commit, "crates"], check=True, stdout=subprocess.PIPE).stdout
    with tarfile.open(fileobj=io.BytesIO(data)) as files:
        for f in files:
            crate, folder, *rest = (f.name.split("/") + ["", ""])[1:]
            if not f.isfile() or folder not in ("src", "specs", "proofs"):
                continue
            found = defaultdict(list)
            for kind, line in sorted_lines(crate, folder, files.extractfile(f).read().decode()):
                found[kind].append(line + "\n")
            for kind, lines in found.items():
                path = root / crate / kind / folder / "/".join(filter(None, rest))
                path.parent.mkdir(parents=True, exist_ok=True)
                path.write_text("".join(lines))
                there[crate, kind] += len(lines)
    return there


def changes(where):
    """lines added and removed of each crate and kind"""
    found = Counter()
    words = ["git", "diff", "--no-index", "--no-renames", "--numstat", "-z", "old", "new"]
    parts = subprocess.run(words, cwd=where, capture_output=True, text=True).stdout.split("\0")
    for numbers, was, now in zip(*[iter(parts)] * 3):  # /dev/null for a file that is not there
        _, crate, kind = (now if now != "/dev/null" else was).split("/")[:3]
        found[crate, kind] += sum(int(n) for n in numbers.split())
    return found


def row(name, changed, there):
    return "| %s | %s |" % (name, " | ".join("{:,} of {:,}".format(c, t) if c or t else "" for c, t in zip(changed, there)))


def main(old, new):
    with tempfile.TemporaryDirectory() as where:
        for side in ("old", "new"):
            (Path(where) / side).mkdir()
        before, there = tree(old, Path(where) / "old"), tree(new, Path(where) / "new")
        changed = changes(where)
    crates = sorted({c for c, _ in before + there})
    moved = [c for c in crates if any(changed[c, k] for k in KINDS)]
    print("| Crate | %s |\n|---|%s" % (" | ".join(KINDS), "---|" * len(KINDS)))
    for c in moved:
        print(row("`%s`" % c, [changed[c, k] for k in KINDS], [there[c, k] for k in KINDS]))
    every = [[sum(n[c, k] for c in crates) for k in KINDS] for n in (changed, there)]
    print(row("all, %d of %d crates" % (len(moved), len({c for c, _ in there})), *every))


if len(sys.argv) != 3:
    sys.exit(__doc__)
main(*sys.argv[1:])
