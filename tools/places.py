#!/usr/bin/env python3
"""tools/places.py [--list] [COMMIT]: counts, in the code of the work tree or of a commit, the places that docs/DESIGN-PASS.md speaks of. With --list each place is printed in front of its count.

1a enums of two variants of which one at least says nothing, and lines that name them; 1b structs with a bool beside other fields; 1c lines with the number of a refusal; 1d functions with a number whose comment says which number stands for nothing.
2  functions with bodies alike but for names, types and numbers.   3 while loops.   4a functions that only convert a number; 4b comparisons of a newtype by its field.
5a clauses of requires that stand in three or more contracts; 5b functions that take image, pointers and offline beside the parameters; 5c functions that take two or more arrays by zone.
6  structs or functions with arrays that are parallel: as 5c.   7 none is looked for by text: a match on a step number, a table of functions.   8 lines of Invariants.antt and Answers.antt, and answers."""
import re
import subprocess
import sys
from collections import Counter, defaultdict
from pathlib import Path

ROOT = Path(__file__).resolve().parent.parent
NONE = re.compile(r"\b(?:Z|S|N|n|8|0|end|NEVER|1024|as many as there are zones)\b,? (?:none,? )?(?:if|where) (?:there is none|it (?:is|shows|isn't|doesn't|does)|none|no\b|not\b)|;? (?:Z|S|8|0|n|end) where none", re.I)
WORDS = {"let", "mut", "if", "else", "return", "while", "for", "in", "match", "as", "fn", "pub", "true", "false", "loop"}


def texts(commit, pattern):
    """path and text of each file that the pattern fits"""
    if commit:
        names = subprocess.run(["git", "ls-tree", "-r", "--name-only", commit], cwd=ROOT, capture_output=True, text=True, check=True).stdout.split("\n")
        for n in names:
            if re.fullmatch(pattern, n):
                yield n, subprocess.run(["git", "show", "%s:%s" % (commit, n)], cwd=ROOT, capture_output=True, text=True, check=True).stdout
    else:
        for n in subprocess.run(["git", "ls-files", "-co", "--exclude-standard"], cwd=ROOT, capture_output=True, text=True, check=True).stdout.split("\n"):
            if re.fullmatch(pattern, n) and (ROOT / n).exists():
                yield n, (ROOT / n).read_text()


def functions(text):
    """of each function: the comment above it, its head with the clauses, its body"""
    for m in re.finditer(r"((?:^ *//.*\n)*)((?:^ *#\[.*\n)*)^( *)(?:pub )?(?:unsafe )?(?:extern \"C\" )?fn (\w+)((?:.|\n)*?)^\3\{((?:.|\n)*?)^\3\}$", text, re.M):
        yield m.group(4), m.group(1), m.group(5), m.group(6)
    for m in re.finditer(r"((?:^ *//.*\n)*)^( *)(?:pub )?fn (\w+)((?:.|\n)*?)^\2\{\}$", text, re.M):
        pass


def alike(body):
    """the body without names, types and numbers"""
    t = re.sub(r"//.*", "", body)
    t = re.sub(r"\b\d\w*\b", "#", t)
    t = re.sub(r"\b(?:u8|u16|u32|u64|usize)\b", "T", t)
    t = re.sub(r"\b[A-Z][A-Z_0-9]+\b", "K", t)
    t = re.sub(r"\b[a-z_]\w*::", "M::", t)
    seen = {}
    t = re.sub(r"\b[a-z_]\w*\b", lambda m: m.group(0) if m.group(0) in WORDS else seen.setdefault(m.group(0), "v%d" % len(seen)), t)
    return re.sub(r"\s+", " ", t)


def places(commit):
    out = defaultdict(list)
    code = [(n, t) for n, t in texts(commit, r"crates/\w+/src/\w+\.rt")]
    small, facts, bodies = set(), Counter(), defaultdict(list)
    where = defaultdict(list)
    for n, t in code:
        for m in re.finditer(r"^(?:pub )?enum (\w+) \{\n((?:.*\n)*?)\}", t, re.M):
            vs = [v.strip().rstrip(",") for v in m.group(2).split("\n") if v.strip() and not v.strip().startswith("//")]
            if len(vs) == 2 and any("(" not in v for v in vs) and any("(" in v for v in vs):
                small.add(m.group(1))
        for m in re.finditer(r"^(?:pub )?struct (\w+)(?:<.*>)? \{\n((?:.*\n)*?)\}", t, re.M):
            fields = [v.strip() for v in m.group(2).split("\n") if ":" in v and "ghost" not in v and not v.strip().startswith("//")]
            if len(fields) > 1 and any(v.rstrip(",").endswith(": bool") for v in fields):
                out["1b"].append("%s: struct %s" % (n, m.group(1)))
    for n, t in code:
        crate = n.split("/")[1]
        for i, line in enumerate(t.split("\n"), 1):
            if line.startswith(("ghost use", "use ", "//")):
                continue
            at = "%s:%d: %s" % (n, i, line.strip())
            if any(re.search(r"\b%s\b" % s, line) for s in small):
                out["1a"].append(at)
            if re.search(r"Refused\(\d+\)", line):
                out["1c"].append(at)
            if re.match(r"\s*while\b", line):
                out["3"].append(at)
            if re.search(r"\w\.0 (?:==|!=|<=|<|>=|>) |(?:==|!=|<=|<) \w+\.0\b", line) and "ensures" not in line and "requires" not in line and "→" not in line:
                out["4b"].append(at)
        for name, comment, head, body in functions(t):
            at = "%s: %s" % (n, name)
            sig = re.split(r"\n\s+(?:requires|ensures)\b", head)[0]
            if re.search(r"-> (?:usize|u64)\b", sig) and NONE.search(comment):
                out["1d"].append(at)
            if re.fullmatch(r"\s*\w+(?:\.0)? as \w+\s*", body):
                out["4a"].append(at)
            norm = alike(body)
            if len(norm) > 40:
                bodies[norm].append(at)
            for m in re.finditer(r"requires (?:\w+ )?\{((?:.|\n)*?)\}\n", head + "\n"):
                for part in re.split(r" × ", re.sub(r"\s+", " ", m.group(1)).strip()):
                    facts[part] += 1
                    where[part].append(at)
            if all(re.search(r"\b%s: &" % w, sig) for w in ("image", "pointers", "offline")):
                out["5b"].append(at)
            if sum(1 for w in ("kept", "rows", "serials", "left", "heads", "links") if re.search(r"\b%s: &" % w, sig)) >= 2:
                out["5c"].append(at)
    for f, k in facts.items():
        if k >= 3:
            out["5a"] += ["%s: %s" % (w, f) for w in where[f]]
    for norm, names in bodies.items():
        if len(names) > 1:
            out["2"] += [", ".join(names)] * len(names)
    lines, answers = 0, 0
    for n, t in texts(commit, r"crates/\w+/proofs/.*(?:Answers|Invariants)\.antt"):
        lines += t.count("\n")
        answers += len(re.findall(r"^(?:abbrev )?pub \S+ : goal\.", t, re.M))
    return out, lines, answers, small


def main():
    args = [a for a in sys.argv[1:] if a != "--list"]
    out, lines, answers, small = places(args[0] if args else None)
    for k in ("1a", "1b", "1c", "1d", "2", "3", "4a", "4b", "5a", "5b", "5c"):
        if "--list" in sys.argv:
            print("\n".join(out[k]))
        print("%s %d%s" % (k, len(out[k]), " (%s)" % ", ".join(sorted(small)) if k == "1a" else ""))
    print("8 %d lines, %d answers" % (lines, answers))


if __name__ == "__main__":
    main()
