#!/usr/bin/env python3
"""tools/design_changes.py COMMIT: what docs/DESIGN-PASS.md lists: each public function and type of the code that has another signature or other clauses than at COMMIT, old and new,
functions and definitions that are gone, definitions and laws of specs/ with other texts or in a section with another head, and laws that are public no more. By text; proofs and names inside
a `where` are not looked at."""
import re
import subprocess
import sys
from pathlib import Path

ROOT = Path(__file__).resolve().parent.parent


def listed(commit, pattern):
    if commit:
        names = subprocess.run(["git", "ls-tree", "-r", "--name-only", commit], cwd=ROOT, capture_output=True, text=True, check=True).stdout.split("\n")
        return {n: subprocess.run(["git", "show", "%s:%s" % (commit, n)], cwd=ROOT, capture_output=True, text=True, check=True).stdout for n in names if re.fullmatch(pattern, n)}
    names = subprocess.run(["git", "ls-files", "-co", "--exclude-standard"], cwd=ROOT, capture_output=True, text=True, check=True).stdout.split("\n")
    return {n: (ROOT / n).read_text() for n in names if re.fullmatch(pattern, n) and (ROOT / n).exists()}


def flat(text):
    return re.sub(r",\s*\)", ")", re.sub(r"\(\s+", "(", re.sub(r"\s+", " ", text))).strip()


def heads(files):
    """(crate, name) to (public, head with clauses)"""
    out = {}
    for n, t in files.items():
        crate = n.split("/")[1]
        for m in re.finditer(r"^( *)(pub )?(?:unsafe )?((?:extern \"C\" )?fn (\w+)(?:.|\n)*?)(?: \{|\n\1\{|\n\1\{\})$", t, re.M):
            out[(crate, m.group(4))] = (bool(m.group(2)), flat(m.group(3)))
        for m in re.finditer(r"^(pub )?((?:struct|enum|trait) (\w+)[^\n]*(?:\{\n(?:.*\n)*?\}|;))", t, re.M):
            out[(crate, m.group(3))] = (bool(m.group(1)), flat(re.sub(r"//.*", "", m.group(2))))
    return out


DECLARES = r"((?:(?:unfoldable|abbrev|pub|opaque) )*)(?:record )?([^\s:(){}]+)(?: \([^\n]*)? : "


def declared(files):
    """(crate, module, name) to whether it is public, the heads of the sections around it, and the text of its declaration"""
    out = {}
    for n, t in files.items():
        crate, module = n.split("/")[1], n.split("/")[-1][:-5]
        lines = t.split("\n")
        sections, i = [], 0
        while i < len(lines):
            line, deep = lines[i].lstrip(), len(lines[i]) - len(lines[i].lstrip())
            if not line or line.startswith(("--", "use ")):
                i += 1
                continue
            while sections and sections[-1][0] >= deep:
                sections.pop()
            level = sections[-1][0] + 2 if sections else 0
            m = re.match(DECLARES, line)
            j = i + 1
            if deep == level and line.startswith("module "):
                while not lines[j - 1].endswith("where"):
                    j += 1
                sections.append((deep, flat("\n".join(lines[i:j]))[len("module _ "):-len(" where")]))
            elif deep == level and m:
                while j < len(lines) and lines[j].strip() and not re.match(" " * deep + DECLARES, lines[j]):
                    j += 1
                out.setdefault((crate, module, m.group(2)), ("pub" in m.group(1), " ".join(s for _, s in sections), flat("\n".join(lines[i:j]))))
            i = j
    return out


def main():
    commit = sys.argv[1]
    old, new = heads(listed(commit, r"crates/\w+/src/\w+\.rt")), heads(listed(None, r"crates/\w+/src/\w+\.rt"))
    print("### Public functions and types, old and new\n")
    for k in sorted(set(old) | set(new)):
        a, b = old.get(k), new.get(k)
        if (a and a[0] or b and b[0]) and (a and a[1]) != (b and b[1]):
            print("`%s::%s`" % k)
            print("- old: `%s`" % a[1] if a else "- old: none")
            print("- new: `%s`\n" % b[1] if b else "- new: none\n")
    print("### Functions that take the drives as one value, and who calls them\n")
    print("The clauses `in_range p`, `Whole p (mk_disk image pointers)` and `length offline = offline_len p` of the old functions are the ghost fields `sound`, `whole` and `listed` of `Drives`. Each place that builds a `Drives` proves them.\n")
    bodies = {}
    for n, t in listed(None, r"crates/\w+/src/\w+\.rt").items():
        crate = n.split("/")[1]
        for m in re.finditer(r"^(?:pub )?(?:extern \"C\" )?fn (\w+)((?:.|\n)*?)^\}$", t, re.M):
            bodies[(crate, m.group(1))] = m.group(2).split("\n{\n")[-1]
    for (c, n), (pub, head) in sorted(new.items()):
        if pub and "&Drives" in head:
            who = sorted("%s::%s" % k for k, b in bodies.items() if re.search(r"\b%s::%s\b" % (c, n), b) or (k[0] == c and re.search(r"(?<![\w:.])%s\(" % n, b)))
            print("- `%s::%s`: called by %s" % (c, n, ", ".join("`%s`" % w for w in who)))
    built = sorted("%s::%s" % k for k, b in bodies.items() if re.search(r"\bDrives \{", b))
    print("\nIt is built by %s.\n" % ", ".join("`%s`" % w for w in built))
    print("### Functions of a crate alone that are gone\n")
    print(", ".join("`%s::%s`" % k for k in sorted(old) if k not in new and not old[k][0]) + "\n")
    old, new = declared(listed(commit, r"crates/\w+/specs/.*\.antt")), declared(listed(None, r"crates/\w+/specs/.*\.antt"))
    moved = {(c, n): d for (c, m, n), d in new.items() if d[0]}
    now = {k: new.get(k, moved.get((k[0], k[2]))) for k in old}
    print("### Definitions and laws of specs/ that are gone\n")
    print(", ".join("`%s: %s`" % (c, n) for (c, m, n) in sorted(old) if not now[(c, m, n)]) + "\n")
    print("### Laws that are public no more\n")
    print((", ".join("`%s: %s`" % (c, n) for (c, m, n) in sorted(old) if now[(c, m, n)] and old[(c, m, n)][0] and not now[(c, m, n)][0]) or "None.") + "\n")
    print("### Public laws whose section has another head\n")
    for (c, m, n) in sorted(old):
        (shown, around, _), d = old[(c, m, n)], now[(c, m, n)]
        if shown and d and around != d[1]:
            print("`%s: %s`" % (c, n))
            print("- old: `%s`" % around if around else "- old: none")
            print("- new: `%s`\n" % d[1] if d[1] else "- new: none\n")
    print("### Definitions and laws of specs/ with another text\n")
    for (c, m, n) in sorted(old):
        if now[(c, m, n)] and now[(c, m, n)][2] != old[(c, m, n)][2]:
            a, b = old[(c, m, n)][2], now[(c, m, n)][2]
            sa, sb = re.split(r" (?=(?:unfolding )?%s [^:]*=)| (?=%s =)" % (re.escape(n), re.escape(n)), a)[0], re.split(r" (?=(?:unfolding )?%s [^:]*=)| (?=%s =)" % (re.escape(n), re.escape(n)), b)[0]
            if sa == sb and ("≡" in sa or "→" in sa) and not re.match(r"(?:unfoldable|abbrev)", a):
                continue
            print("`%s: %s`" % (c, n))
            print("- old: `%s`" % (a if re.match(r"(?:unfoldable|abbrev|pub record|record)", a) else sa))
            print("- new: `%s`\n" % (b if re.match(r"(?:unfoldable|abbrev|pub record|record)", b) else sb))


if __name__ == "__main__":
    main()
