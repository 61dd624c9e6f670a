#!/usr/bin/env python3
"""Brings the definitions and lemmas of this repository to today's spelling: words in snake case.

usage: port_names.py [--list] [ROOT]    once, behind port.py; --list only prints the renamings

A camel-case word turns to snake case. A dash stays where it joins two names (a definition and a definition, or an operator's word), and is `_` where it joins words.
Turned are names that specs/ or proofs/*.antt declare, wherever they stand in .antt files, in the ghost lines and clauses of .rt files, and in edits. Functions of src/,
types, modules, and what stands in comments outside `..` keep their spelling. Two names that would fall together keep theirs, and are printed.
"""
import collections
import os
import re
import sys

ID = r"[A-Za-z_\u03b1-\u03c9\u0391-\u03a9\u2080-\u2089][\w'\u2080-\u2089!]*(?:-[\w'\u2080-\u2089!]+)*"
SIG = re.compile(r"^(\s*)((?:[a-z]+ )*)(" + ID + r")((?: \(.*?\)| \{.*?\})*)\s*: ")
TOKEN = re.compile(r"(?<![\w'\u2080-\u2089-])" + ID)
WORDS = {"lt", "le", "eq", "ne", "zero", "suc", "append", "cons", "nil", "map", "snoc", "length", "take", "drop", "get_or", "replicate", "part", "splice", "add", "sub", "mul", "mod", "div", "flat", "all", "any", "keep"}


def files(root, ends):
    for d, dirs, fs in os.walk(os.path.join(root, "crates")):
        dirs[:] = sorted(x for x in dirs if x != "out")
        for f in sorted(fs):
            if f.endswith(ends):
                yield os.path.join(d, f)


def own(path):
    """specs/ at any depth, and files right in proofs/"""
    parts = path.split(os.sep)
    return "specs" in parts or (len(parts) > 1 and parts[-2] == "proofs")


def read(path):
    with open(path, encoding="utf-8") as f:
        return f.read()


def snake(word):
    if not word or not word[0].islower():
        return word
    return re.sub(r"(?<=[a-z0-9_'\u2080-\u2089])([A-Z]+)", lambda m: "_" + m.group(1).lower(), word)


def declared(root):
    names, tops, heads, where = set(), set(), set(), collections.defaultdict(set)
    for p in files(root, (".antt",)):
        if not own(p):
            continue
        for line in read(p).splitlines():
            m = SIG.match(line)
            if not m or "let " in m.group(2):
                continue
            n = m.group(3)
            names.add(n)
            where[n].add(p)
            if ("unfoldable" in m.group(2) or "abbrev" in m.group(2)) and not m.group(1):
                tops.add(n)
            if not m.group(1):
                heads.add(n)
    return names, tops, where, heads


def turned(name, tops):
    parts = name.split("-")
    out = snake(parts[0])
    for a, b in zip(parts, parts[1:]):
        joins = (a in tops or a in WORDS or a[0].isupper()) and (b in tops or b in WORDS or b[0].isupper())
        out += ("-" if joins else "_") + snake(b)
    return out


def table(root):
    names, tops, where, heads = declared(root)
    new = {n: turned(n, tops) for n in names}
    by = collections.defaultdict(set)
    for n, m in new.items():
        by[m].add(n)
    said = {}
    # words that are not ours: of the library in our .antt files, and parameters of a function whose clauses say the old name, since a parameter hides a word
    others = set()
    for p in files(root, (".antt", ".rt")):
        text = read(p)
        if p.endswith(".antt"):
            if own(p):
                others.update(w for w in re.findall(r"(?<![\w'\u2080-\u2089.-])" + ID, text) if w not in names)
            continue
        for f in re.findall(r"\bfn \w+\(.*?\n\s*\{\n", text, re.S):
            params = set(re.findall(r"\b([a-z]\w*): ", f))
            others.update(new[w] for w in TOKEN.findall(f) if w in new and new[w] in params)
    # a name that is also brought in from the library keeps its spelling
    crates = set(os.listdir(os.path.join(root, "crates")))
    library = set()
    for p in files(root, (".antt", ".rt")):
        for path, list_ in re.findall(r"^(?:ghost )?use ([\w.'-]+)\.\{(.*?)\}", read(p), re.M):
            if not (path.startswith("Rattle.") and path.split(".")[1] in crates):
                library.update(w.strip() for w in list_.split(","))
    for n in list(new):
        if n in library:
            by[new[n]].discard(n)
            new[n] = n
    others |= library
    for m, olds in by.items():
        changed = [n for n in olds if n != m]
        if not changed:
            continue
        first = m if m in olds else None
        if first is None and m not in others:
            # the definition gets the name itself
            first = sorted(olds, key=lambda n: (n not in tops, n))[0]
        for n in sorted(changed):
            if n == first:
                continue
            end = "_lem" if n in heads and n not in tops else "_of" if n in tops else "_holds"
            new[n] = m + end
            said[n] = m
    fresh = collections.Counter(new.values())
    for n in list(new):
        if new[n] != n and (fresh[new[n]] > 1 or (new[n] in others)):
            said[n] = new[n] + " (twice)"
            new[n] = n
    return {n: m for n, m in new.items() if n != m}, said, where


def ticked(text, turn):
    return re.sub(r"`[^`\n]*`", lambda m: turn(m.group(0)), text)


def antt(text, turn):
    out = []
    for line in text.split("\n"):
        i = line.find("-- ")
        if line.strip() == "--" or i < 0:
            out.append(turn(line))
        else:
            out.append(turn(line[:i]) + ticked(line[i:], turn))
    return "\n".join(out)


def source(text, turn):
    """ghost lines, and clauses: from a line that begins with requires, ensures, ghost or invariant to the brace that ends it"""
    out, depth = [], 0
    for line in text.split("\n"):
        code = line.split("//")[0]
        if depth == 0 and re.match(r"\s*(pub )?(ghost\b|requires\b|ensures\b)", code):
            body = line
            depth = code.count("{") - code.count("}")
            out.append(turn(body))
            continue
        if depth > 0:
            depth += code.count("{") - code.count("}")
            out.append(turn(line))
            continue
        i = line.find("//")
        out.append(line if i < 0 else line[:i] + ticked(line[i:], turn))
    return "\n".join(out)


def main():
    words = [a for a in sys.argv[1:] if not a.startswith("--")]
    root = words[0] if words else "."
    new, kept, where = table(root)
    for n in sorted(kept):
        print(f"beside: {n} would be {kept[n]}: {new.get(n, n)}")
    if "--list" in sys.argv:
        for n in sorted(new):
            print(f"{n}\t{new[n]}")
        return

    def turn(s):
        return TOKEN.sub(lambda m: new.get(m.group(0), m.group(0)), s)

    steps = set()
    for p in files(root, (".rt",)):
        steps.update(re.findall(r"\bfn (\w+)", read(p)))

    def proof(s):
        """in the proof of a function a step that is named for a call keeps its name"""

        def one(m):
            w, before = m.group(0), s[: m.start()]
            if before.endswith(".") and (w.replace("-", "_").rstrip("0123456789_") in steps or w.replace("-", "_") in steps) and re.search(r"(\bbefore|\bc)\.$", before):
                return w
            return new.get(w, w)

        return TOKEN.sub(one, s)

    count = 0
    for p in files(root, (".antt", ".rt")):
        text = read(p)
        then = source(text, turn) if p.endswith(".rt") else antt(text, turn if own(p) else proof)
        if then != text:
            count += 1
            with open(p, "w", encoding="utf-8") as f:
                f.write(then)
    print(f"renamed: {len(new)} names, in {count} files")


if __name__ == "__main__":
    main()
