#!/usr/bin/env python3
"""Breaks lines that the port to today's Rattle made longer than 200 bytes, which tests/house refuses.

usage: port_lines.py [PATH ..]    files or folders, crates/*/{src,specs,proofs} if none is named; then `rt fmt`, which may set how deep a part stands

A `use` line becomes several of the same module, a comment goes on in the next line, and other text of an .antt file goes on four deeper, broken where the fewest
brackets are open. Prints the lines that it could not break.
"""
import glob
import os
import re
import sys

LONGEST, AIM = 200, 170
USE = re.compile(r"^((?:pub )?(?:ghost )?use [^{}]+\.\{)([^{}]*)(\};?)$")
# a line does not begin with these, nor end with those
BEGIN = re.compile(r"(?:in|where|=|:|,|;|\.\S*)(?:\s|$)")
END = re.compile(r"(?:^|\s)(?:let|λ|unfold|pub|abbrev|unfoldable|record|as!?)$")
JOINS = ("→ ", "∙ ", "× ", "&& ", "|| ")


def size(text):
    return len(text.encode())


def names(m):
    out, now = [], []
    for n in m.group(2).split(","):
        n = n.strip()
        if now and size(m.group(1) + ", ".join(now + [n]) + m.group(3)) > AIM:
            out.append(now)
            now = []
        now.append(n)
    return [m.group(1) + ", ".join(ns) + m.group(3) for ns in out + [now]]


def opened(text):
    """whether a break here would part `unfold` from its `in`, or stand in what a λ binds"""
    tail = re.split(r"(?<!\S)\(*(?:unfold)\s", text)
    return len(tail) > 1 and not re.search(r"\sin\s", tail[-1] + " ") or re.search(r"λ [^.]*$", text) is not None


def places(line, start):
    """(brackets open, before an operator or not, place) of each blank where the line may break"""
    depth = 0
    for i, c in enumerate(line):
        depth += (c in "({[") - (c in ")}]")
        if c == " " and i > start and size(line[:i]) <= LONGEST:
            left, right = line[:i], line[i + 1:]
            if right and right[0] != " " and not BEGIN.match(right) and not END.search(left) and not opened(left):
                yield depth, not right.startswith(JOINS), -i


def broken(line, by):
    """the line in parts"""
    deep = len(line) - len(line.lstrip(" "))
    low = deep + 40
    found = [p for p in places(line, low) if size(line[:-p[2]]) <= AIM] or list(places(line, deep + 4))
    if not found:
        return [line]
    at = -min(found)[2]
    rest = " " * by + line[at + 1:].strip()
    return [line[:at]] + (broken(rest, by) if size(rest) > LONGEST else [rest])


def comment(line):
    mark = re.match(r"\s*(?:--|//)\s*", line).group(0)
    out, now = [], mark + line[len(mark):].split(" ")[0]
    for word in line[len(mark):].split(" ")[1:]:
        if size(now + " " + word) > AIM:
            out.append(now)
            now = mark + word
        else:
            now += " " + word
    return out + [now]


def main(paths):
    paths = paths or [p for part in ("src", "specs", "proofs") for p in glob.glob("crates/*/" + part)]
    files = [p for p in paths if os.path.isfile(p)] + [f for p in paths for f in sorted(glob.glob(p + "/**/*", recursive=True)) if f.endswith((".rt", ".antt"))]
    for f in files:
        lines, out = open(f, encoding="utf-8").read().split("\n"), []
        for line in lines:
            m = USE.match(line)
            if size(line) <= LONGEST:
                out.append(line)
            elif m:
                out += names(m)
            elif line.lstrip().startswith(("--", "//")):
                out += comment(line)
            elif f.endswith(".antt"):
                out += broken(line, len(line) - len(line.lstrip(" ")) + 4)
            else:
                out.append(line)
        for n, line in enumerate(out, 1):
            if size(line) > LONGEST:
                print("%s:%d: %d bytes" % (f, n, size(line)))
        if out != lines:
            with open(f, "w", encoding="utf-8") as it:
                it.write("\n".join(out))


main(sys.argv[1:])
