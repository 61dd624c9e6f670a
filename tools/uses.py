#!/usr/bin/env python3
"""Write the `use` lines of every module of crates/NAME/specs: names are found by their spelling.

    tools/uses.py CRATE [DEP ..]     the bodies stay, and lines with ` as `; other lines that begin with `use ` are replaced

A name of the library comes from where the module brings it now, or else from where most modules of the repository do; one that none brings
is left out (`rt lemma NAME` prints where it is).
"""
import re
import sys
import textwrap
from collections import Counter, defaultdict
from pathlib import Path

# types that a crate's src/lib.rt declares: a struct by its name, an enum with its variants
STRUCT = re.compile(r"^pub struct (\w+)", re.M)
ENUM = re.compile(r"^pub enum (\w+) \{(.*?)^\}", re.M | re.S)
SPLIT = re.compile(r"[\s(){}.;,@\"]+")
USE = re.compile(r"^use ([^\s{]+)\.\{([^}]*)\}", re.M)
DECL = re.compile(r"^ *((?:unfoldable |abbrev |pub )*)(data |record )?(\S+)(?: \{[^}]*\})?(?: \([^)]*\))* :( |$)")


def declared(text):
    """name -> path below the module ('' or type name); only pub ones, constructors of pub data."""
    out, kind, record = {}, None, None
    for line in text.split("\n"):
        if line.startswith("--") or not line.strip():
            continue
        top, deep = not line.startswith(" "), len(line) - len(line.lstrip(" "))
        if record is not None and deep > record:
            continue  # a field stands behind its record
        mt = DECL.match(line)
        record = deep if re.match(r" *(?:pub )?record ", line) else None
        if not line.startswith("use ") and mt and (top or "pub" in mt.group(1)):
            marks, what, name = mt.group(1), mt.group(2), mt.group(3)
            kind = None
            if "pub" in marks:
                out[name] = ""
                if top and what and what.startswith("data"):
                    kind = name
            continue
        if top:
            kind = None if not line.startswith(("module",)) else kind
        if kind and line.startswith("  ") and " : " in line and not line.startswith("   "):
            for c in line.strip().split(" : ")[0].split():
                out[c] = kind
    return out


def types(crate):
    """name -> module, of the types declared in the crate's source."""
    out = {}
    text = (Path("crates") / crate / "src" / "lib.rt").read_text()
    for n in STRUCT.findall(text):
        out[n] = "declared." + n
    for n, body in ENUM.findall(text):
        out[n] = "declared." + n
        for v in re.findall(r"^    (\w+)", body, re.M):
            out[v] = "declared.%s.TheVariants" % n
    return out


def tokens(text):
    out = set()
    for line in text.split("\n"):
        if line.startswith("use "):
            continue
        out |= set(SPLIT.split(line.split("-- ")[0]))
    return out


def brought(text, crates):
    """the names of the library that `use` lines bring, each with its module"""
    for module, ns in USE.findall(text):
        if not module.startswith(crates):
            for n in ns.split(","):
                if " as " not in n and n.strip():
                    yield n.strip(), module


def library(crates):
    """name -> module, as most modules of the repository bring it"""
    votes = defaultdict(Counter)
    for part in ("specs", "proofs"):
        for folder in Path("crates").glob("*/" + part):
            for f in folder.rglob("*.antt"):
                for n, module in brought(f.read_text(), crates):
                    votes[n][module] += 1
    return {n: v.most_common(1)[0][0] for n, v in votes.items()}


def main():
    crate, deps = sys.argv[1], sys.argv[2:]
    root = Path("crates") / crate / "specs"
    crates = tuple("Rattle.%s." % d.name for d in Path("crates").iterdir())
    names = {n: (module, "") for n, module in library(crates).items()}
    for d in deps:
        for n, m in types(d).items():
            names[n] = ("Rattle.%s.specs.%s" % (d, m), "")
        for f in sorted((Path("crates") / d / "specs").glob("*.antt")):
            if f.stem != "Lib":
                for n, t in declared(f.read_text()).items():
                    names[n] = ("Rattle.%s.specs.%s" % (d, f.stem), t)
    for n, m in types(crate).items():
        names[n] = ("Rattle.%s.specs.%s" % (crate, m), "")
    own = {}
    for f in sorted(root.glob("*.antt")):
        if f.stem != "Lib":
            own[f.stem] = declared(f.read_text())
    for stem, ds in own.items():
        for n, t in ds.items():
            names[n] = ("Rattle.%s.specs.%s" % (crate, stem), t)
    for stem in own:
        f = root / (stem + ".antt")
        text = f.read_text()
        toks = tokens(text)
        here = {**names, **{n: (module, "") for n, module in brought(text, crates)}}
        need = {}
        private = set(re.findall(r"^(?:unfoldable |abbrev |pub )*(\S+) :", text, re.M))
        for n, (mod, ty) in here.items():
            if n in own[stem] or n in private:
                continue
            # an operator is used by its parts
            if n in toks or ("◌" in n and toks.issuperset(filter(None, n.split("◌")))):
                need.setdefault(mod + ("." + ty if ty else ""), []).append(n)
        lines = text.split("\n")
        head = [l for l in lines[:1]]
        kept = [l for l in lines[1:] if l.startswith("use ") and " as " in l]
        body = [l for l in lines[1:] if not l.startswith("use ")]
        while body and not body[0].strip():
            body.pop(0)
        uses = ["use %s.{%s}" % (m, part.rstrip(",")) for m, ns in need.items() for part in textwrap.wrap(", ".join(ns), 140, break_on_hyphens=False)]
        f.write_text("\n".join(head + uses + kept + [""] + body))


main()
