#!/usr/bin/env python3
"""Fill the `unfolding` lines of `examples_hold` in crates/spec/proofs/Evaluation.antt with every unfoldable name of the definitions that its `use` lines bring, and say which they do not bring."""
import re
import textwrap
from pathlib import Path
SKIP = ("Demands", "History", "Lib")
x = Path("crates/spec/proofs/Evaluation.antt")
text = x.read_text()
brought = set(n.strip() for names in re.findall(r"^use [^{\n]*\{([^}]*)\}", text, re.M) for n in names.split(","))
names = ["ones", "ones_in"]
for f in sorted(Path("crates/spec/specs").glob("*.antt")):
    if f.stem not in SKIP:
        names += re.findall(r"^unfoldable pub (\S+)", f.read_text(), re.M)
for name in names:
    if name not in brought:
        print("not brought: " + name)
names = [n for n in names if n in brought]
lines = textwrap.wrap("unfolding " + " ".join(names), 150, subsequent_indent="    ")
x.write_text(re.sub(r"(?<=pub examples_hold : Examples\n)unfolding .*\n(?:    .*\n)*", "\n".join(lines) + "\n", text))
