#!/usr/bin/env python3
"""Write crates/proof_crash_witness/proofs/Evaluation.antt: every unfoldable name of the definitions and of the crate behind `unfolding`."""
import re
import textwrap
from pathlib import Path
WITNESS = Path("crates/proof_crash_witness")
OUT = WITNESS / "proofs" / "Evaluation.antt"
lines = ["-- Where a declaration says `unfolding evaluated`, every definition that a history needs computes. Assumes nothing.",
         "-- Written by tools/witness.py.", "use Prim.Native.Nat.{ℕ}", "use lib.Count.{ones, ones_in}"]
names = ["ones", "ones_in"]
homes = [(f, "Rattle.spec.specs") for f in sorted(Path("crates/spec/specs").glob("*.antt"))]
homes += [(Path("crates/spec_demands/specs/%s.antt" % m), "Rattle.spec_demands.specs") for m in ("Engines", "FullFirst")]
homes += [(f, "Rattle.proof_crash_witness.specs") for f in sorted((WITNESS / "specs").glob("*.antt"))]
homes += [(f, "Rattle.proof_crash_witness.proofs") for f in sorted((WITNESS / "proofs").glob("*.antt")) if f != OUT]
for f, home in homes:
    # of the worked examples only how calls are run, and the blocks
    found = ["empty_lent", "runs", "fresh", "block_of"] if f.stem == "Examples" else re.findall(r"^ *unfoldable pub (\S+)", f.read_text(), re.M)
    if found:
        lines += ["use %s.%s.{%s}" % (home, f.stem, part.rstrip(",")) for part in textwrap.wrap(", ".join(found), 120)]
        names += found
lines += ["", "unfoldable pub evaluated : ℕ", *textwrap.wrap("unfolding " + " ".join(names), 150, subsequent_indent="    "), "evaluated = 0"]
OUT.write_text("\n".join(lines) + "\n")
