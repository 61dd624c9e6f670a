#!/usr/bin/env python3
"""Lines of each listed crate, without blanks, comments and `use` lines, and thousands of characters of these lines: code, definitions and laws, proofs; then the same for what each call has of its own.
With a file of lines `NAME SECONDS`, also the seconds that each crate's proof took: tools/sizes.py [TIMES]. (rt tells no times: `rt ci --anew NAME`, once what NAME lists is kept, takes those of one crate.)"""
import sys
from pathlib import Path

# what each call has of its own: the beginnings of its crates' names
CALLS = {
    "write": "call_filling call_write",
    "landing": "disk_rank disk_stored disk_footers call_land",
    "closing": "call_close",
    "write of no bytes": "call_empty",
    "both reads": "mem_lookup mem_bounds call_read",
    "reclaim": "mem_marks call_reclaim call_copy",
    "restart": "recover_segments recover_groups recover_headers recover_survey recover_check recover_compact recover_addresses recover_tables"
               " recover_drop recover_footers recover_move recover_rewrite recover_stores law_restart call_restart",
    "rebuild": "recover_reset recover_decode recover_rebuild call_rebuild",
    "the C functions": "law_lent api_",
}


def lines(folder, ending, comment):
    """lines, and their characters without indentation"""
    n = chars = 0
    for f in Path(folder).rglob("*" + ending):
        for line in f.read_text().splitlines():
            s = line.strip()
            if s and not s.startswith((comment, "use ", "ghost use ")):
                n, chars = n + 1, chars + len(s)
    return [n, chars]


def row(name, figures):
    return "| %s | %s |" % (name, " | ".join("{:,}".format(f) for f in figures))


seconds = {}
if len(sys.argv) > 1:
    seconds = {name: round(float(took)) for name, took in (line.split() for line in Path(sys.argv[1]).read_text().splitlines())}
sizes = {}
for entry in Path("crates.txt").read_text().splitlines():
    name = next(iter(entry.split("#")[0].split(":")[0].split()), None)
    if name:
        c = "crates/" + name
        parts = [lines(c + "/src", ".rt", "//"), lines(c + "/specs", ".antt", "--"), lines(c + "/proofs", ".antt", "--")]
        sizes[name] = [p[0] for p in parts] + [sum(p[1] for p in parts) // 1000] + ([seconds.get(name, 0)] if seconds else [])
for name, figures in sizes.items():
    print(row(name, figures))
print(row("all", [sum(x) for x in zip(*sizes.values())]))
print()
for call, crates in CALLS.items():
    own = [s for c, s in sizes.items() if any(c == b or c.startswith(b.rstrip("_") + "_") for b in crates.split())]
    print(row(call, [sum(x) for x in zip(*own)]))
