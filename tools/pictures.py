#!/usr/bin/env python3
"""Writes the drawings of docs/: zone.svg (a zone, a segment, a stripe group with landed chunks), restart.svg (the states of a restart),
chain.svg (from a C function to the demands) and floors.svg (the crates of crates.txt on their floors)."""
import os

ROOT = os.path.dirname(os.path.dirname(os.path.abspath(__file__)))
FONT = 'font-family="Helvetica, Arial, sans-serif"'
STRIPES = ["#9ecae1", "#a1d99b", "#fdd0a2", "#dadaeb", "#fcbba1", "#c7e9c0"]


class Drawing:
    def __init__(self, width, height):
        self.size, self.parts = (width, height), []

    def box(self, x, y, w, h, fill="#ffffff", line="#444444", dash="", round_=3):
        d = f' stroke-dasharray="{dash}"' if dash else ""
        self.parts.append(f'<rect x="{x}" y="{y}" width="{w}" height="{h}" rx="{round_}" fill="{fill}" stroke="{line}"{d}/>')

    def text(self, x, y, text, size=13, anchor="middle", weight="normal", fill="#222222"):
        text = text.replace("&", "&amp;").replace("<", "&lt;")
        self.parts.append(f'<text x="{x}" y="{y}" {FONT} font-size="{size}" text-anchor="{anchor}" font-weight="{weight}" fill="{fill}">{text}</text>')

    def lines(self, x, y, w, h, lines, fill="#f7fbff"):
        """a box with its lines in the middle, the first of them bold"""
        self.box(x, y, w, h, fill, round_=8)
        for i, line in enumerate(lines):
            self.text(x + w / 2, y + h / 2 + 4 + (i - (len(lines) - 1) / 2) * 16, line, 12, weight="bold" if i == 0 else "normal")

    def arrow(self, points, line="#444444", dash=""):
        d = f' stroke-dasharray="{dash}"' if dash else ""
        at = " ".join(f"{x},{y}" for x, y in points)
        self.parts.append(f'<polyline points="{at}" fill="none" stroke="{line}" stroke-width="1.5" marker-end="url(#head)"{d}/>')

    def save(self, name):
        w, h = self.size
        head = f'<svg xmlns="http://www.w3.org/2000/svg" width="{w}" height="{h}" viewBox="0 0 {w} {h}">'
        mark = '<defs><marker id="head" viewBox="0 0 8 8" refX="7" refY="4" markerWidth="7" markerHeight="7" orient="auto"><path d="M0,0 L8,4 L0,8 z" fill="#444444"/></marker></defs>'
        with open(os.path.join(ROOT, "docs", name), "w") as f:
            f.write("\n".join([head, mark, f'<rect width="{w}" height="{h}" fill="#ffffff"/>'] + self.parts + ["</svg>", ""]))


def zone():
    """Four drives, one segment of six stripes in groups of three: chunks land in any order within their group."""
    d = Drawing(900, 500)
    left, top, w, h, gap = 150, 92, 112, 34, 38
    # which stripe lies at which data offset, by drive; None: nothing stored yet
    landed = [[1, 0, 2, 3, 4, None], [0, 2, 1, 4, None, None], [0, 1, 2, None, None, None], [2, 1, 0, 4, 3, None]]
    d.text(450, 26, "A segment: the same zone of every drive", 17, weight="bold")
    d.text(450, 48, "N = 4 drives, S = 6 stripes, groups of G = 3, one footer block; a cell is a block with its 20 spare bytes", 12)
    rows = ["header"] + [f"offset {o}" for o in range(6)] + ["footer"]
    for i, name in enumerate(rows):
        d.text(left - 12, top + i * h + 22, name, 12, "end")
    for drive, chunks in enumerate(landed):
        x = left + drive * (w + gap)
        d.text(x + w / 2, top - 12, f"drive {drive}", 13, weight="bold")
        d.box(x, top, w, h, "#eeeeee")
        d.text(x + w / 2, top + 21, "serial 7", 12)
        for o, s in enumerate(chunks):
            y = top + (o + 1) * h
            d.box(x, y, w, h, STRIPES[s] if s is not None else "#ffffff", dash="" if s is not None else "4 3")
            if s is not None:
                d.text(x + w / 2, y + 21, f"stripe {s}" + (" parity" if drive == 3 - s % 4 else ""), 12)
        y = top + 7 * h
        d.box(x, y, w, h, "#ffffff", dash="4 3")
        stored = sum(s is not None for s in chunks)
        py = top + (stored + 1) * h
        d.arrow([(x + w + 30, py), (x + w + 3, py)], "#b2182b")
    for k, name in enumerate(("group 0", "group 1")):
        y = top + (1 + 3 * k) * h
        d.box(left - 4, y - 1, 4 * w + 3 * gap + 8, 3 * h + 2, "none", "#888888", "2 3", 6)
        d.text(left + 4 * w + 3 * gap + 46, y + 3 * h / 2 + 4, name, 12, "start")
    d.text(left + 4 * w + 3 * gap + 10, top + 8 * h + 4, "red: write pointers", 11, "start", fill="#b2182b")
    y = top + 8 * h + 42
    for i, line in enumerate((
            "Group 0: all three stripes have landed on every drive, in another order on each; the compact table says which lies where.",
            "Group 1: stripe 4 is on drives 0, 1 and 3, stripe 3 on drives 0 and 3. Neither is complete, so neither is acknowledged; stripe 5 has not begun.",
            "A power cut now: group 0 counts, stripes 3 and 4 do not (with drive 2 missing, stripe 4 does). A restart with all drives writes the counted",
            "ones anew, stripe 0 at offset 0 and so on, into an empty zone, and only then resets the old one.")):
        d.text(40, y + 20 * i, line, 12, "start")
    d.save("zone.svg")


def restart():
    """What a restart goes through."""
    d = Drawing(900, 560)
    d.text(450, 28, "The states of a restart", 17, weight="bold")

    d.lines(330, 48, 240, 44, ["Image and pointers", "tables and state: any contents"], "#eeeeee")
    d.arrow([(450, 92), (450, 112)])
    d.lines(280, 114, 340, 58, ["1, 2  Which segments remain", "dropped: empty on a present drive, or a copy", "of a segment that is still there"])
    d.arrow([(450, 172), (450, 192)])
    d.lines(280, 194, 340, 44, ["3  Which stripes count", "those with a chunk on every present drive"])
    d.arrow([(620, 216), (700, 216)])
    d.lines(702, 190, 170, 52, ["Refused 9", "damaged in zone .."], "#fee0d2")
    d.arrow([(340, 238), (190, 268)])
    d.text(200, 250, "a drive is missing", 12)
    d.lines(40, 270, 260, 52, ["5  Nothing is stored", "the array is read-only"])
    d.arrow([(560, 238), (600, 268)])
    d.text(668, 256, "all drives are there", 12)
    d.lines(440, 270, 340, 44, ["4  Dropped segments are reset", "one store for each drive"])
    d.arrow([(500, 314), (400, 346)])
    d.arrow([(610, 314), (610, 346)])
    d.arrow([(720, 314), (800, 346)])
    d.lines(320, 348, 170, 64, ["All S stripes count", "missing footers", "are stored"])
    d.lines(525, 348, 170, 64, ["0 to c - 1, none loose", "stays open;", "nothing is stored"])
    d.lines(712, 348, 176, 64, ["Ragged", "headers, then stripes into", "an empty zone, then resets"])
    for x in (405, 610, 800):
        d.arrow([(x, 412), (x, 446), (560 if x == 610 else (540 if x < 610 else 640), 464)] if x != 610 else [(x, 412), (600, 464)])
    d.arrow([(170, 322), (170, 490), (398, 490)])
    d.lines(400, 466, 340, 52, ["Tables and state from what the drives say", "answer: the number of uncounted stripes"], "#e5f5e0")
    d.text(450, 546, "A power cut at any store: the next restart begins at the top, and every acknowledged write is still there (demand 3).", 12)
    d.save("restart.svg")


def chain():
    """From a C function to the demands, by theorems alone."""
    d = Drawing(900, 560)
    d.text(450, 28, "From a C function to the demands", 17, weight="bold")

    d.lines(250, 46, 400, 44, ["sorgizhed_write, sorgizhed_restart, ..", "include/sorgizhed.h, crates/api_c"], "#eeeeee")
    d.arrow([(450, 90), (450, 128)])
    d.text(462, 113, "contract of each: answer and all lent bytes equal", 12, "start")
    d.lines(250, 130, 400, 58, ["call_bytes p l c", "one call on six lent buffers, the state as bytes", "spec: Engine"])
    d.arrow([(300, 188), (150, 226)])
    d.text(60, 212, "any call, any bytes", 12, "start")
    d.lines(20, 228, 270, 58, ["Demand 1, zone rules", "of every call; spec_demands: Answering,", "Rules; proved in proof_answers"], "#e5f5e0")
    d.arrow([(450, 188), (450, 226)])
    d.text(462, 212, "lists of calls, each step call_bytes", 12, "start")
    d.lines(310, 228, 270, 58, ["Demand 2", "after a restart and uncut calls", "Tables, Layouts; proved in proof_demands"], "#e5f5e0")
    d.arrow([(600, 188), (740, 226)])
    d.lines(600, 228, 280, 58, ["Demand 3", "every history from empty drives", "Histories; proved in proof_bytes"], "#e5f5e0")
    d.lines(250, 330, 400, 58, ["proof_bytes", "a state that a call leaves fits its widths and comes back from its", "bytes, so a list of calls on bytes is one with the state a value"])
    d.arrow([(445, 330), (445, 288)])
    d.arrow([(600, 330), (740, 288)])
    d.lines(40, 432, 480, 74, ["Demand 2, the state a value: AfterRestart on_values", "proof_layout (layout), proof_flights (landings, parity),", "proof_rebuilt (rebuild), proof_tables (tables, reads, refusal 9)"])
    d.arrow([(330, 432), (370, 390)])
    d.lines(560, 432, 320, 74, ["Demand 3, the state a value", "proof_crash, over proof_crash_calls, _restarts,", "_rebuilds, _items and _machine"])
    d.arrow([(680, 432), (580, 390)])
    d.text(450, 540, "Every arrow is an equation or a theorem that the checker has accepted; nothing between a C function and a demand is by hand.", 12)
    d.save("chain.svg")


FLOORS = [
    ("api", "the C functions", "#eeeeee"),
    ("call", "the calls", "#deebf7"),
    ("recover", "what restart and rebuild look at and store", "#deebf7"),
    ("mem", "the state and the tables in memory", "#deebf7"),
    ("disk", "what lies on the drives", "#deebf7"),
    ("bits", "numbers and masks in bytes", "#deebf7"),
]


def listed():
    """the crates of crates.txt, by floor"""
    floors = {}
    with open(os.path.join(ROOT, "crates.txt")) as f:
        for line in f:
            name = line.split("#")[0].split(":")[0].split()[:1]
            if name:
                floors.setdefault(name[0].split("_")[0], []).append(name[0])
    return floors


def band(d, x, y, width, floor, what, fill, names):
    """one floor: its name, what stands on it, its crates in rows; the y below it"""
    rows, room = [[]], width - 24
    for name in names:
        w = 7 * len(name) + 16
        if sum(7 * len(n) + 24 for n in rows[-1]) + w > room:
            rows.append([])
        rows[-1].append(name)
    height = 34 + 28 * len(rows)
    d.box(x, y, width, height, fill, round_=8)
    d.text(x + 12, y + 20, f"{floor}_" if names != [floor] else floor, 13, "start", "bold")
    d.text(x + 70, y + 20, what, 12, "start")
    for i, row in enumerate(rows):
        at = x + 12
        for name in row:
            w = 7 * len(name) + 16
            d.box(at, y + 28 + 28 * i, w, 22)
            d.text(at + w / 2, y + 43 + 28 * i, name, 11)
            at += w + 8
    return y + height


def floors():
    """The crates on their floors: each lists crates of its own floor and of lower ones; code lists no theorem's crate."""
    crates = listed()
    d = Drawing(1100, 900)
    d.text(550, 28, "The crates on their floors", 17, weight="bold")
    d.text(550, 48, "a crate cites its own floor and lower ones; code cites no theorem", 12)
    y = 62
    for floor, what, fill in FLOORS:
        y = band(d, 20, y, 700, floor, what, fill, crates.get(floor, [])) + 8
    right = band(d, 740, 62, 340, "proof", "the theorems: demands 1, 2 and 3", "#e5f5e0", crates["proof"]) + 8
    band(d, 740, right, 340, "bench", "leaves, for bench/leaves", "#eeeeee", crates.get("bench", []))
    y = band(d, 20, y, 1060, "law", "laws of the definitions, cited by code and theorems", "#fff7bc", crates["law"]) + 8
    y = band(d, 20, y, 1060, "spec", "what a reader must believe: the definitions, and the demands as statements", "#fee391", crates["spec"]) + 8
    d.size = (1100, y + 8)
    d.save("floors.svg")


zone()
restart()
chain()
floors()
