#!/usr/bin/env python3
"""Turns proofs/F/Proof.antt of an older kit (invariants and answers handed to `tie.spec`) to Invariants.antt and Answers.antt.

usage: port_proofs.py ROOT NAMES [CRATE..]    NAMES: the folder that `rt names` wrote
"""
import collections
import json
import os
import re
import sys

ID = r"[A-Za-z_\u03b1-\u03c9\u0391-\u03a9\u2080-\u2089][\w'\u2080-\u2089!]*(?:-[\w'\u2080-\u2089!]+)*"


def norm(n):
    return n.replace("-", "_").lower()


def read(p):
    with open(p, encoding="utf-8") as f:
        return f.read()


def contracts(root):
    """crate::f (and crate::Type::f) -> (requires names, ensures names)"""
    out = {}
    for c in os.listdir(os.path.join(root, "crates")):
        src = os.path.join(root, "crates", c, "src")
        for d, _, fs in os.walk(src):
            for f in fs:
                if not f.endswith(".rt"):
                    continue
                text = read(os.path.join(d, f))
                owner = None
                for m in re.finditer(r"^impl (\w+)|\bfn (\w+)(.*?)\n?\s*\{\n|\bfn (\w+)([^\n]*)\n\{\}", text, re.M | re.S):
                    if m.group(1):
                        owner = m.group(1)
                        continue
                    name = m.group(2) or m.group(4)
                    body = m.group(3) or m.group(5) or ""
                    req = re.findall(r"^\s*requires (\w*) ?\{", body, re.M)
                    ens = re.findall(r"^\s*ensures (\w*) ?\{", body, re.M)
                    out[f"{c}::{name}"] = (req, ens)
                    if owner:
                        out[f"{c}::{owner}::{name}"] = (req, ens)
    return out


def split_top(s):
    """the parts of `(a, b, ..)` at the top, or None"""
    s = s.strip()
    if not (s.startswith("(") and s.endswith(")")):
        return None
    depth, parts, at = 0, [], 1
    for i, ch in enumerate(s):
        if ch in "([{":
            depth += 1
        elif ch in ")]}":
            depth -= 1
            if depth == 0 and i != len(s) - 1:
                return None
        elif ch == "," and depth == 1:
            parts.append(s[at:i])
            at = i + 1
    last = s[at:-1]
    if last.strip():
        parts.append(last)
    return [p.strip() for p in parts]


def tuple_of(s, n):
    """n parts of a right-nested tuple, or None"""
    parts = split_top(s)
    if not parts or len(parts) < 2:
        return None
    while len(parts) < n:
        more = split_top(parts[-1])
        if not more or len(more) < 2:
            return None
        parts = parts[:-1] + more
    if len(parts) > n:
        parts = parts[: n - 1] + ["(" + ", ".join(parts[n - 1 :]) + ")"]
    return parts


def partial(last, names, own, body):
    """the parts of a tuple whose end is the end of the function's own requires, or any pair"""
    parts = split_top(last)
    if not parts or len(parts) < 2:
        return None
    while len(parts) < len(names):
        more = split_top(parts[-1])
        if not more or len(more) < 2:
            break
        parts = parts[:-1] + more
    m = re.match(r"(%s(?:\.requires)?)((?:\.1)+)$" % ID, parts[-1])
    left = len(names) - len(parts) + 1
    if left < 2:
        return None
    if m and (m.group(1) == "c.requires" or re.search(r"let %s\s*=\s*c\.requires\s+in(?![\w'-])" % re.escape(m.group(1)), body)):
        rest = own[len(m.group(2)) // 2 :]
        if len(rest) == left:
            return parts[:-1] + [f"{m.group(1)}.{n}" for n in rest]
    if " " in parts[-1]:
        return None
    return parts[:-1] + [parts[-1] + ".1" * k + (".0" if k < left - 1 else "") for k in range(left)]


def fields_of(term, last, names, own, body):
    """a record of clauses from a term that is no tuple: the function's own requires, or any pair"""
    e = last.strip()
    for m in re.finditer(r"let (%s) = (\S+) in" % ID, body):
        if m.group(1) == e and m.group(2).endswith(".requires"):
            e = m.group(2)
    if e.endswith(".requires") and len(own) == len(names):
        return [f"{last.strip()}.{o}" for o in own]
    e = last.strip()
    if " " in e and not (e.startswith("(") and split_top(e) and len(split_top(e)) == 1):
        e = f"({e})"
    out, path = [], ""
    for k in range(len(names)):
        out.append(e + path + (".0" if k < len(names) - 1 else ""))
        path += ".1"
    return out


def final(body):
    """where the last expression of a chain of `let .. in` begins"""
    depth, at, i = 0, 0, 0
    # the `in` of a let at depth 0
    for m in re.finditer(r"[(\[{]|[)\]}]|\blet\b|\bin\b", body):
        t = m.group(0)
        if t in "([{":
            depth += 1
        elif t in ")]}":
            depth -= 1
        elif t == "in" and depth == 0:
            at = m.end()
    return at


class Fn:
    def __init__(self, crate, name, entry, known):
        self.crate, self.name, self.entry, self.known = crate, name, entry, known
        self.steps, self.callee, self.fields, self.placenames = {}, {}, {}, {}
        for old, new in zip([p[0] for p in entry["places"]], entry["places_by_name"]):
            self.placenames[norm(old)] = new
        for p in entry["places"]:
            old, new = p[2]
            if old:
                self.steps[norm(old)] = new
                if p[3]:
                    self.callee[norm(old)] = p[3]
                for a, b in p[4]:
                    self.fields.setdefault(norm(old), {})[a] = b
        # what an arm of a match says, by the step and the path that said it
        self.arms = {}
        for a in entry["arms"]:
            for field, step, path in a[2] if a else []:
                if path:
                    self.arms.setdefault(norm(step), {})["." + ".".join(path)] = f"{a[0]}.{field}"
        self.parent = {norm(p[0]): norm(p[1]) if p[1] else None for p in entry["places"]}
        self.oldplace = {norm(p[0]): p[0] for p in entry["places"]}
        self.stepof = {norm(p[0]): p[2][1] for p in entry["places"]}
        # the places of an arm are one, behind what is matched
        armed = self.armed = {norm(p[0]): a[0] for p, a in zip(entry["places"], entry["arms"]) if a}
        for k in armed:
            top = self.parent[k]
            while top in armed and armed[top] == armed[k]:
                top = next(norm(p[1]) for p in entry["places"] if norm(p[0]) == top)
            self.parent[k] = top
            self.stepof[k] = armed[k]
        self.askedat = {n[1]: norm(a[0]) for n, a in zip(entry["needs"], entry["asked_at"])}
        self.raw, self.givers, self.imported = False, set(), set()
        # a place of which nothing more is said is no record of its own
        self.plain = {norm(p[0]) for p, ty, a in zip(entry["places"], entry["typed"], entry["arms"]) if not ty and not a}
        self.own = known.get(f"{crate}::{name.replace('.', '::')}", ([], []))
        self.pre = (entry["pre"] or {}).get("fields") or []

    def clause(self, names, path):
        """`.1.0.rest` over right-nested clauses, by name"""
        k, n = 0, len(names)
        while True:
            if k == n - 1:
                return "." + names[k] + path
            m = re.match(r"\.([01])(?!\d)", path)
            if not m:
                return None
            path = path[2:]
            if m.group(1) == "0":
                return "." + names[k] + path
            k += 1

    def place(self, name):
        """a place by its older name; one that is gone is the one before it"""
        n = norm(name)
        return n if n in self.parent else re.sub(r"\d+$", "", n)

    def step(self, name):
        """a step by its older name, which port_names.py may have taken for a definition"""
        n = norm(name)
        if n not in self.steps:
            m = re.match(r"(.*)_(?:holds|lem|of)$", n)
            if m and m.group(1) in self.steps:
                return m.group(1)
        return n

    def up(self, frm, to):
        """the way from a place to one above it"""
        n = 0
        while frm is not None:
            if frm == to:
                return ".before" * n
            frm, n = self.parent[frm], n + 1
        return None

    def way(self, frm, field):
        """the way from a place to what has a field"""
        n = 0
        while frm is not None:
            if self.stepof[frm] == field or frm == "start" and field in ("args", "requires", "ranges", "lifetimes", "utf8"):
                return ".before" * n
            frm, n = self.parent[frm], n + 1
        return None

    def lts(self, place):
        called = [self.known.get(c, ([], [])) for c in self.entry["params"]]
        many = self.entry["pre"] or any(self.entry["clauses"]) or any(len(k) > 1 for c in called + [self.own] for k in c)
        several = " Tie.handed_clauses" if many else ""
        claims = "Tie.the-claims Reads.Pre Reads.Post" + "".join(f" goal.the-invariant-{l[0][1]} goal.the-decreases-{l[0][1]}" for l in self.entry["loops"]) + several
        return f"Lts.{'Past-' if place in self.armed else ''}{self.oldplace[place]} {claims}"

    def turn(self, body):
        body = re.sub(r"(?:\.before)+(?![\w'-])", "", body)
        # a name for an earlier place is the place itself
        while True:
            m = re.search(r"let (%s)(?: : [^=\n]*?)?\s*=\s*c\s+in(?![\w'-])\s*" % ID, body)
            if not m:
                break
            rest = body[m.end() :]
            if m.group(1) != "c":
                tail_ = body[m.end() :]

                def here(k, tail_=tail_, x=m.group(1)):
                    # `at` is a word of `rw`, too
                    return x if x == "at" and re.search(r"\brw [^()\n]*$", tail_[: k.start()]) else "c"

                rest = re.sub(r"(?<![\w'\u2080-\u2089.-])%s(?![\w'\u2080-\u2089-])" % re.escape(m.group(1)), here, tail_)
            body = body[: m.start()] + rest
        body = re.sub(r"(?<=[\w'])\.pre(?![\w'-])", ".requires", body)
        body = re.sub(r"\.\u00ab([^\u00bb]+)\u00bb", r".\1", body)
        # a second name for a name is the first
        while True:
            m = re.search(r"let (%s)(?: : [^=\n]*?)?\s*=\s*(%s)\s+in(?![\w'-])\s*" % (ID, ID), body)
            if not m or m.group(2) in ("refl", "tt", "cc"):
                break
            rest = re.sub(r"(?<![\w'\u2080-\u2089.-])%s(?![\w'\u2080-\u2089-])" % re.escape(m.group(1)), m.group(2), body[m.end() :])
            body = body[: m.start()] + rest
        # a name for a step that hides a word is another name
        for m in list(re.finditer(r"let (%s)(\s*=\s*c\.(%s)\s+in)(?![\w'-])" % (ID, ID), body)):
            x = m.group(1)
            if x in self.imported and self.step(m.group(3)) in self.steps and re.search(r"(?<![\w'\u2080-\u2089.-])%s(?![\w'\u2080-\u2089.-])(?!\s*=\s*c\.)" % re.escape(x), body) and len(x) > 2:
                body = re.sub(r"(?<![\w'\u2080-\u2089.-])%s(?=\.[\w'])" % re.escape(x), x + "_call", body).replace(m.group(0), f"let {x}_call{m.group(2)}")
        # a name for the step of an arm is the step itself
        for a in list(re.finditer(r"let (%s)(?: : [^=\n]*?)?\s*=\s*c\.(%s)\s+in(?![\w'-])\s*" % (ID, ID), body)):
            if norm(a.group(2)) in self.arms and norm(a.group(2)) not in self.callee:
                body = body.replace(a.group(0), "", 1)
                body = re.sub(r"(?<![\w'\u2080-\u2089.-])%s(?![\w'\u2080-\u2089-])" % re.escape(a.group(1)), "c." + a.group(2), body)
        for a in list(re.finditer(r"let (%s)(?: : [^=\n]*?)?\s*=\s*(c\.(%s)\.given)\s+in(?![\w'-])\s*" % (ID, ID), body)):
            if norm(a.group(3)) in self.arms:
                body = body.replace(a.group(0), "", 1)
                body = re.sub(r"(?<![\w'\u2080-\u2089.-])%s(?![\w'\u2080-\u2089-])" % re.escape(a.group(1)), a.group(2), body)
        alias, pres = {}, set()

        def step(m):
            old = norm(m.group(1))
            return "." + self.steps[old] if old in self.steps else m.group(0)

        # names bound to steps and to requires
        for m in re.finditer(r"let (%s)(?: : [^=]*?)?\s*=\s*([\w']+)\.(%s)\s+in(?![\w'-])" % (ID, ID), body):
            if self.step(m.group(3)) in self.steps:
                alias[m.group(1)] = self.step(m.group(3))
            if m.group(3) == "requires":
                pres.add(m.group(1))
        # fields of a step: c.STEP.field, or alias.field
        newsteps = {}

        ctx = {"c"} | set(re.findall(r"let (%s)(?: : [^=]*?)? = c in" % ID, body)) | set(re.findall(r"\((%s) : tie\." % ID, body))

        def chain(m):
            head, dot, name, rest = m.group(1), m.group(2), m.group(3), m.group(4)
            old = self.step(name)
            if old not in self.steps or (head not in ctx and not (head == ")" and re.search(r"\((\S+) [^()\s]+$", m.string[: m.start()]) and re.search(r"\((\S+) [^()\s]+$", m.string[: m.start()]).group(1) in self.givers)):
                return m.group(0)
            for path in sorted(self.arms.get(old, {}), key=len, reverse=True):
                if rest == path or rest.startswith(path + "."):
                    return head + "." + self.arms[old][path] + rest[len(path) :]
            return head + "." + self.steps[old] + self.rest(old, rest)

        body = re.sub(r"(\b[\w']+|\))(\.)(%s)((?:\.[\w'-]+)*)" % ID, chain, body)
        for a, old in alias.items():
            body = re.sub(r"(?<![\w'.-])%s((?:\.[\w'-]+)+)" % re.escape(a), lambda m: a + self.rest(old, m.group(1)), body)
        for old, new in self.entry["args"]:
            o, n = old.split(), new.split()
            if len(o) == 2 and o[0] == n[0]:
                names_ = {m.group(1) for m in re.finditer(r"let (%s)\s*=\s*\S+%s\s+in(?![\w'-])" % (ID, re.escape(o[0])), body)}
                for v in names_:
                    body = re.sub(r"(?<![\w'.-])%s\%s(?![\w'-])" % (re.escape(v), o[1]), v + n[1], body)
                body = body.replace(o[0] + o[1] + ".", n[0] + n[1] + ".")
                body = re.sub(re.escape(o[0] + o[1]) + r"(?![\w'-])", n[0] + n[1], body)
            elif len(o) == 1:
                body = re.sub(re.escape(o[0]) + r"(?![\w'-])", n[0], body)
        # names for what a call ensures
        ens_of = [(m.group(1), next((o for o, n in self.steps.items() if n == m.group(3)), "")) for m in re.finditer(r"let (%s)(?: : [^=]*?)?\s*=\s*([\w']+)\.(%s)\.ensures\s+in(?![\w'-])" % (ID, ID), body)]
        ens_of += [(m.group(1), alias[m.group(2)]) for m in re.finditer(r"let (%s)(?: : [^=]*?)?\s*=\s*(%s)\.ensures\s+in(?![\w'-])" % (ID, ID), body) if m.group(2) in alias]
        for name_, old_ in ens_of:
            callee = self.callee.get(old_)
            ens = self.known.get(callee, ([], []))[1]
            if len(ens) > 1:
                def named(k, ens=ens):
                    c = self.clause(ens, k.group(2))
                    return k.group(1) + (c if c else k.group(2))

                body = re.sub(r"(?<![\w'.-])(%s)((?:\.[\w'-]+)+)" % re.escape(name_), named, body)
        if len(self.pre) > 1:
            def pre(m):
                c = self.clause(self.pre, m.group(2))
                return m.group(1) + (c if c else m.group(2))

            body = re.sub(r"(\.requires)((?:\.[\w'-]+)+)", pre, body)
            for a in list(re.finditer(r"let (%s)(?: : [^=\n]*?)?\s*=\s*((?:%s)(?:\.1)+)\s+in(?![\w'-])\s*" % (ID, "|".join(map(re.escape, sorted(pres) + ["c.requires"]))), body)):
                if self.clause(self.pre, a.group(2)[a.group(2).index(".1") :]) is None:
                    body = body.replace(a.group(0), "", 1)
                    body = re.sub(r"(?<![\w'\u2080-\u2089.-])%s(?![\w'\u2080-\u2089-])" % re.escape(a.group(1)), a.group(2), body)
            body = re.sub(r"(c\.requires)((?:\.[\w'-]+)+)", pre, body)
            for a in pres:
                body = re.sub(r"(?<![\w'.-])(%s)((?:\.[\w'-]+)+)" % re.escape(a), pre, body)
        return body

    def rest(self, old, rest):
        """the fields behind a step"""
        if old in self.fields:
            m = re.match(r"\.([\w'-]+)(.*)", rest)
            if m and m.group(1) in self.fields[old]:
                rest = "." + self.fields[old][m.group(1)] + m.group(2)
        callee = self.callee.get(old)
        m = re.match(r"\.(auto|new)((?:\.1)*)\.0(?!\d)(.*)", rest, re.S)
        if m and callee and callee in self.entry["params"]:
            k = len(m.group(2)) // 2
            params = self.entry["params"][callee]
            if k < len(params):
                rest = f".{m.group(1)}.{params[k]}{m.group(3)}"
        m = re.match(r"\.ensures((?:\.[\w'-]+)*)$", rest)
        if m and callee in self.known:
            ens = self.known[callee][1]
            if len(ens) > 1:
                c = self.clause(ens, m.group(1))
                if c:
                    rest = ".ensures" + c
        return rest


def blocks(text):
    """the comment, the imports, and the declarations: (name, lines)"""
    lines = text.split("\n")
    head, uses, decls, cur = [], [], [], None
    for line in lines:
        if line.startswith("use "):
            uses.append(line)
            continue
        if cur is None and (line.startswith("--") or not line.strip()) and not decls:
            head.append(line)
            continue
        if not line.strip():
            if cur:
                decls.append(cur)
                cur = None
            continue
        if cur is None:
            cur = []
        cur.append(line)
    if cur:
        decls.append(cur)
    merged = []
    for d in decls:
        if merged and d[0].startswith(" ") and any(l.startswith("module ") for l in merged[-1]):
            merged[-1] += [""] + d
        else:
            merged.append(d)
    decls = merged
    # a new declaration begins at a signature at the margin, also without a blank line
    out = []
    for d in decls:
        part = []
        for line in d:
            if any(l.startswith("module ") for l in part):
                part.append(line)
                continue
            if part and re.match(r"^(?:pub |abbrev |unfoldable |module |data |record )*\S+(?: [^=]*)? : ", line) and not line.startswith(" ") and not part[-1].startswith("--") and not re.match(r"^\S+ .*=", line):
                out.append(part)
                part = []
            part.append(line)
        out.append(part)
    return "\n".join(h for h in head if h.strip()), uses, out


def convert(fn, text):
    head, uses, decls = blocks(text)
    said = []
    fn.imported = {w.strip() for u in uses for l in re.findall(r"\{(.*?)\}", u) for w in l.split(",")}
    m = re.search(r"tie\.spec\b(.*)", text, re.S)
    args = re.findall(ID, m.group(1)) if m else []
    kinds = {}
    for d in decls:
        for line in d:
            s = re.match(r"^(?:pub |abbrev )*(%s) : tie\.(\S+)(.*)$" % ID, line)
            if s and s.group(2).startswith(("Need-", "invariant-", "decreases-")):
                kinds[s.group(1)] = s.group(2)
    needs = [a for a in args if a in kinds and kinds[a].startswith("Need-")]
    news = fn.entry["needs"]
    goal = {}
    if len(needs) == len(news):
        for a, (o, n) in zip(needs, news):
            goal[a] = (o, n)
    else:
        said.append(f"needs {len(needs)} now {len(news)}")
        by = {norm(o): (o, n) for o, n in news}
        for a in needs:
            k = norm(kinds[a][5:])
            for c in (k, re.sub(r"^(overflow|nonzero|bounds)_", "", k)):
                if c in by:
                    goal[a] = by[c]
                    break
            else:
                said.append(f"no goal for {a}")
    # helpers over a place, and the places that they give
    PL = r"tie\.((?:Start|After|Else|Then|In|At|Joined)[\w-]*)(?: invariant-\S+ decreases-[^\s)]+)*"
    over, gives = {}, {}
    for d in decls:
        sig = " ".join(l.strip() for l in d if not l.startswith("--"))
        h = re.match(r"(?:pub |abbrev |unfoldable )*(%s)\s*:\s*(?:\(%s : )?%s" % (ID, ID, PL), sig)
        if h and fn.place(h.group(2)) in fn.parent and h.group(1) not in kinds:
            over[h.group(1)] = fn.place(h.group(2))
            g = re.match(r"(?:pub |abbrev )*%s\s*:\s*%s → %s(?= %s )" % (re.escape(h.group(1)), PL, PL, re.escape(h.group(1))), sig) or re.match(r"(?:pub |abbrev )*%s\s*:\s*\(%s : %s\)\s*→ %s(?= %s )" % (re.escape(h.group(1)), ID, PL, PL, re.escape(h.group(1))), sig)
            if g and fn.place(g.group(2)) in fn.parent:
                gives[h.group(1)] = fn.place(g.group(2))
    fn.givers = set(gives)
    chained = False
    modules = {}
    for k, d in enumerate(decls):
        sig = " ".join(l.strip() for l in d if not l.startswith("--"))
        h = re.match(r"module _ \((%s) : %s\) where" % (ID, PL), sig)
        if h and fn.place(h.group(2)) in fn.parent:
            chained = True
            modules[k] = (h.group(1), fn.place(h.group(2)))
            for m_ in re.finditer(r"^  (?:abbrev |pub |unfoldable )*(%s)\s*:\s*(.*)" % ID, "\n".join(d), re.M):
                over[m_.group(1)] = fn.place(h.group(2))
                g = re.match(PL + "$", m_.group(2))
                if g and fn.place(g.group(1)) in fn.parent:
                    gives[m_.group(1)] = fn.place(g.group(1))
    for d in decls:
        sig = next((l for l in d if not l.startswith("--")), "")
        s = re.match(r"^(?:pub |abbrev |unfoldable )*(%s)" % ID, sig)
        if s and s.group(1) in over and any(re.search(r"(?<![\w'.-])%s(?![\w'-])" % re.escape(h), "\n".join(d)) for h in over if h != s.group(1)):
            chained = True
        if re.match(r"module _ \(\S+ : tie\.", sig):
            said.append("module over a place")
    if chained:
        said.append("chained")

    typed_ = {}

    def short(m):
        """a place by a name of the file's own"""
        q = fn.place(m.group(1))
        if q not in fn.oldplace:
            return m.group(0)
        typed_[fn.oldplace[q]] = fn.lts(q)
        return fn.oldplace[q]

    def expand(text_, env, goal_, clause_=None):
        """what stands at a place, said by the way to it"""
        for m in re.finditer(r"let (%s)(?: : [^=\n]*?)?\s*=\s*(%s)\s+\(?c\)?\s+in(?![\w'-])" % (ID, ID), text_):
            if m.group(2) in gives:
                env[m.group(1)] = gives[m.group(2)]

        lets_ = {}

        def bound(way_, place_):
            """a long way has a name"""
            if clause_ is None or way_.count(".before") < 3:
                return way_
            n = "start" if place_ == "start" else "at_" + re.sub(r"^(after|then|else|in|at|joined)_", "", place_).rstrip("_0123456789")
            while (n in over or re.search(r"(?<![\w'.-])%s(?![\w'-])" % re.escape(n), text_)) and n not in lets_ or lets_.get(n, way_) != way_:
                n += "'"
            lets_[n] = way_
            return n

        def call(m):
            h, v = m.group(1), m.group(2) or m.group(3)
            way = fn.up(env[v], over[h])
            if way is None:
                said.append(f"no way from {env[v]} to {over[h]} for {h}")
                return m.group(0)
            return f"{h} " + bound(f"{v}{'.before' if goal_ and v == 'c' and env[v] not in fn.plain else ''}{way}", over[h])

        if over:
            every = "|".join(map(re.escape, env))
            text_ = re.sub(r"(?<![\w'.-])(%s) (?:\((%s)\)|(%s))(?![\w'.-])" % ("|".join(re.escape(h) for h in sorted(over, key=len, reverse=True)), every, every), call, text_)

        def field(m):
            v, f = m.group(1), m.group(2)
            way = fn.way(env[v], f)
            if way is None or (goal_ and v == "c"):
                return m.group(0)
            return bound(f"{v}{way}", "start" if f in ("args", "requires", "ranges") else norm(f)) + "." + f

        text_ = re.sub(r"(?<![\w'.-])(%s)\.(%s)" % ("|".join(map(re.escape, env)), ID), field, text_)

        def given(m):
            way = fn.way(gives[m.group(2)], m.group(3))
            return m.group(0) if way is None else f"{m.group(1)}{way}.{m.group(3)}"

        if gives:
            text_ = re.sub(r"(\((%s) [^()\s]+\))\.(%s)" % ("|".join(map(re.escape, gives)), ID), given, text_)
        if lets_:
            m = re.search(r"(?m)^%s(?: [^=\n:]*)? =[ \n]*" % re.escape(clause_), text_)
            if m:
                text_ = text_[: m.end()].rstrip() + "\n    " + "\n    ".join(f"let {n} = {w} in" for n, w in lets_.items()) + "\n    " + text_[m.end() :]
            else:
                for n, w in lets_.items():
                    text_ = re.sub(r"(?<![\w'.-])%s(?![\w'-])" % re.escape(n), w, text_)
        return text_

    loops = {norm(l[0][0]): (l[0][1], l[1], ch) for l, ch in zip(fn.entry["loops"], fn.entry["changed"])}
    inv, ans = [], []
    places = set()
    dropped = []
    for k, d in enumerate(decls):
        text_d = "\n".join(d)
        if k in modules:
            v, place_ = modules[k]
            fn.raw = True
            body = expand(fn.turn(text_d), {v: place_}, False)
            fn.raw = False
            # a member that is a place above
            for m_ in re.finditer(r"^  (%s) =\s*%s$" % (ID, re.escape(v)), body, re.M):
                if m_.group(1) in gives:
                    body = body.replace(m_.group(0), m_.group(0) + fn.up(place_, gives[m_.group(1)]))
            # fields of a member that is a place
            for g_, q_ in gives.items():
                def memb(m):
                    way = fn.way(q_, m.group(1))
                    return m.group(0) if way is None else f"{g_}{way}.{m.group(1)}"
                body = re.sub(r"(?<![\w'.-])%s\.(%s)" % (re.escape(g_), ID), memb, body)
            body = re.sub(PL, short, body)
            ans.append(body)
            if "tie." in body:
                said.append("module: tie.")
            continue
        sig = next((l for l in d if not l.startswith("--")), "")
        s = re.match(r"^(?:pub |abbrev |unfoldable )*(%s)" % ID, sig)
        name = s.group(1) if s else ""
        if "tie.close" in text_d and "statement M" in text_d:
            continue
        kind = kinds.get(name, "")
        if kind.startswith(("invariant-", "decreases-")):
            word, loop = kind.split("-", 1)
            if norm(loop) not in loops:
                said.append(f"no loop {loop}")
                continue
            new, vars_, changed = loops[norm(loop)]
            i = next(i for i, l in enumerate(d) if l.startswith(name + " ") and "=" in l and " : tie." not in l)
            body = "\n".join(d[i:])
            m = re.match(r"%s((?: [^\s=]+)*) =(.*)" % re.escape(name), body, re.S)
            params = m.group(1).split()
            terms = [v for v, c in zip(vars_, changed)]
            first = [f"l.{v}" if not c else f"l.initial.{v}" for v, c in zip(vars_, changed)]
            want = first + [f"l.{v}" for v, c in zip(vars_, changed) if c]
            extra = len(params) - len(want)
            if extra != 0:
                said.append(f"{name}: {len(params)} arguments, {len(want)} wanted: {params} {want}")
            sub = dict(zip(params, want))
            sub.pop("_", None)
            rest = re.sub(r"(?<![\w'\u2080-\u2089.-])(%s)(?![\w'\u2080-\u2089-])" % "|".join(re.escape(p) for p in sorted(sub, key=len, reverse=True)), lambda k: sub[k.group(1)], m.group(2)) if sub else m.group(2)
            target = f"{word}-{new}"
            pre = [l for l in d[:i] if l.startswith("--") or l.startswith("unfolding")]
            com = [l for l in pre if l.startswith("--")]
            unf = [l for l in pre if l.startswith("unfolding")]
            inv.append("\n".join(com + [f"abbrev pub {target} : goal.{target}"] + unf) + f"\n{target} l =" + rest)
            continue
        fn.raw = chained and name in over
        body = fn.turn(text_d)
        fn.raw = False
        if chained and name in goal:
            body = expand(body, {"c": fn.askedat[goal[name][1]]}, True, name)
        if chained and name in over:
            at_ = re.search(r"\n%s(?! *:)[^:\n]*=" % re.escape(name), body)
            i = at_.start() if at_ else 0
            par = re.search(r"\n%s (%s)" % (re.escape(name), ID), body[i:])
            v = par.group(1) if par else "c"
            head_, tail_ = body[:i], body[i:]
            sv = re.search(r":\s*\((%s) : tie" % ID, head_)
            head_ = expand(head_, {sv.group(1): over[name]}, False) if sv else head_
            tail_ = expand(tail_, {v: over[name]}, False, name)
            if name in gives:
                tail_ = re.sub(r"=(\s*)%s\s*$" % re.escape(v), lambda m: f"={m.group(1)}{v}{fn.up(over[name], gives[name])}", tail_)
            body = re.sub(PL, short, head_ + tail_)
            # the name binds a value: in an arrow a type of several words needs no brackets, under `:` neither
            ans.append(body)
            if "tie." in body:
                said.append(f"helper {name}: tie.")
            continue
        if name in goal:
            old, new = goal[name]
            i = next(i for i, l in enumerate(d) if re.match(r"^%s(?: [^=]*)? =" % re.escape(name), l))
            lines = body.split("\n")
            com = [l for l in lines[:i] if l.startswith("--")]
            unf = [l for l in lines[:i] if l.startswith("unfolding")]
            rest = "\n".join(lines[i:])
            m = re.match(r"%s([^=]*) =(.*)" % re.escape(name), rest, re.S)
            params = [p for p in m.group(1).split() if not p.startswith("κ")]
            term = m.group(2)
            at = final(term)
            last = term[at:].strip()
            if at == 0 and last in ("tt", "search rules", "omega arith", "_"):
                if last != "omega arith":
                    dropped.append(new)
                    continue
            if old in fn.entry["asked"] and len(fn.entry["asked"][old]) > 1:
                names = fn.entry["asked"][old]
                parts = tuple_of(last, len(names))
                front = ""
                if not parts and last.startswith("rw ") and last.endswith(")"):
                    i_, d_ = len(last) - 1, 0
                    while True:
                        d_ += (last[i_] in ")]}") - (last[i_] in "([{")
                        if d_ == 0:
                            break
                        i_ -= 1
                    parts = tuple_of(last[i_:], len(names))
                    front = last[:i_] if parts else ""
                if front:
                    term = term[:at] + " " + front + "(record { " + "; ".join(f"{a} = {b}" for a, b in zip(names, parts)) + " })"
                elif parts:
                    term = term[:at] + " record { " + "; ".join(f"{a} = {b}" for a, b in zip(names, parts)) + " }"
                else:
                    said.append(f"{new}: clauses {names}")
                    parts = partial(last, names, fn.pre, term) or fields_of(term, last, names, fn.pre, term)
                    term = term[:at] + " record { " + "; ".join(f"{a} = {b}" for a, b in zip(names, parts)) + " }"
            if re.match(r"returns(-\d+)?$", old) and len(fn.own[1]) > 1:
                parts = tuple_of(last, len(fn.own[1]))
                if parts:
                    term = term[:at] + " record { " + "; ".join(f"{a} = {b}" for a, b in zip(fn.own[1], parts)) + " }"
                else:
                    said.append(f"{new}: clauses {fn.own[1]}")
                    parts = fields_of(term, last, fn.own[1], [], term)
                    term = term[:at] + " record { " + "; ".join(f"{a} = {b}" for a, b in zip(fn.own[1], parts)) + " }"
            ans.append("\n".join(com + [f"pub {new} : goal.{new}"] + unf) + f"\n{new} {' '.join(params)} =" + term)
            continue
        # a helper
        def place(m):
            p = fn.place(m.group(1))
            if p in fn.placenames:
                places.add(fn.placenames[p])
                return fn.placenames[p]
            return m.group(0)

        body = re.sub(r"\btie\.((?:Start|After|Else|Then|In|At|Joined)[\w-]*)(?: invariant-\S+ decreases-[^\s)]+)*", place, body)
        if "tie." in body:
            said.append(f"helper {name}: tie.")
        if places:
            said.append(f"helper {name}: over {sorted(places)}")
        ans.append(body)
    # a helper over a place is handed that place of the goal
    over = {}
    for a in [] if chained else ans:
        m = re.search(r"^(?:pub |abbrev |unfoldable )*(%s) :\s*(?:\(%s : )?((?:Start|After|Else|Then|In|At|Joined)[\w-]*)\b" % (ID, ID), a, re.M)
        if m and m.group(2) in set(fn.placenames.values()):
            over[m.group(1)] = m.group(2)
    for k, a in enumerate(ans):
        m = re.search(r"^pub (%s) : goal\.(\S+)$" % ID, a, re.M)
        if not m or m.group(1) != m.group(2):
            continue
        for h, place_ in over.items():
            a = re.sub(r"(?<![\w'.-])%s (?:\(c\)|c(?![\w'.-]))" % re.escape(h), f"{h} (goal.at.{m.group(1)} c).{place_}", a)
        ans[k] = a
    ans = [f"abbrev {n} : Type 0\n{n} = {v}" for n, v in typed_.items()] + ans
    keep = [u for u in uses if ".Statement.{" not in u and ".Tie" not in u]
    base = f"Rattle.{fn.crate}.proofs.{fn.name}"
    out = {}
    if inv:
        out["Invariants.antt"] = (head + "\n" if head else "") + "\n".join(keep + [f"use {base}.Given as goal"]) + "\n\n" + "\n\n".join(inv) + "\n"
    if ans:
        more = [f"use {base}.Goals.{{{', '.join(sorted(places))}}}"] if places else []
        if chained:
            more += [f"use {base}.{m}" for m in ("Lts", "Reads", "Tie")]
        out["Answers.antt"] = (head + "\n" if head else "") + "\n".join(keep + [f"use {base}.Goals as goal"] + more) + "\n\n" + "\n\n".join(ans) + "\n"
    for k in out:
        if "tie." in out[k]:
            said.append(f"{k}: tie. is left")
        if "⊎_elim" in out[k] and ".branch" in out[k]:
            said.append(f"{k}: branch")
    return out, said


def main():
    root, names = sys.argv[1], sys.argv[2]
    known = contracts(root)
    only = [w.split("/") for w in sys.argv[3:] if "/" in w]
    for c in sorted({w.split("/")[0] for w in sys.argv[3:]}) or sorted(os.listdir(os.path.join(root, "crates"))):
        p = os.path.join(names, "crates", c, "names.json")
        if not os.path.exists(p):
            continue
        with open(p) as f:
            j = json.load(f)
        for d, _, fs in sorted(os.walk(os.path.join(root, "crates", c, "proofs"))):
            if "Proof.antt" not in fs:
                continue
            if only and c in {o[0] for o in only} and not any(o[0] == c and os.path.relpath(d, os.path.join(root, "crates", c, "proofs")) == o[1] for o in only):
                continue
            name = os.path.relpath(d, os.path.join(root, "crates", c, "proofs")).replace(os.sep, ".")
            key = f"Rattle-{c}-proofs.{name}.Lts"
            if key not in j:
                print(f"{c}: {name}: not in names")
                continue
            try:
                out, said = convert(Fn(c, name, j[key], known), read(os.path.join(d, "Proof.antt")))
            except Exception as e:
                print(f"{c}: {name}: {type(e).__name__} {e}")
                continue
            for k, v in out.items():
                with open(os.path.join(d, k), "w", encoding="utf-8") as f:
                    f.write(v)
            os.remove(os.path.join(d, "Proof.antt"))
            for s in said:
                print(f"{c}: {name}: {s}")


if __name__ == "__main__":
    main()
