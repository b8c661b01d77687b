#!/usr/bin/env python3
"""Turns proofs that walk the code by hand (Proof.antt) into the invariants and answers of today's Rattle.

usage: python3 tools/port_proofs.py CRATE_FOLDER NAMES.json      NAMES.json by: rt check --generated DIR --old-names

Each Proof.antt becomes Invariants.antt (loops and measures) and Answers.antt (the goals that were answered; those that the old file left to
the search are left out). A chain of `.before` becomes the step's own name. What it cannot turn is marked by TODO.
"""

import json
import os
import re
import sys

IDENT = r"[^\s(){}\[\].,;:«»\"]+"
TOKEN = re.compile(r"(--(?:\s[^\n]*|$)|--\n)|(\s+)|(" + IDENT + r")|(.)", re.M)


def norm(s):
    return s.replace("-", "_")


def tokens(text):
    out = []
    for m in TOKEN.finditer(text):
        out.append(m[0])
    return out


def clause_names(root):
    """The names of the clauses of each function that has several of a kind: (path, kind) to names."""
    out = {}
    for folder, dirs, files in os.walk(root):
        dirs[:] = [d for d in dirs if d not in ("out", ".git")]
        for f in files:
            if not f.endswith(".rt"):
                continue
            t = open(os.path.join(folder, f), encoding="utf-8").read()
            crate = os.path.relpath(folder, root).split("/")[0]
            fn, kinds = None, {}
            for line in t.split("\n"):
                m = re.search(r"\bfn (\w+)", line)
                if m and not line.strip().startswith("//"):
                    fn, kinds = m[1], {}
                m = re.match(r"\s+(requires|ensures) (\w+) \{", line)
                if m and fn:
                    kinds.setdefault(m[1], []).append(m[2])
                    if len(kinds[m[1]]) > 1:
                        out[f"{crate}::{f[:-3]}::{fn}", m[1]] = kinds[m[1]]
    return out


class Fn:
    """One function's names."""

    def __init__(self, key, v):
        self.key = key
        self.v = v
        self.places = v["places"]
        self.index = {p[0]: i for i, p in enumerate(self.places)}
        self.nindex = {norm(p[0]): i for i, p in enumerate(self.places)}
        self.needs = {norm(o): n for o, n in v["needs"]}
        self.stem = v["stem"]
        self.cycle = ".+" in key
        # Rattle-layout-proofs.decimal.+put_decimal.Lts-put_decimal is layout::decimal::put_decimal
        parts = key.split(".")
        crate = parts[0].split("-")[1]
        name = parts[-1][4:] if parts[-1].startswith("Lts-") else parts[-2]
        mods = [x for x in parts[1:-2]]
        self.path = "::".join([crate] + mods + [name])

    def place(self, name):
        return self.nindex.get(norm(name))

    def parent(self, i):
        p = self.places[i][1]
        return None if p is None else self.index[p]

    def new_place(self, i):
        arm = self.v["arms"][i]
        if arm:
            for j in range(len(self.places) - 1, i - 1, -1):
                other = self.v["arms"][j]
                if other and other[0] == arm[0] and self.under(j, i):
                    return self.v["places_by_name"][j]
        return self.v["places_by_name"][i]

    def under(self, j, i):
        while j is not None and j != i:
            j = self.parent(j)
        return j == i


START = {"args", "requires", "pre", "well_formed", "ranges", "lifetimes", "decreases", "good", "requires_raw"}


class Path:
    """A place, with fields behind it."""

    def __init__(self, fn, base, place, fields=(), root=None):
        self.fn, self.base, self.place, self.fields = fn, base, place, tuple(fields)
        self.root = place if root is None else root

    def then(self, fields):
        p = self
        place, have = p.place, list(p.fields)
        for f in fields:
            if not have and f == "before":
                up = p.fn.parent(place)
                if up is None:
                    have.append(f)
                else:
                    place = up
            else:
                have.append(f)
        return Path(p.fn, p.base, place, have, p.root)

    def show(self):
        fn, rest = self.fn, list(self.fields)
        if not rest:
            return self.base
        f = norm(rest[0])
        if f in ("requires", "pre") and fn.cycle and rest[1:2] in (["0"], ["1"]):
            # in a cycle the measure stood before what is asked
            rest = ["decreases"] + rest[2:] if rest[1] == "0" else ["requires"] + rest[2:]
            f = rest[0]
        if f in START:
            f = {"pre": "requires", "good": "well_formed"}.get(f, f)
            own = CLAUSES.get((fn.path, "requires"))
            if f == "requires" and own:
                if len(rest) > 1 and rest[1].isdigit():
                    rest[1] = own[int(rest[1])]
                elif len(rest) == 1:
                    return "(" + ", ".join(f"{self.base}.requires.{n}" for n in own) + ")"
            return ".".join([self.base, f] + [norm(x) if not x.isdigit() else x for x in rest[1:]])
        q = self.place
        while q is not None and norm(fn.places[q][2][0]) != f:
            q = fn.parent(q)
        if q is None:
            # a field of the new names already
            return ".".join([self.base] + rest)
        step = fn.places[q][2][1]
        tail = rest[1:]
        typed = {norm(o): n for n, o in (fn.v["typed"][self.root] or [])}
        if f in typed and tail[:1] == ["given"]:
            return ".".join([self.base, "type_inv", typed[f]] + tail[1:])
        for a in range(q, len(fn.places)):
            arm = fn.v["arms"][a]
            if not arm or not (a == q or self.below(a, q)):
                continue
            for newf, oldf, oldpath in arm[2]:
                if newf.endswith("-own"):
                    continue
                if norm(oldf) == f and tail[: len(oldpath)] == oldpath:
                    return ".".join([self.base, arm[0], newf] + [norm(x) for x in tail[len(oldpath) :]])
        if f.startswith("match") and tail and re.match(r"keys\d+$", tail[0]) and "in_default" in step:
            vs = [p[2][1] for p in fn.places if p[1] == fn.places[q][1] and norm(p[2][0]) == f and p[2][1].startswith("in-")]
            if len(vs) == 1:
                NOTS[".".join([self.base, step])] = re.match(r"in-(\w+)", vs[0])[1]
            return ".".join([self.base, step, step + "-own"] + tail)
        if f.startswith("match") and tail and re.match(r"keys\d+$", tail[0]):
            return ".".join([self.base, step, "is"] + tail[1:])
        tail = [norm(x) if not x.isdigit() else x for x in tail]
        callee = fn.places[q][3]
        names = CLAUSES.get((callee, "ensures"))
        if names and tail[:1] == ["ensures"]:
            if len(tail) > 1 and tail[1].isdigit():
                tail[1] = names[int(tail[1])]
            elif len(tail) == 1:
                return "(" + ", ".join(".".join([self.base, step, "ensures", n]) for n in names) + ")"
        if tail and (f.startswith("if") or f.endswith("test")):
            tail[0] = {"taken": "true", "left": "false"}.get(tail[0], tail[0])
        if tail and tail[0] == "inv":
            tail[0] = "invariant"
        if re.search(r"(^if|-if)-not-", step) and len(tail) == 1 and tail[0] in ("true", "false"):
            self.fn.negated = True
            return "(ap not " + ".".join([self.base, step] + tail) + ")"
        if f.startswith("match") and tail[:1] == ["rest"]:
            return ".".join([self.base, step, step + "-own"] + tail)
        return ".".join([self.base, step] + tail)

    def below(self, a, q):
        while a is not None:
            if a == q:
                return True
            a = self.fn.parent(a)
        return False


class File:
    def __init__(self, crate, folder, names):
        self.crate, self.folder = crate, folder
        self.path = os.path.join(folder, "Proof.antt")
        rel = os.path.relpath(folder, os.path.join(crate, "proofs")).split("/")
        self.name = os.path.basename(os.path.abspath(crate))
        self.module = ".".join(["Rattle", self.name, "proofs"] + rel)
        head = f"Rattle-{self.name}-proofs." + ".".join(rel)
        self.cycle = rel[-1].startswith("+")
        self.fns = {}
        for k, v in names.items():
            if k == head + ".Lts":
                self.fns["tie"] = Fn(k, v)
            elif k.startswith(head + ".Lts-"):
                f = k[len(head) + 5 :]
                self.fns[norm(f) + "_lts"] = Fn(k, v)
        text = open(self.path, encoding="utf-8").read()
        # `f t c .x .y` is `(f t c).x.y`, and `c .x` is `c.x`
        text = re.sub(
            r"((?:[(=,\n]|\bin)\s*)([\w'₀-₉-]+(?: [\w'₀-₉-][\w'.₀-₉-]*)+)((?: \.\w[\w-]*)+)",
            lambda m: m[1] + "(" + m[2] + ")" + m[3].replace(" ", ""),
            text,
        )
        self.text = re.sub(r"(?<=[^\s(=→λ]) \.(?=\w)", ".", text)

    def fn_of(self, word):
        return self.fns.get(norm(word))

    def run(self):
        NOTS.clear()
        if not self.fns:
            print("TODO no names for", self.folder)
            return
        self.text = self.out_of_module(self.text)
        lines = self.text.split("\n")
        head, body = [], []
        uses, chunks, cur = [], [], []
        self.header = []
        joined = []
        for line in lines:
            if joined and joined[-1].startswith("use ") and ("{" in joined[-1] and "}" not in joined[-1] or line.startswith("    as ")):
                joined[-1] += " " + line.strip()
            else:
                joined.append(line)
        lines = [re.sub(r",\s*\}", "}", re.sub(r"\{ ", "{", l)) if l.startswith("use ") else l for l in joined]
        for line in lines:
            if line.startswith("use "):
                uses.append(line)
            elif not uses and line.startswith("--"):
                self.header.append(line)
            elif not line.strip():
                if cur:
                    chunks.append(cur)
                cur = []
            else:
                cur.append(line)
        if cur:
            chunks.append(cur)
        # a chunk that is indented goes on with the one before
        merged = []
        for c in chunks:
            if merged and (c[0].startswith(" ")):
                merged[-1] += [""] + c
            else:
                merged.append(c)
        self.uses = [u for u in uses if self.keep_use(u)]
        self.families = set()
        self.local, self.placefns, self.helpers, self.placetypes = set(), {}, {}, {}
        self.renames = {}
        self.answers, self.invariants, self.others = [], [], []
        self.records = set()
        parsed = [self.parse(c) for c in merged]
        for p in parsed:
            if p["name"] and "-" in p["name"]:
                self.renames[p["name"]] = p["name"].replace("-", "_")
        for p in parsed:
            self.classify(p)
        self.goals = {p["name"]: p for p in parsed if p["kind"] == "goal"}
        self.number_temps(parsed)
        for p in parsed:
            self.emit(p)
        self.write()

    def out_of_module(self, text):
        """What stands in `module _ (t : ℕ) where`, at the top, with t written out."""
        m = re.search(r"^module _ \(t : ℕ\) where\n", text, re.M)
        if not m:
            return text
        lines = text[m.end() :].split("\n")
        inside, k = [], 0
        while k < len(lines) and (not lines[k].strip() or lines[k].startswith("  ")):
            inside.append(lines[k][2:] if lines[k].strip() else "")
            k += 1
        blocks = re.split(r"\n\n+", "\n".join(inside).strip("\n"))
        parsed = []
        for b in blocks:
            parsed.append(self.parse(b.split("\n")))
        fns = set()
        for p in parsed:
            typ = self.head_type(p["sig"])
            p["how"] = "family" if ".Claims" in typ else "type" if re.match(r"\s*Type 0\s*$", typ) else "function"
            if p["name"] and p["how"] == "function":
                fns.add(p["name"])

        def with_t(body):
            toks = tokens(body)
            def label(i):
                k = self.skip(toks, i + 1)
                return k < len(toks) and toks[k] == "="

            return "".join(tk + " t" if tk in fns and (i == 0 or toks[i - 1] != ".") and not label(i) else tk for i, tk in enumerate(toks))

        out = []
        for p in parsed:
            sig = p["sig"]
            if p["how"] == "family":
                sig = re.sub(r"→ Type 0\s*$", "→ ℕ → Type 0", sig)
                out.append("\n".join(p["comments"] + [sig, p["defs"]]))
            elif p["how"] == "type":
                sig = re.sub(r"Type 0\s*$", "ℕ → Type 0", sig)
                out.append("\n".join(p["comments"] + [sig, p["defs"]]))
            else:
                head, rest = sig.split(":", 1)
                rest = with_t(rest)
                sig = head + ": (t : ℕ) " + ("" if rest.lstrip().startswith("(c") else "→ ") + rest.lstrip()
                unf, params, body = self.clause(p)
                defs = "\n".join(unf + [" ".join([p["name"], "t"] + (params or [])) + " =" + (" " if "\n" not in body else "\n    ") + with_t(body.strip())])
                out.append("\n".join(p["comments"] + [sig, defs]))
        return text[: m.start()] + "\n\n".join(out) + "\n\n" + "\n".join(lines[k:])

    def keep_use(self, u):
        if re.search(r"\.(Statement\.\{statement\}|Tie as tie|Tie\.\{close\}|Reads as|Kinds as|Lts(-[\w-]+)? as)", u):
            return False
        if re.search(r"\.\{statement\}$", u) or re.match(r"use borrow\.Fn\.(Kinds|PlainCycle)", u):
            return False
        return True

    def parse(self, chunk):
        comments = []
        while chunk and chunk[0].startswith("--"):
            comments.append(chunk[0])
            chunk = chunk[1:]
        text = "\n".join(chunk)
        m = re.match(r"(abbrev |unfoldable )?(pub )?(data |record |module )?(" + IDENT + r")", text)
        name = m[4] if m and not (m[3] or "").startswith("module") else None
        sig, defs = text, ""
        if name:
            # the definition starts at a line that begins with the name again (or unfolding)
            k = None
            for i, line in enumerate(chunk[1:], 1):
                if line.startswith("unfolding") or re.match(re.escape(name) + r"(\s|$)", line):
                    k = i
                    break
            if k is not None:
                sig, defs = "\n".join(chunk[:k]), "\n".join(chunk[k:])
        return {"comments": comments, "text": text, "name": name, "sig": sig, "defs": defs, "kind": None}

    def head_type(self, sig):
        return sig.split(":", 1)[1] if ":" in sig else ""

    def place_of_type(self, text):
        """The place that a type names: tie.A .., x-lts.A .., or an alias."""
        m = re.match(r"\(?\s*(" + IDENT + r")(?:\.(" + IDENT + r"))?", text.strip())
        if m and not m[2] and m[1] in self.families:
            m = re.match(r"\(?\s*" + re.escape(m[1]) + r"\s+(" + IDENT + r")\.(" + IDENT + r")", text.strip())
        if not m:
            return None
        if m[2]:
            fn = self.fn_of(m[1])
            if fn is None:
                return None
            i = fn.place(m[2])
            return None if i is None else (fn, i)
        return self.placetypes.get(m[1])

    def classify(self, p):
        name, sig, defs = p["name"], p["sig"], p["defs"]
        if name is None:
            p["kind"] = "raw"
            return
        typ = self.head_type(sig)
        if m := re.match(r"\s*\(\s*(" + IDENT + r")\.Claims\b[\s\S]*→ ℕ → Type 0\s*$", typ):
            self.families.add(name)
            p["kind"] = "drop"
        elif "statement M" in typ and re.search(r"[-_]spec$", name):
            p["kind"] = "drop"
        elif re.search(r"→ In \d |^\s*ℕ → In \d", typ) or re.search(r"\.Claims\b", typ):
            p["kind"] = "drop"
        elif m := re.search(r"(?:^|[\s(])(" + IDENT + r")\.Need-(" + IDENT + r")", typ):
            p["kind"] = "goal"
            p["fn"] = self.fn_of(m[1])
            old = re.sub(r"^overflow-", "", m[2])
            p["old"] = old
        elif m := re.search(r"(" + IDENT + r")\.(?:invariant|Inv)[-T]*-?(loop[^\s]*)", typ):
            p["kind"], p["fn"], p["loop"] = "invariant", self.fn_of(m[1]), m[2]
        elif m := re.search(r"(" + IDENT + r")\.decreases-(loop[^\s]*)", typ):
            p["kind"], p["fn"], p["loop"] = "measure", self.fn_of(m[1]), m[2]
        elif re.search(r"Measures \d ", typ):
            p["kind"] = "decreases"
            f = norm(re.sub(r"^μ[-_]", "", name))
            p["fn"] = self.fns.get(f + "_lts") or (list(self.fns.values())[0] if len(self.fns) == 1 else None)
        elif re.match(r"\s*(ℕ → )?Type 0\s*$", typ) and (pt := self.place_of_type(re.sub(r"^\S+(?:\s+\w+)*\s*=\s*", "", defs))):
            p["kind"] = "placetype"
            self.placetypes[name] = pt
        else:
            # place functions and helpers
            t = typ.strip()
            t0 = re.sub(r"^\(t : ℕ\)\s*(→\s*)?", "", t)
            p["t"] = t0 != t
            m = re.match(r"\((" + IDENT + r") : ([^()]*(?:\([^()]*\)[^()]*)*)\)\s*", t0)
            if m and (pt := self.place_of_type(m[2])):
                p["kind"], p["fn"], p["place"] = "helper", pt[0], pt[1]
                self.helpers[name] = p
            else:
                arrow = t0.split("→", 1)
                if len(arrow) == 2 and (pt := self.place_of_type(arrow[0])):
                    res = self.place_of_type(arrow[1])
                    p["fn"], p["place"] = pt
                    if (res and arrow[1].count("→") == 0) or (sig.startswith("abbrev") and self.is_path(p)):
                        p["kind"], p["fn"], p["place"] = "placefn", pt[0], pt[1]
                        self.placefns[name] = p
                    else:
                        p["kind"], p["fn"], p["place"] = "helper", pt[0], pt[1]
                        self.helpers[name] = p
                else:
                    p["kind"] = "lemma"

    def is_path(self, p):
        """Whether a value at a place is a path from there."""
        unf, params, body = self.clause(p)
        if params is None:
            return False
        toks = tokens(body.strip())
        got = self.expr(toks, 0, {params[-1]: Path(p["fn"], "c", p["place"])})
        return bool(got) and self.skip(toks, got[1]) >= len(toks)

    def clause(self, p):
        """(unfolding lines, parameters, body) of a definition with one clause."""
        unf, d = [], p["defs"]
        while d.startswith("unfolding"):
            line, _, d = d.partition("\n")
            unf.append(line)
        m = re.match(re.escape(p["name"]) + r"((?:\s+(?!=\s)" + IDENT + r")*?)\s+=(?=\s)\s*", d)
        if not m:
            return unf, None, d
        return unf, m[1].split(), d[m.end() :]

    # ---- rewriting

    def rewrite(self, text, env, goal=None):
        self.goal = goal
        toks = tokens(text)
        out, i = [], 0
        env = dict(env)
        depth, shadows = 0, []
        while i < len(toks):
            t = toks[i]
            if t == "let":
                j = self.skip(toks, i + 1)
                name = toks[j]
                k = self.skip(toks, j + 1)
                if k < len(toks) and toks[k] == "=":
                    e = self.skip(toks, k + 1)
                    got = self.place_expr(toks, e, env)
                    if got and self.skip(toks, got[1]) < len(toks) and toks[self.skip(toks, got[1])] == "in":
                        env[name] = got[0]
                        i = self.skip(toks, got[1]) + 1
                        if i < len(toks) and toks[i].isspace():
                            i += 1
                        continue
                env.pop(name, None)
                if "-" in name:
                    self.renames[name] = name.replace("-", "_")
                out.append(t)
                i += 1
                continue
            if t in "([{":
                depth += 1
            elif t in ")]}":
                depth -= 1
                while shadows and shadows[-1][0] > depth:
                    _, name, old = shadows.pop()
                    env[name] = old
            if t == "λ":
                j = i + 1
                while j < len(toks) and toks[j] != ".":
                    if toks[j] in env:
                        shadows.append((depth, toks[j], env.pop(toks[j])))
                    j += 1
                out.append("".join(toks[i : j + 1]))
                i = j + 1
                continue
            prev = toks[i - 1] if i else ""
            if t in self.goals and prev != ".":
                got = self.goal_call(toks, i, env)
                if got:
                    out.append(got[0])
                    i = got[1]
                    continue
            if t in self.helpers and prev != ".":
                got = self.helper_call(toks, i, env)
                if got:
                    out.append(got[0])
                    i = got[1]
                    continue
            if prev != "." and (t in env or t == "(" or t in self.placefns):
                got = self.place_expr(toks, i, env)
                if got:
                    out.append(got[0].show())
                    i = got[1]
                    continue
            if prev != "." and t in self.renames:
                t = self.renames[t]
            elif prev == "." and t in ("taken", "left") and re.match(r"(if|loop)", toks[i - 2] if i > 1 else ""):
                t = {"taken": "true", "left": "false"}[t]
            out.append(t)
            i += 1
        return "".join(out)

    def skip(self, toks, i):
        while i < len(toks) and (toks[i].isspace() or toks[i].startswith("-- ")):
            i += 1
        return i

    def chain(self, toks, i):
        fields = []
        while i + 1 < len(toks) and toks[i] == "." and re.match(IDENT + "$", toks[i + 1]):
            fields.append(toks[i + 1])
            i += 2
        return fields, i

    def atom(self, toks, i, env):
        """An atom that is a path: (Path, next)."""
        if i >= len(toks):
            return None
        t = toks[i]
        if t in env:
            fields, j = self.chain(toks, i + 1)
            return env[t].then(fields), j
        if t == "(":
            j = self.skip(toks, i + 1)
            got = self.expr(toks, j, env)
            if not got:
                return None
            j = self.skip(toks, got[1])
            if j >= len(toks) or toks[j] != ")":
                return None
            fields, j = self.chain(toks, j + 1)
            return got[0].then(fields), j
        return None

    def expr(self, toks, i, env):
        t = toks[i] if i < len(toks) else ""
        if t in self.placefns:
            j = self.skip(toks, i + 1)
            if self.placefns[t].get("t"):
                j = self.skip(toks, j + 1)
            got = self.atom(toks, j, env)
            if not got:
                return None
            return self.apply(t, got[0]), got[1]
        return self.atom(toks, i, env)

    def place_expr(self, toks, i, env):
        t = toks[i]
        if t in self.placefns:
            return self.expr(toks, i, env)
        return self.atom(toks, i, env)

    def apply(self, name, arg):
        p = self.placefns[name]
        unf, params, body = self.clause(p)
        param = params[-1]
        toks = tokens(body.strip())
        env = {param: arg}
        i = 0
        while toks[i] == "let":
            j = self.skip(toks, i + 1)
            k = self.skip(toks, j + 1)
            e = self.skip(toks, k + 1)
            got = self.expr(toks, e, env)
            env[toks[j]] = got[0]
            i = self.skip(toks, self.skip(toks, got[1]) + 1)
        got = self.expr(toks, i, env)
        return got[0]

    def number_temps(self, parsed):
        """A goal that the old names call after a temporary, as add-t11: by its rank among those of its kind."""
        groups = {}
        for p in parsed:
            if p["kind"] == "goal" and (m := re.match(r"(\w+)[-_]t(\d+)$", p["old"])):
                groups.setdefault((id(p["fn"]), m[1]), []).append((int(m[2]), p))
        for (_, op), ps in groups.items():
            fn = ps[0][1]["fn"]
            have = sorted(int(m[1]) for o, _ in fn.v["needs"] if (m := re.match(op + r"-t(\d+)$", o)))
            ps.sort(key=lambda x: x[0])
            if all(n in have for n, _ in ps):
                continue
            if len(have) == len(ps):
                for n, (_, p) in zip(have, ps):
                    p["old"] = f"{op}-t{n}"
            else:
                print("TODO temporaries", self.folder, op, [n for n, _ in ps], have)

    def place_asked(self, p):
        """The goal's new name and the place where it is asked."""
        fn = p["fn"]
        for (o, n), (po, pn) in zip(fn.v["needs"], fn.v["asked_at"]):
            if norm(o) == norm(p["old"]):
                return n, fn.place(po)
        return None, None

    def goal_call(self, toks, i, env):
        """An answer that another answer cites."""
        p = self.goals[toks[i]]
        new, place = self.place_asked(p)
        if new is None or place is None or not self.goal:
            return None
        j = self.skip(toks, i + 1)
        targ = ""
        if self.cycle:
            targ = " " + toks[j]
            j = self.skip(toks, j + 1)
        got = self.expr(toks, j, env) if toks[j] == "(" else self.atom(toks, j, env)
        if not got or got[0].fields:
            return None
        k = self.skip(toks, got[1])
        life = self.expr(toks, k, env) if k < len(toks) and toks[k] == "(" else self.atom(toks, k, env) if k < len(toks) else None
        end = life[1] if life and life[0].fields and life[0].fields[-1] == "lifetimes" else got[1]
        fn = p["fn"]
        self.records.add(fn.stem + fn.v["places_by_name"][place])
        return f"{fn.stem}{new}{targ} (goal.at.{self.goal}{targ} {got[0].base}).{fn.v['places_by_name'][place]}", end

    def helper_call(self, toks, i, env):
        name = toks[i]
        p = self.helpers[name]
        j = self.skip(toks, i + 1)
        targ = ""
        if p.get("t"):
            targ = " " + toks[j]
            j = self.skip(toks, j + 1)
        got = self.expr(toks, j, env) if toks[j] == "(" else self.atom(toks, j, env)
        if not got or got[0].fields:
            return None
        arg = got[0]
        new = self.renames.get(name, name)
        want = p["fn"].new_place(p["place"])
        if arg.root == arg.place == p["place"] or (arg.root == p["place"]):
            return f"{new}{targ} {arg.base}", got[1]
        if self.goal:
            return f"{new}{targ} (goal.at.{self.goal}{targ} {arg.base}).{want}", got[1]
        unf, params, body = self.clause(p)
        was = self.goal
        text = self.rewrite(body, {params[-1]: arg})
        self.goal = was
        if "\n" in text:
            text = "\n        " + text.strip()
        return f"({text})", got[1]

    # ---- emission

    def emit(self, p):
        k = p["kind"]
        if k in ("drop", "placefn", "placetype"):
            return
        if k == "goal":
            return self.emit_goal(p)
        if k in ("invariant", "measure"):
            return self.emit_loop(p)
        if k == "decreases":
            return self.emit_decreases(p)
        if k == "helper":
            return self.emit_helper(p)
        self.answers.append(p["comments"] + [self.rewrite(p["text"], {})])

    def emit_goal(self, p):
        fn = p["fn"]
        new = fn.needs.get(norm(p["old"]))
        if new is None:
            for way in ("part_", "sub_"):
                new = new or fn.needs.get(re.sub(r"^slice_bounds_", way, norm(p["old"])))
                if new:
                    p["old"] = re.sub(r"^slice_bounds_", way, norm(p["old"]))
                    break
        if new is None:
            self.answers.append([f"-- TODO no goal {p['old']}"] + p["comments"] + [p["text"]])
            return
        unf, params, body = self.clause(p)
        if params is None:
            self.answers.append(["-- TODO clause"] + [p["text"]])
            return
        names = list(params)
        t = []
        if self.cycle:
            t, names = [names[0]], names[1:]
        c, more = names[0], names[1:]
        if more and more[0].startswith("κ"):
            more = more[1:]
        # where the goal is asked
        at = None
        for (o, n), (po, pn) in zip(fn.v["needs"], fn.v["asked_at"]):
            if norm(o) == norm(p["old"]):
                at = fn.place(po)
                if at is None:
                    at = fn.v["places_by_name"].index(pn) if pn in fn.v["places_by_name"] else None
        goal = fn.stem + new
        if at is None:
            self.answers.append([f"-- TODO place of {goal}"] + [p["text"]])
            return
        env = {c: Path(fn, c, at)}
        body = self.rewrite(body, env, goal)
        names = None
        if new.startswith("returns"):
            names = CLAUSES.get((fn.path, "ensures"))
        elif m := re.match(r"(\w+?)(-\w+)?-requires", new):
            for (callee, kind), ns in CLAUSES.items():
                if kind == "requires" and callee.endswith("::" + m[1]):
                    names = ns
        if names and (spread := self.spread(body, names)):
            body = spread
        elif names:
            if "\n" in body:
                body = "\n    let all =" + (body if body.startswith("\n") else " " + body) + " in\n    record { " + "; ".join(f"{n} = all.{i}" for i, n in enumerate(names)) + " }"
            else:
                body = f"let all = {body} in record {{ " + "; ".join(f"{n} = all.{i}" for i, n in enumerate(names)) + " }"
        lhs = " ".join([goal] + t + [c] + more)
        text = p["comments"] + [f"pub {goal} : goal.{goal}"] + unf
        if "\n" in body:
            b = body if body.startswith("\n") else "\n    " + body
            text.append(f"{lhs} ={b}")
        else:
            text.append(f"{lhs} = {body}")
        self.answers.append(text)

    def spread(self, body, names):
        """A tuple, or a tactic, at the end of a body: a record with the clauses' names."""
        depth, last = 0, 0
        toks = tokens(body)
        pos, at = 0, 0
        for tk in toks:
            if tk in "([{":
                depth += 1
            elif tk in ")]}":
                depth -= 1
            pos += len(tk)
            if tk == "in" and depth == 0:
                at = pos
        front, end = body[:at], body[at:]
        strip = end.strip()
        lead = end[: len(end) - len(end.lstrip())]
        if re.match(r"(omega|search|grind)\b", strip):
            return front + lead + "record { " + "; ".join(f"{n} = {strip}" for n in names) + " }"
        if not strip.startswith("("):
            return None
        parts, depth, cur = [], 0, ""
        for k, tk in enumerate(tokens(strip)):
            if tk in "([{":
                depth += 1
                if depth == 1:
                    continue
            elif tk in ")]}":
                depth -= 1
                if depth == 0:
                    parts.append(cur)
                    cur = None
                    continue
            if cur is None:
                if tk.strip():
                    return None
                continue
            if tk == "," and depth == 1:
                parts.append(cur)
                cur = ""
            else:
                cur += tk
        parts = [x.strip() for x in parts if x is not None and x.strip()]
        if len(parts) != len(names):
            return None
        if "\n" in strip:
            return front + lead + "record {\n" + "".join(f"      {n} = {x};\n" for n, x in zip(names, parts)) + "    }"
        return front + lead + "record { " + "; ".join(f"{n} = {x}" for n, x in zip(names, parts)) + " }"

    def finish(self, text):
        """What is plainer in the new names: facts of a default arm, and records in omega's list."""

        def negation(m):
            v = NOTS.get(m[1])
            return m[1] + ".not-" + v if v else m[0]

        text = re.sub(r"\(λ (?:\w+ )?e\. (?:none_of|⊎_elim) (?:\(λ q\. omega arith\) )+\(rw e at (c\.in_default[\w-]*)\.in_default[\w-]*-own\.keys\d+\)\)", negation, text)
        text = re.sub(r"λ (?:\w+ )?e\. (?:none_of|⊎_elim) (?:\(λ q\. omega arith\) )+\(rw e at (c\.in_default[\w-]*)\.in_default[\w-]*-own\.keys\d+\)", negation, text)

        def absent(m):
            v = NOTS.get(m[3])
            return f"λ {m[1]} e. {m[3]}.not-{v} {m[1]} ({m[2]})" if v else m[0]

        text = re.sub(r"λ (\w+) e\. (?:⊎_elim|none_of) (?:\(λ q\. omega arith\) )+\(rw \(((?:[^()]|\([^()]*\))*)\) at (c\.in_default[\w-]*)\.in_default[\w-]*-own\.keys\d+\)", absent, text)

        def record(m):
            return re.sub(r"\((c(?:\.[\w-]+)*\.(?:requires|ensures))\.\w+(?:, \1\.\w+)+\)", r"\1", m[0])

        return re.sub(r"omega \(arith, (?:[^()\n]|\([^()\n]*\))*\)", record, text)

    def emit_loop(self, p):
        fn = p["fn"]
        which = norm(p["loop"])
        for (names, vs), changed in zip(fn.v["loops"], fn.v["changed"]):
            if norm(names[0]) == which:
                break
        else:
            self.invariants.append([f"-- TODO no loop {p['loop']}", p["text"]])
            return
        unf, params, body = self.clause(p)
        n = len(vs)
        table = {}
        lifted = [v for v, ch in zip(vs, changed) if ch]
        want = n + len(lifted)
        if params is None or len(params) != want:
            self.invariants.append([f"-- TODO parameters of {p['name']}: {params} and {vs} {changed}", p["text"]])
            return
        for prm, v, ch in zip(params[:n], vs, changed):
            table[prm] = f"l.initial.{v}" if ch else f"l.{v}"
        for prm, v in zip(params[n:], lifted):
            table[prm] = f"l.{v}"
        toks = tokens(body)
        out = []
        for i, tk in enumerate(toks):
            if tk in table and (i == 0 or toks[i - 1] != "."):
                out.append(table[tk])
            elif tk in self.renames and (i == 0 or toks[i - 1] != "."):
                out.append(self.renames[tk])
            else:
                out.append(tk)
        body = "".join(out)
        kind = "invariant" if p["kind"] == "invariant" else "decreases"
        name = f"{kind}-{fn.stem}{names[1]}"
        sep = "\n" if "\n" in body and not body.startswith("\n") else ""
        if "\n" in body:
            text = f"{name} l =\n    {body.lstrip()}"
        else:
            text = f"{name} l = {body}"
        self.invariants.append(p["comments"] + [f"abbrev pub {name} : goal.{name}"] + unf + [text])

    def emit_decreases(self, p):
        fn = p["fn"]
        unf, params, body = self.clause(p)
        a = params[-1]
        # the parameters by their places, from the source
        ps = self.params_of(fn)

        def one(m):
            path = m[1].strip(".").split(".")
            i, k = 0, 0
            while k < len(path) and path[k] == "1":
                i += 1
                k += 1
            if k < len(path) and path[k] == "0":
                k += 1
            rest = path[k:]
            name = ps[i] if ps and i < len(ps) else f"TODO{i}"
            return ".".join(["l", name] + rest)

        body = re.sub(r"(?<![\w.])" + re.escape(a) + r"((?:\.\w+)+)", one, body)
        f = fn.key.rsplit(".Lts-", 1)[1] if ".Lts-" in fn.key else ""
        name = f"decreases-{f}"
        self.invariants.append(p["comments"] + [f"abbrev pub {name} : goal.{name}", f"{name} l = {body}"])

    def params_of(self, fn):
        f = fn.key.rsplit(".Lts-", 1)[1] if ".Lts-" in fn.key else None
        for root, _, files in os.walk(os.path.join(self.crate, "src")):
            for x in files:
                t = open(os.path.join(root, x), encoding="utf-8").read()
                m = re.search(r"fn " + re.escape(f or "") + r"\s*(?:<[^>]*>)?\(([^)]*)\)", t)
                if m:
                    return [re.sub(r"^mut\s+", "", q.strip()).split(":")[0].strip() for q in m[1].split(",") if q.strip()]
        return None

    def emit_helper(self, p):
        fn = p["fn"]
        place = f"{fn.stem}{fn.new_place(p['place'])}"
        self.records.add(place)
        typ = self.head_type(p["sig"]).strip()
        t = ""
        tt = re.sub(r"^\(t : ℕ\)\s*(→\s*)?", "", typ)
        if tt != typ:
            t = "(t : ℕ) "
            place += " t"
        m = re.match(r"\((" + IDENT + r") : ([^()]*(?:\([^()]*\)[^()]*)*)\)\s*", tt)
        name = self.renames.get(p["name"], p["name"])
        mark = "abbrev " if p["sig"].startswith("abbrev") else ""
        unf, params, body = self.clause(p)
        if m:
            c = m[1]
            rest = self.rewrite(tt[m.end() :], {c: Path(fn, c, p["place"])})
            sig = f"{mark}{name} : {t}({c} : {place}) {rest}"
        else:
            rest = self.rewrite(tt.split("→", 1)[1], {})
            sig = f"{mark}{name} : {t}{'→ ' if t else ''}{place} →{rest}"
        if params is None:
            self.answers.append(["-- TODO helper", p["text"]])
            return
        k = 1 if t else 0
        env = {params[k]: Path(fn, params[k], p["place"])}
        body = self.rewrite(body, env)
        lhs = " ".join([name] + params)
        text = f"{lhs} = {body}" if "\n" not in body else f"{lhs} =\n    {body.lstrip()}"
        self.answers.append(p["comments"] + [sig] + unf + [text])

    def write(self):
        head = [l for l in self.header if l.strip()]
        uses = []
        for u in self.uses:
            uses.append(re.sub(IDENT, lambda m: self.renames.get(m[0], m[0]) if m[0] in self.renames else m[0], u))
        uses = self.uses
        locals_ = {}
        for chunk in self.answers:
            for line in "\n".join(chunk).split("\n"):
                m = re.match(r"(?:abbrev |unfoldable )?(?:data |record )?([A-Za-zμ][^\s:]*)\s*(?:\(.*)?:", line)
                if m:
                    locals_[m[1]] = chunk
        inv_text = "\n".join("\n".join(c) for c in self.invariants)
        moved = []
        if self.invariants:
            need = True
            while need:
                need = False
                for n, chunk in locals_.items():
                    if chunk not in moved and re.search(r"(?<![\w.-])" + re.escape(n) + r"(?![\w-])", inv_text):
                        moved.append(chunk)
                        inv_text += "\n" + "\n".join(chunk)
                        need = True
            names = [n for n, chunk in locals_.items() if chunk in moved]
            order = [c for c in self.answers if c in moved]
            self.answers = [c for c in self.answers if c not in moved]
            order = [self.publish(c) for c in order]
            text = "\n".join(head + uses + [f"use {self.module}.Given as goal", ""])
            text += "\n\n".join("\n".join(c) for c in order + self.invariants) + "\n"
            text = text.replace("as goal\nabbrev", "as goal\n\nabbrev").replace("as goal\n--", "as goal\n\n--")
            with open(os.path.join(self.folder, "Invariants.antt"), "w", encoding="utf-8") as f:
                f.write(text)
            if names and self.answers:
                uses = uses + [f"use {self.module}.Invariants.{{{', '.join(names)}}}"]
        if self.answers:
            self.answers = [[self.finish(x) for x in c] for c in self.answers]
            body = "\n".join("\n".join(c) for c in self.answers)
            have = set(re.findall(r"[^\s{},]+", " ".join(uses)))
            more = [n for n in ("ap", "not") if "(ap not " in body and n not in have]
            if more:
                uses = uses + [f"use Rattle.std.proofs.Common.{{{', '.join(more)}}}"]
            if self.records:
                uses = uses + [f"use {self.module}.Goals.{{{', '.join(sorted(self.records))}}}"]
            text = "\n".join(head + uses + [f"use {self.module}.Goals as goal", "", ""])
            text += "\n\n".join("\n".join(c) for c in self.answers) + "\n"
            with open(os.path.join(self.folder, "Answers.antt"), "w", encoding="utf-8") as f:
                f.write(text)
        os.remove(self.path)
        if "TODO" in "\n".join("\n".join(c) for c in self.answers + self.invariants):
            print("TODO in", self.folder)

    def publish(self, chunk):
        out = []
        done = False
        for line in chunk:
            if not done and not line.startswith("--"):
                line = re.sub(r"^(abbrev |unfoldable )?(pub )?", lambda m: (m[1] or "") + "pub ", line, count=1)
                done = True
            out.append(line)
        return out


CLAUSES = {}
NOTS = {}


def main():
    CLAUSES.update(clause_names(os.path.join(os.path.abspath(sys.argv[1]), "..")))
    crate, names = sys.argv[1], json.load(open(sys.argv[2]))
    only = sys.argv[3:]
    n = 0
    for folder, dirs, files in os.walk(os.path.join(crate, "proofs")):
        if "Proof.antt" in files and (not only or any(o in folder for o in only)):
            try:
                File(crate, folder, names).run()
                n += 1
            except Exception as e:
                print("FAILED", folder, type(e).__name__, e)
                if os.environ.get("LOUD"):
                    raise
    print(n, "turned")


main()
