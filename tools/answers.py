#!/usr/bin/env python3
"""Turns each proofs/F/Proof.antt of an older Rattle into Invariants.antt and Answers.antt, by the names that `rattle check --old-names` lists.

usage: python3 tools/answers.py CRATE NAMES.json     at the top of the repository
Says what it could not turn. Answers that were a bare `search` are left out: the check tries that itself.
"""
import json
import os
import re
import sys

CRATE, NAMES = sys.argv[1], sys.argv[2]
ONLY = sys.argv[3:]
HERE = f"crates/{CRATE}/proofs"
TOKEN = re.compile(r"[^\s(){}\[\];,.]+")


def norm(s):
    return s.replace("-", "_")


def split_args(text):
    """The top-level arguments of an application."""
    out, depth, cur = [], 0, ""
    for ch in text:
        if ch in "([{":
            depth += 1
        if ch in ")]}":
            depth -= 1
        if ch.isspace() and depth == 0:
            if cur:
                out.append(cur)
            cur = ""
        else:
            cur += " " if ch.isspace() else ch
    if cur:
        out.append(cur)
    return out


def blocks(text):
    """Top-level blocks: leading comment lines with the declaration below them."""
    out, cur, body = [], [], False
    for line in text.split("\n"):
        if line and not line[0].isspace():
            if line.startswith("--"):
                if body:
                    out.append("\n".join(cur).rstrip())
                    cur, body = [], False
            elif re.match(r"^(abbrev pub |unfoldable pub |pub |abbrev |unfoldable )?\S+ :( |$)", line) or line.startswith(("use ", "module ", "pub record", "record ", "pub data", "data ", "abbrev pub record")):
                if body:
                    out.append("\n".join(cur).rstrip())
                    cur = []
                body = True
        cur.append(line)
    if cur:
        out.append("\n".join(cur).rstrip())
    return [b for b in out if b.strip()]


def replace_tokens(text, what):
    """Bare tokens, not those behind a dot."""
    def one(m):
        if m.start() and text[m.start() - 1] == ".":
            return m[0]
        return what.get(m[0], m[0])
    return TOKEN.sub(one, text)


class Function:
    def __init__(self, key, d):
        self.d = d
        self.fields = {}
        for place in d["places"]:
            old, new = place[2]
            if old and not re.search(r"-1$", new):
                self.fields.setdefault(norm(old), new)
        for (old, new), _ in d["loops"]:
            self.fields.setdefault(norm(old), new)
        self.places = {norm(p[0]): n for p, n in zip(d["places"], d["places_by_name"])}
        self.calls = {}
        for p in d["places"]:
            if p[3]:
                self.calls[norm(p[2][0])] = d["params"].get(p[3], [])
        self.arms = []
        for a in d["arms"]:
            if a:
                self.arms.append(a)
        self.needs = {}
        for old, new in d["needs"]:
            self.needs.setdefault(norm(old), new)

    def path(self, text, placed):
        """Field names in a text: steps, parameters by place, arms."""
        # arms: X.given.1 -> in-V.is, X.given.0.0 -> in-V.n
        arm = {}
        for name, _, parts in self.arms:
            for new, step, rest in parts:
                if rest:
                    arm.setdefault((norm(step), ".".join(rest)), f"{name}.{new}")
        for (step, rest), to in sorted(arm.items(), key=lambda x: -len(x[0][1])):
            text = re.sub(r"\.(" + "[_-]".join(re.escape(x) for x in step.split("_")) + r")\." + re.escape(rest) + r"(?![\w.-]*\w*[-_]\w)(?![\d])", "." + to, text)

        def index(m):
            step, kind, ones = m[1], m[2], m[3]
            ps = self.calls.get(norm(step))
            n = ones.count("1")
            if ps and n < len(ps):
                return f".{step}.{kind}.{ps[n]}"
            return m[0]
        text = re.sub(r"\.([A-Za-z_][\w'-]*)\.(new|auto)\.((?:1\.)*0)(?![\w])", index, text)
        for a, b in self.d["args"]:
            a, b = a.split()[-1].lstrip("."), b.split()[-1].lstrip(".")
            text = re.sub(r"\." + re.escape(a) + r"(?![\w'-])", "." + b, text)
        if True:
            text = re.sub(r"\.before(?![\w'-])", "", text)

        def step(m):
            t = m[1]
            n = self.fields.get(norm(t)) or self.fields.get(re.sub(r"_lem$", "", norm(t))) or self.fields.get(norm(t)[0].lower() + norm(t)[1:])
            if not n and "-" in t and not re.match(r"(in|if|then|else|loop|field|in_\w+)-", t):
                n = norm(t)
            return "." + n if n else m[0]
        text = re.sub(r"(?<!goal)(?<=[\w')])\.([A-Za-z_][\w'-]*)", step, text)
        return text


def main():
    names = json.load(open(NAMES))
    done, left = 0, []
    for key, d in names.items():
        m = re.match(rf"Rattle-{CRATE}-proofs\.(.*)\.Lts$", key)
        if not m:
            continue
        at = m[1].replace(".", "/")
        folder = f"{HERE}/{at}"
        p = f"{folder}/Proof.antt"
        if not os.path.exists(p) or (ONLY and at not in ONLY and m[1] not in ONLY):
            continue
        text = open(p).read()
        f = Function(key, d)
        module = f"Rattle.{CRATE}.proofs.{m[1]}"
        parts = blocks(text)
        head, uses, inv, ans, mine, rename, notes = [], [], [], [], [], {}, []
        spec = ""
        for b in parts:
            lines = b.split("\n")
            decl = next((l for l in lines if l and not l.startswith("--")), None)
            if decl is None:
                head.append(b)
                continue
            if decl.startswith("use "):
                head += [l for l in lines if l.startswith("--")]
                uses += [l for l in lines if l.startswith("use ")]
                continue
            if ": {M : Type 1} → statement M" in decl:
                spec = b
                continue
            mine.append((decl, b))
        # the measures and the invariants
        loops = {}
        for (pair, vars_), changed in zip(d["loops"], d["changed"]):
            loops[norm(pair[0])] = (pair[1], vars_, changed)
        order = []
        for decl, b in mine:
            s = re.match(r"^(?:abbrev )?(?:pub )?(\S+) : tie\.(invariant|decreases)-(\S+)$", decl)
            n = re.match(r"^(?:pub )?(\S+) : tie\.Need-(\S+)", decl)
            if s:
                name, kind, old = s[1], s[2], s[3]
                if norm(old) not in loops:
                    notes.append(f"no loop {old}")
                    continue
                new, vars_, changed = loops[norm(old)]
                eq = re.search(r"(?m)^" + re.escape(name) + r"((?: \S+)*?) =", b)
                args = eq[1].split()
                want = list(vars_) + [v for v, c in zip(vars_, changed) if c]
                if len(args) != len(want):
                    notes.append(f"{old}: {args} against {want}")
                    continue
                to = {}
                for i, (a, v) in enumerate(zip(args, want)):
                    to[a] = f"l.initial.{v}" if i < len(vars_) and changed[i] else f"l.{v}"
                body = b[eq.end():]
                bound = {a for a in to if re.search(r"λ [^.]*(?<![\w'₀-₉-])" + re.escape(a) + r"(?![\w'₀-₉-])[^.]*\. |[({]" + re.escape(a) + r" :", body)}
                lets = "".join(f" let {a} = {to.pop(a)} in" for a in sorted(bound) if re.search(r"(?<![\w.'₀-₉-])" + re.escape(a) + r"(?![\w'₀-₉-])", body))
                body = lets + re.sub(r"(?<![\w.'₀-₉-])([\w'₀-₉-]+)((?:\.[\w'-]+)*)", lambda x: (to[x[1]] + x[2]) if x[1] in to else x[0], body)
                comment = "\n".join(l for l in b.split("\n") if l.startswith("--"))
                unf = re.search(r"(?m)^unfolding .*\n", b)
                inv.append((comment + "\n" if comment else "") + f"abbrev pub {kind}-{new} : goal.{kind}-{new}\n" + (unf[0] if unf else "") + f"{kind}-{new} l ={body}")
            elif n:
                old = norm(re.sub(r"^overflow-", "", n[2]))
                new = f.needs.get(old)
                if new is None:
                    notes.append(f"no goal {n[2]} ({n[1]})")
                    new = f"{n[1]}"
                    rename[n[1]] = new
                    order.append(("lost", decl, b, n[1], new))
                    continue
                rename[n[1]] = new
                order.append(("answer", decl, b, n[1], new))
            else:
                order.append(("own", decl, b, None, None))
        # what the last line passes without a name
        args = []
        sp = re.search(r"tie\.spec\b(.*)\)\s*$", spec, re.S)
        if sp:
            args = split_args(sp[1])
            k = 2 * len(d["loops"]) if args and re.match(r"(invariant|decreases)", args[0]) else 0
            given = args[k:]
            if len(given) == len(d["needs"]):
                for a, (old, new) in zip(given, d["needs"]):
                    if a.startswith("(") and not re.match(r"^\(search \(?(rules|needs)\)?\)$", a):
                        body = a[1:-1]
                        order.append(("answer", "", f"pub {new} : goal.{new}\n{new} c = {body}", new, new))
                        if body.startswith("λ"):
                            notes.append(f"inline {new}: {a[:80]}")
            elif any(a.startswith("(") and not re.match(r"^\(search rules\)$", a) for a in given):
                notes.append(f"{len(given)} parts passed, {len(d['needs'])} goals; inline: " + "; ".join(a for a in given if a.startswith('(') and a != '(search rules)')[:300])
        head_of = lambda t: (m2[1] if (m2 := re.search(r"(?m)^(?:abbrev pub |unfoldable pub |pub |abbrev |unfoldable )?(\S+) :(?: |$)", t)) else "")
        shared, first = [], [head_of(o[2]) for o in order]
        more = True
        while more:
            more = False
            for o in list(order):
                m2 = re.search(r"(?m)^(?:abbrev pub |unfoldable pub |pub |abbrev |unfoldable )?(\S+) :( |$)", o[2])
                if o[0] == "own" and m2 and any(re.search(r"(?<![\w.'-])" + re.escape(m2[1]) + r"(?![\w'-])", t) for t in inv + [x[1] for x in shared]) and "tie." not in o[2]:
                    b = o[2]
                    b = re.sub(r"(?m)^(abbrev|unfoldable) (?!pub )", r"\1 pub ", b, count=1)
                    b = re.sub(r"(?m)^(?!abbrev|unfoldable|pub |--)(\S+ :)", r"pub \1", b, count=1)
                    shared.append((m2[1], b))
                    order.remove(o)
                    more = True
        places = set()
        # `RangeStepLaws` has what a branch on a test gives, in both spellings: of `not b`, and of b
        asked = {}
        for k, u in enumerate(uses):
            if "contact_range.specs.RangeStepLaws.{" in u:
                asked = {"refused": "refused_by", "passed": "passed_by"}
                uses[k] = replace_tokens(u, asked)
        placed = bool(re.search(r"tie\.(After|At|In|Then|Else)-?\w|tie\.Start\b", text))
        for kind, decl, b, old, new in order:
            comment_lines = []
            body_lines = []
            for l in b.split("\n"):
                (comment_lines if l.startswith("--") and not body_lines else body_lines).append(l)
            body = "\n".join(body_lines)
            if kind in ("answer", "lost") and decl:
                body = body.split("\n", 1)[1] if "\n" in body else ""
                plain = re.sub(r"\s+", " ", body).strip()
                if kind == "answer" and re.match(r"^\S+ c(?: κs)? = \(?search \(?rules\)?\)?$", plain):
                    continue
                body = re.sub(r"(?m)^(" + re.escape(old) + r" \S+) κs =", r"\1 =", body)
            body = replace_tokens(body, rename)
            if kind in ("answer", "lost") and decl:
                body = f"pub {new} : goal.{new}\n" + body
            body = f.path(body, placed)
            body = re.sub(r"\(not[-_](?:true|false) _ ([\w.'-]+\.if-not-[\w.'-]+)\)", r"\1", body)
            body = re.sub(r"(?<=[( ])not[-_](?:true|false) _ ([\w.'-]+\.if-not-[\w.'-]+)", r"\1", body)
            if asked:
                body = replace_tokens(body, asked)
            def place(x):
                n = f.places.get(norm(x[1]))
                if n is None:
                    notes.append("place " + x[0])
                    return x[0]
                places.add(n)
                return n
            body = re.sub(r"tie\.((?:After|At|In|Then|Else)-?[\w-]*|Start\b)((?: (?:invariant|decreases)-\S+(?<!\)))*)", place, body)
            if "tie." in body:
                notes.append("tie stays")
            ans.append("\n".join(comment_lines + [body]) if comment_lines else body)
        shared.sort(key=lambda x: first.index(x[0]))
        inv = [b for _, b in shared] + inv
        uses = [u for u in uses if not re.search(r"\.Statement\.\{statement\}$|\.Tie as tie$", u)]
        if inv:
            t = "\n".join([f"-- What the loop{'s' if len(inv) > 2 else ''} of `{CRATE}::{m[1].replace('.', '::')}` keep{'' if len(inv) > 2 else 's'}, and how far there is still to go."] + uses + [f"use {module}.Given as goal"]) + "\n\n" + "\n\n".join(inv) + "\n"
            open(f"{folder}/Invariants.antt", "w").write(t)
        if ans:
            t = "\n".join(head + uses + [f"use {module}.Goals as goal"] + ([f"use {module}.Goals.{{{', '.join(sorted(places))}}}"] if places else []) + ([f"use {module}.Invariants.{{{', '.join(n for n, _ in shared)}}}"] if shared else [])) + "\n\n" + "\n\n".join(ans) + "\n"
            open(f"{folder}/Answers.antt", "w").write(t)
        os.remove(p)
        done += 1
        if notes:
            left.append((at, notes))
    for at, notes in left:
        for n in notes:
            print(f"left: {CRATE} {at}: {n}")
    print(f"{CRATE}: {done} turned, {len(left)} with something left")


main()
