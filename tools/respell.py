#!/usr/bin/env python3
"""Gives this repository's own definitions, lemmas, record fields and constructors the spelling of today's Rattle: words in snake case.

usage: python3 tools/respell.py [--dry]     at the top of the repository, once, right after the kit's port.py

A name is one that a file of specs/ or a file right in proofs/ declares, with a dash or a capital inside and no capital first. Types, modules,
operators, and the names that Rattle makes in proofs/F/ stay. Names are replaced in specs/, proofs/, the clauses of src/, must-fail edits,
and, between backticks, in comments. --dry says what would fall together, and writes nothing.
"""
import os
import re
import sys

DRY = "--dry" in sys.argv
ROOT = os.getcwd()

# A lemma whose name would fall together with a definition's gets `_lem`. These are filled in below, but for the ones that fall together with a
# name of std, or of another file that is read beside it.
OTHERWISE = {"bit-or": "bit_or_lem", "is-nan": "is_nan_lem"}
# Lemmas that port.py has respelled already, and that would fall together with a definition in a file that reads both: (the file that declares it, the name).
LEMMAS = [
    ("trace_lines.specs.ExampleLaws", "by_number"), ("trace_lines.specs.ExampleLaws", "by_place"), ("contact_run_examples.specs.RunLaws", "calls_seen"),
    ("trace_rule_laws.specs.PlayedByLaws", "by_number"), ("contact_update.specs.PointLaws", "point_at"),
    ("trace_rule_laws.specs.WholeTraceLaws", "entries_by"), ("contact_graph.specs.LayOutLaws", "laid_out"), ("update_pass.specs.ListsLaws", "listed_in"),
    ("trace_runs.specs.RoomLaws", "rows_long"), ("contact_api.specs.CallLaws", "struct_row"),
]

DECLARED = re.compile(r"^(?:abbrev pub |unfoldable pub |pub |abbrev |unfoldable )?([^\s(){}:;,.]+)(?: \{[^}]*\})? :(?: |$)")
RECORD = re.compile(r"^(?:pub )?record ")
DATA = re.compile(r"^(?:pub )?data ")
FIELD = re.compile(r"^\s+(?:abbrev pub |unfoldable pub |pub |abbrev |unfoldable )?([^\s(){}:;,.]+)(?: \{[^}]*\})? :(?: |$)")
TOKEN = re.compile(r"[^\s(){}\[\];,.`\"\u231c\u231d]+|\.")


def wants(n):
    return bool(re.match(r"^[a-z\u03b1-\u03c9]", n)) and (("-" in n and n.strip("-") == n) or re.search(r"[A-Z]", n)) and re.match(r"^[A-Za-z0-9_'\u2080-\u2089\u2032\u0370-\u03ff-]+$", n)


def snake(n):
    if n in OTHERWISE:
        return OTHERWISE[n]
    n = n.replace("\u2032", "'").replace("-", "_")
    n = re.sub(r"([a-z0-9])([A-Z])", r"\1_\2", n)
    return n.lower()


def walk():
    for folder, dirs, files in os.walk(os.path.join(ROOT, "crates")):
        dirs[:] = sorted(d for d in dirs if d not in ("out", "data"))
        for f in sorted(files):
            yield os.path.join(folder, f)


def own_file(p):
    parts = os.path.relpath(p, os.path.join(ROOT, "crates")).split(os.sep)
    return p.endswith(".antt") and (parts[1] == "specs" or (parts[1] == "proofs" and len(parts) == 3))


def declared():
    words, members, every = {}, {}, {}
    for p in walk():
        if not own_file(p):
            continue
        inside = None
        for line in open(p, encoding="utf-8"):
            line = line.rstrip("\n")
            if RECORD.match(line) or DATA.match(line):
                inside = "m"
                continue
            m = DECLARED.match(line)
            if m:
                inside = None
                every.setdefault(m[1], set()).add(p)
                if wants(m[1]):
                    words.setdefault(m[1], set()).add(p)
                continue
            if m := FIELD.match(line):
                every.setdefault(m[1], set()).add(p)
                if wants(m[1]):
                    (members if inside else words).setdefault(m[1], set()).add(p)
            elif line and not line[0].isspace() and not line.startswith("--"):
                inside = None
    return words, members, every


def pieces(text, antt):
    """The text as (kind, part): code, comment or string."""
    out, i, start, n = [], 0, 0, len(text)
    while i < n:
        if (antt and text.startswith("--", i) and (i == 0 or text[i - 1].isspace())) or (not antt and text.startswith("//", i)):
            j = text.find("\n", i)
            j = n if j < 0 else j
            out += [("code", text[start:i]), ("comment", text[i:j])]
            i = start = j
        elif text[i] == '"':
            j = i + 1
            while j < n and text[j] != '"':
                j += 2 if text[j] == "\\" else 1
            out += [("code", text[start:i]), ("string", text[i:j + 1])]
            i = start = min(j + 1, n)
        elif not antt and text[i] == "'" and (m := re.compile(r"'(\\.[^']*|[^'\\])'").match(text, i)):
            out += [("code", text[start:i]), ("string", m[0])]
            i = start = m.end()
        else:
            i += 1
    out.append(("code", text[start:]))
    return out


def turn_code(text, words, members, seen, aliases=()):
    def one(m):
        t = m[0]
        dot = m.start() > 0 and text[m.start() - 1] == "."
        before = text[max(0, m.start() - 200):m.start()]
        q = re.search(r"(?:^|[\s({,])([\w']+)\.$", before)
        if dot and t not in members and not re.search(r"Rattle(?:\.\w+)+\.$", before) and not (q and q[1] in aliases):
            if t in words:
                seen.setdefault("dotted", set()).add(t)
            return t
        if t in words or t in members:
            return snake(t)
        return t

    return TOKEN.sub(one, text)


def turn(p, text, words, members, seen):
    if p.endswith(".edit"):
        out = []
        for line in text.split("\n"):
            if line.startswith(("old:", "new:")):
                line = line[:4] + turn_code(line[4:], words, members, seen)
            out.append(line)
        return "\n".join(out)
    aliases = set(re.findall(r"^\s*(?:pub )?(?:ghost )?use [\w.]+ as (\w+)", text, re.M)) - {"tie", "goal"}
    out = []
    for kind, part in pieces(text, p.endswith(".antt")):
        if kind == "code":
            part = turn_code(part, words, members, seen, aliases)
        elif kind == "comment":
            part = re.sub(r"`([^`]+)`", lambda m: "`" + turn_code(m[1], words, members, seen) + "`", part)
        out.append(part)
    return "".join(out)


LIBRARY = re.compile(r"(?m)^\s*(?:pub )?(?:ghost )?use ([\w.]+)\.\{([^}]*)\}")


def not_ours(text):
    """The names that a file takes from the library."""
    found = set()
    for m in LIBRARY.finditer(text):
        part = m[1].split(".")
        if part[0] != "Rattle" or not os.path.isdir(os.path.join(ROOT, "crates", part[1])):
            found |= {n.strip() for n in m[2].split(",")}
    return found


def main():
    words, members, every = declared()
    names = set(words) | set(members)
    clash = {}
    for n in sorted(names):
        clash.setdefault(snake(n), set()).add(n)
        if snake(n) in every:
            clash[snake(n)].add(snake(n))
    for new, olds in sorted(clash.items()):
        if len(olds) > 1:
            for o in olds:
                if "-" in o and o not in OTHERWISE:
                    OTHERWISE[o] = snake(o) + "_lem"
    clash = {}
    for n in sorted(names):
        clash.setdefault(snake(n), set()).add(n)
        if snake(n) in every:
            clash[snake(n)].add(snake(n))
    for new, olds in sorted(clash.items()):
        if len(olds) > 1:
            print("together:", new, {o: sorted(os.path.relpath(x, ROOT) for x in every.get(o, ())) for o in olds})
    for p in walk():
        if not p.endswith((".rt", ".antt", ".edit")):
            continue
        text = open(p, encoding="utf-8").read()
        code = "".join(part for kind, part in pieces(text, p.endswith(".antt")) if kind == "code") if not p.endswith(".edit") else text
        tokens = set(TOKEN.findall(code))
        bare = set(m[0] for m in TOKEN.finditer(code) if not (m.start() and code[m.start() - 1] == "."))
        for n in sorted(tokens & names):
            if snake(n) in bare and not p.endswith(".edit"):
                print("in file:", os.path.relpath(p, ROOT), n, "->", snake(n))
        seen = {}
        new = text
        for where, n in LEMMAS:
            home = os.path.join(ROOT, "crates", *where.split(".")) + ".antt"
            if p == home or re.search(r"Rattle\." + re.escape(where) + r"\.\{[^}]*(?<![\w'-])" + n + r"(?![\w'-])", text):
                new = re.sub(r"(?<![\w'.-])" + n + r"(?![\w'-])", n + "_lem", new)
        theirs = not_ours(text)
        new = turn(p, new, {n: w for n, w in words.items() if n not in theirs}, members, seen)
        if seen:
            print("dotted, left:", os.path.relpath(p, ROOT), seen)
        if new != text and not DRY:
            open(p, "w", encoding="utf-8").write(new)
    print(f"{len(words)} definitions and lemmas, {len(members)} fields and constructors")


main()
