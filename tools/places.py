#!/usr/bin/env python3
"""Counts the places in crates/*/src/ where an older form may stand: python3 tools/places.py [FOLDER] [--list].

One line a pattern, with how many places match it; --list prints each place. A pattern finds a place by its text, so it finds
forms that are right as they stand too: docs/DESIGN-PASS.md says of each pattern what was changed and what stays, and why."""
import collections
import glob
import re
import sys


def functions(text):
    """(name, line, signature, clauses, body) of each function."""
    lines = text.split('\n')
    i = 0
    while i < len(lines):
        m = re.match(r'^(\s*)(?:pub(?:\(\w+\))? )?(?:const )?(?:extern "C" )?fn (\w+)', lines[i])
        if not m:
            i += 1
            continue
        indent, start = m.group(1), i
        while i < len(lines) and lines[i] != indent + '{' and not lines[i].endswith(' {') and not lines[i].endswith(';'):
            i += 1
        head = lines[start:i + 1]
        j = i
        while j < len(lines) and lines[j] != indent + '}' and not lines[i].endswith(';'):
            j += 1
        clauses = [l.strip() for l in head if re.match(r'\s*(requires|ensures)\b', l)]
        signature = ' '.join(l.strip() for l in head if l.strip() not in clauses)
        yield m.group(2), start + 1, signature, clauses, lines[i + 1:j]
        i = j + 1


def parameters(signature):
    m = re.search(r'\((.*)\)(?: ->|\s*\{?$|\s*$)', signature)
    if not m:
        return []
    return [p.strip() for p in re.split(r',(?![^\[<(]*[\])>])', m.group(1)) if ':' in p]


def shape(body):
    """The body with its names and numbers left out."""
    text = ' '.join(l.strip() for l in body if not l.strip().startswith('//'))
    keep = {'let', 'mut', 'if', 'else', 'return', 'while', 'for', 'in', 'match', 'as', 'true', 'false', 'loop', 'break'}
    seen = {}

    def word(m):
        w = m.group(0)
        if w in keep:
            return w
        return seen.setdefault(w, '_')

    return re.sub(r'\b\d\w*\b', '0', re.sub(r'[A-Za-z_]\w*', word, text))


def conjuncts(clause):
    inside = re.sub(r'^(requires|ensures)\s*\w*\s*\{(.*)\}$', r'\2', clause).strip()
    for part in inside.split(' × '):
        yield re.sub(r'^\((.*)\)$', r'\1', part.strip())


def main():
    args = [a for a in sys.argv[1:] if a != '--list']
    root = args[0] if args else '.'
    found = collections.OrderedDict()

    def place(kind, path, line, what):
        found.setdefault(kind, []).append(f'{path}:{line}: {what}')

    bodies, facts, together = {}, {}, {}
    for path in sorted(glob.glob(root + '/crates/*/src/**/*.rt', recursive=True)):
        text = open(path).read()
        short = path[len(root) + 1:]
        lines = text.split('\n')
        for m in re.finditer(r'^(?:pub )?enum (\w+) \{\n(.*?)^\}', text, re.M | re.S):
            variants = re.findall(r'^    (\w+)(\(.*\))?(?: = \d+)?,$', m.group(2), re.M)
            line = text[:m.start()].count('\n') + 1
            bare = [v for v, payload in variants if not payload]
            if any(v == 'Refused' for v, _ in variants) or (len(variants) == 2 and len(bare) == 1):
                place('1 enum shaped as Option or Result', short, line, m.group(1))
            elif any(re.match(r'No[A-Z]|Nothing|Absent|None', v) for v in bare):
                place('1 enum with a variant for nothing', short, line, m.group(1))
        for n, l in enumerate(lines, 1):
            if re.search(r'\b(?:has_\w+|present|is_present): (?:u32|bool)', l):
                place('1 flag with a value beside it', short, n, l.strip())
            if re.search(r'\bconst (?:NONE|PLACEHOLDER|NO_\w+)\b', l):
                place('1 number for nothing', short, n, l.strip())
            if re.search(r'\b(?:kind|rule|letter|code|what|which|number): u(?:8|32)\b', l):
                place('1 number for a kind or a refusal', short, n, l.strip())
            if re.search(r'\breturn None;|=> None,', l) and 'let' not in l:
                place('1 `return None` where `?` may do', short, n, l.strip())
            if re.match(r'\s*while \w+ <=? ', l) or re.match(r'\s*while \w+ != ', l):
                place('3 `while` over a number', short, n, l.strip())
            if re.match(r'\s*for \w+ in 0\.\.', l):
                place('3 `for` over an index', short, n, l.strip())
            if re.search(r'\.0 [!=]= \w+(?:\.\w+)*\.0\b', l):
                place('4 equality of the number inside', short, n, l.strip())
            if re.search(r'if \w+(?:\.\w+)* (?:== \w+ )?\{ 1 \} else \{ 0 \}|if \w+ < \w+ \{ \w+ \} else \{ \w+ \}', l):
                place('4 conversion or order by hand', short, n, l.strip())
            if re.search(r'\bprint_(?:name|number|count|mark|word|end|float)\(', l) and 'fn ' not in l:
                place('4 printing by hand', short, n, l.strip())
            if re.search(r'\b(?:count|n|length): (?:u32|usize),?$', l.strip()) and n > 1 and re.search(r'\[|first|fourth', lines[n - 2] + lines[min(n, len(lines) - 1)]):
                place('6 length beside a buffer', short, n, l.strip())
            if re.search(r'match (?:kind|what|which|letter|code|call)\b', l):
                place('7 switch on a kind', short, n, l.strip())
        for name, line, signature, clauses, body in functions(text):
            form = shape(body)
            if len(form.split()) >= 8:
                bodies.setdefault(form, []).append((short, line, name))
            for c in clauses:
                if c.startswith('requires'):
                    for fact in conjuncts(c):
                        facts.setdefault(fact, []).append((short, line, name))
            ps = parameters(signature)
            for a in range(len(ps)):
                for b in range(a + 1, len(ps)):
                    for d in range(b + 1, len(ps)):
                        together.setdefault((ps[a], ps[b], ps[d]), []).append((short, line, name))
            if any(re.match(r'(?:mut )?\w+: bool$', p) for p in ps) and re.search(r'\bif (?:by_place|modify|among)\b', ' '.join(body)):
                place('7 flag that picks the step', short, line, name)
            arrays = [p for p in ps if re.search(r'\[', p)]
            if arrays and any(re.match(r'(?:n|count|m|start|stop|at|from|to): usize$', p) for p in ps):
                place('6 buffer with a place or a length', short, line, name)
    for form, where in bodies.items():
        if len(where) > 1:
            for short, line, name in where:
                place('2 function of the same shape as another', short, line, name)
    for fact, where in facts.items():
        if len(where) > 2:
            for short, line, name in where:
                place('5 fact in three contracts or more', short, line, f'{name}: {fact}')
    groups = {}
    for three, where in together.items():
        if len(where) > 2:
            for w in where:
                groups.setdefault(w, 0)
                groups[w] += 1
    for (short, line, name), n in sorted(groups.items()):
        place('5 three parameters that three functions share', short, line, name)
    for kind in sorted(found):
        print(f'{len(found[kind]):5}  {kind}')
        if '--list' in sys.argv:
            for where in found[kind]:
                print('       ', where)


if __name__ == '__main__':
    main()
