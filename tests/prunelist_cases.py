#!/usr/bin/env python3
# Makes crates/prunelist_cases/data and its stdout, and prunelist's stdin and stdout, from the specification alone
# ('Prune listing', 'Matching and pruning', 'Float leaves'). Run from the repository's root; it uses no code of it.
import math, os, re, struct

# ---- limits: the points that pruning leaves and takes at most, the bytes of a listing

STORED_POINTS = 4
PROPOSED_POINTS = 24
MOST_BYTES = 65536

# ---- floats: each operation on doubles, rounded once to 32 bits (exact, since 53 >= 2 * 24 + 2)

def rounded(x):
    try:
        return struct.unpack('<f', struct.pack('<f', x))[0]
    except OverflowError:
        return math.copysign(math.inf, x)

def of_bits(n): return struct.unpack('<f', struct.pack('<I', n))[0]
def bits(x): return '%08X' % struct.unpack('<I', struct.pack('<f', x))[0]

def mul(a, b): return rounded(a * b)
def add(a, b): return rounded(a + b)
def sub(a, b): return rounded(a - b)
def maximum(a, b): return b if math.isnan(a) else a if math.isnan(b) else max(a, b)

def minus(a, b): return [sub(x, y) for x, y in zip(a, b)]
def dot(a, b): return add(add(mul(a[0], b[0]), mul(a[1], b[1])), mul(a[2], b[2]))
def cross(a, b):
    return [sub(mul(a[1], b[2]), mul(b[1], a[2])), sub(mul(a[2], b[0]), mul(b[2], a[0])), sub(mul(a[0], b[1]), mul(b[0], a[1]))]
def reject(v, n): return minus(v, [mul(x, dot(v, n)) for x in n])

# ---- pruning

TINY = rounded(1e-6)

def earliest(values, better, start):
    best, who = start, None
    for k, value in values:
        if better(value, best):
            best, who = value, k
    return who

def prune(normal, points):
    at = [reject(p[:3], normal) for p in points]
    depth = [maximum(mul(p[3], p[3]), TINY) for p in points]
    weight = lambda v, k: mul(maximum(dot(v, v), TINY), depth[k])
    above, below = lambda a, b: a > b, lambda a, b: a < b
    one = earliest([(k, weight(at[k], k)) for k in range(len(at))], above, -math.inf)
    two = earliest([(k, weight(minus(at[k], at[one]), k)) for k in range(len(at)) if k != one], above, -math.inf)
    across = cross(minus(at[two], at[one]), normal)
    sides = [(k, dot(across, minus(at[k], at[one]))) for k in range(len(at)) if k not in (one, two)]
    kept = [one, earliest(sides, below, 0.0), two, earliest(sides, above, 0.0)]
    return [k for k in kept if k is not None]

# ---- the listing

WORD = rb'\t[0-9A-Fa-f]{8}'
LISTING = re.compile(rb'N((?:%s){3})((?:\nP(?:%s){4})*)\n?' % (WORD, WORD))

def answer(text):
    found = LISTING.fullmatch(text)
    if found is None or len(text) > MOST_BYTES:
        return 'R\t1\n'
    floats = lambda fields: [of_bits(int(f, 16)) for f in fields.split(b'\t')[1:]]
    points = [floats(line) for line in found[2].split(b'\nP')[1:]]
    if len(points) <= STORED_POINTS:
        return 'R\t8\n'
    if len(points) > PROPOSED_POINTS:
        return 'R\t6\n'
    return ''.join('K\t%d\n' % k for k in prune(floats(found[1]), points))

# ---- the cases

def line(letter, floats): return letter + ''.join('\t' + bits(x) for x in floats) + '\n'
def text(normal, points): return line('N', normal) + ''.join(line('P', p) for p in points)

UP = [0.0, 0.0, 1.0]
SQUARE = [[2.0, 0.0, 0.0, 1.0], [-2.0, 0.0, 0.0, 1.0], [0.0, 1.0, 0.0, 1.0], [0.0, -1.0, 0.0, 1.0], [1.0, 0.0, 0.0, 1.0]]
NAN = float('nan')

def scattered(n):
    state, out = 20261, []
    for _ in range(n):
        p = []
        for scale in (3.0, 3.0, 3.0, 0.125):
            state = (state * 1103515245 + 12345) % 2 ** 31
            p.append(scale * (state / 2 ** 30 - 1))
        out.append(p)
    return out

OBLIQUE = [0.48, -0.6, 0.64]
C1 = text(UP, SQUARE)
MANY = text(OBLIQUE, scattered(33))

CASES = {
    'c1': C1,
    'c2_five_equal': text(UP, [SQUARE[0]] * 5),
    'c3_two_equal': text(UP, SQUARE[:3] + [SQUARE[2]] + SQUARE[4:]),
    'c4_nan': text([NAN] * 3, [[NAN] * 4] * 5),
    'four_points': text(UP, SQUARE[:STORED_POINTS]),
    'most_points': text(OBLIQUE, scattered(PROPOSED_POINTS)),
    'too_many_points': text(OBLIQUE, scattered(PROPOSED_POINTS + 1)),
    '33_points': MANY,
    'normal_alone': line('N', UP),
    'lower_case': C1.replace('A', 'a').replace('B', 'b').replace('C', 'c').replace('F', 'f'),
    'last_feed_missing': C1[:-1],
    'unreadable_after_33': MANY + 'P\t00000000\n',
    'carriage_return': C1.replace('\n', '\r\n'),
    'empty': '',
    'empty_line': C1 + '\n',
    'extra_field': C1[:-1] + '\t3F800000\n',
    'seven_digits': C1.replace('N\t00000000', 'N\t0000000'),
    'space': C1.replace('\t', ' '),
    'two_normals': line('N', UP) + C1,
    'no_normal': C1[C1.index('P'):],
    'too_long': text(UP, SQUARE * 345),
}

def write(path, content):
    os.makedirs(os.path.dirname(path), exist_ok=True)
    with open(path, 'wb') as f:
        f.write(content.encode())

for name, content in CASES.items():
    write('crates/prunelist_cases/data/' + name, content)
write('crates/prunelist_cases/stdout', ''.join(name + '\n' + answer(content.encode()) for name, content in CASES.items()))
write('crates/prunelist/stdin', C1)
write('crates/prunelist/stdout', answer(C1.encode()))
