#!/usr/bin/env python3
# Makes crates/play_trace_cases/data and its stdout: trace_cases.py MODEL, from the repository's root. MODEL is the program play_trace
# of tests/reference. What a case prints was also written down here by hand, from the specification and the listed format of lines;
# the script ends where the model prints something else.
import os, subprocess, sys

# ---- limits: a proposal's manifolds and points, the bytes of a trace

MANIFOLDS = 6
PROPOSED_POINTS = 24
MOST_BYTES = 65536

# ---- lines

ZERO, ONE, HALF, TEN = '00000000', '3F800000', '3F000000', '41200000'
DEPTH, GAP = '3C23D70A', 'BF000000'                 # 0.01 into each other; 0.5 apart
TOLERANCE, COSINE = '3BA3D70A', '3F733333'          # 0.005; 0.95
ORIGIN = [ZERO] * 3

def line(letter, *fields): return '\t'.join([letter] + [str(f) for f in fields]) + '\n'

def A(a, b, body1='own', body2='own', events=1, modify=0, distance=ZERO):
    return line('A', a, b, a if body1 == 'own' else body1, b if body2 == 'own' else body2, events, modify, distance)

# The fields after the tenth: none, or that of the matching setting.
def T(*matching, tolerance=TOLERANCE, recycle=ZERO, match=1):
    return line('T', '3C800000', ONE, tolerance, recycle, COSINE, match, HALF, 1, ZERO, 1, *matching)

# A box from -1 to 1, or along x from 10 to 10, where it meets no other; it belongs to the body of its number.
def C(n, body='own', far=False, memberships=1, filters=4294967295, sensor=0):
    lower, upper = ([TEN] + ['BF800000'] * 2, [TEN] + [ONE] * 2) if far else (['BF800000'] * 3, [ONE] * 3)
    return line('C', n, n if body == 'own' else body, *lower, *upper, *ORIGIN, memberships, filters, '-', '-', '-', sensor)

def B(n, static=0, friction=('-',), margin='-'):
    return line('B', n, static, *ORIGIN, ZERO, ZERO, ZERO, ONE, *ORIGIN, *ORIGIN, *ORIGIN, *friction, margin, '-', ONE)

def H(a, b, answer): return line('H', a, b, answer)
def M(a, b): return line('M', a, b, ZERO, ONE, ZERO)
def P(depth=DEPTH, feature1=0, feature2=0): return line('P', *ORIGIN, *ORIGIN, *ORIGIN, depth, feature1, feature2)
def MP(a, b): return M(a, b) + P()

G = 'G\n'

# Colliders and bodies of those numbers, body 0 static.
def world(*numbers): return ''.join(C(n) + B(n, int(n == 0)) for n in numbers)

# A refused addition, 3, which shows in the output which go printed what.
MARK = A(3, 3)

# A go of colliders 0 and 1, with more lines above it.
def go(*more, settings=T()): return settings + world(0, 1) + ''.join(more) + G

# ---- what is printed

def started(id, a, b, body1='own', body2='own'): return line('E', 0, id, a, b, a if body1 == 'own' else body1, b if body2 == 'own' else body2)
def ended(id, a, b, body1='own', body2='own'): return line('E', 1, id, a, b, a if body1 == 'own' else body1, b if body2 == 'own' else body2)
def start(id): return line('S', 0, id, '-', '-', '-')
def stop(id, body1, body2): return line('S', 1, id, body1, body2, '-')
def count(id, body1, body2, change): return line('S', 2, id, body1, body2, change)

TOUCH = started(0, 0, 1) + start(0)
PART = ended(0, 0, 1) + stop(0, 0, 1)

# ---- the cases

# The listed format's own example; what it prints stands there.
FIRST = A(0, '01') + T() + C(0) + C(1) + B(0, 1) + B(1) + M(1, 0) + P('3c23d70a') + G
EXAMPLE = FIRST + A(1, 0, '-', '-', 0) + T('-') + C(0) + C(1) + B(0, 1) + B(1) + G + C(256, 1) + T(1) + G + G
EXAMPLE = EXAMPLE.replace('A\t0\t01\t0\t01', 'A\t0\t01\t0\t1')

# A line that fits no record, below a refused addition: 3, then 10, and the lines below it are not played.
def unreadable(text): return MARK + text + MARK

def replaced(text, old, new):
    assert old in text
    return text.replace(old, new, 1)

# All but the letters.
def lower_case(text): return ''.join(l[0] + l[1:].lower() for l in text.splitlines(True))

# Of that length: hooks fill it up, one of them with zeros in front.
def filled(length):
    head, tail = A(0, 1) + go(MP(0, 1)), go() + A(1, 0)
    room = length - len(head) - len(tail)
    hooks = H(0, 1, 1) * (room // len(H(0, 1, 1)) - 1)
    zeros = '0' * (room - len(hooks) - len(H(0, 1, 1)))
    return head + hooks + H(0, 1, zeros + '1') + tail

# As many pairs as the graph takes, then one more. The go has collider 3 far off: pair 0, 3, id 2, is removed, without a word, as it neither
# touched nor generated before. Then there is room, under id 2.
FULL = A(0, 1) + A(0, 2) + A(0, 3) + A(1, 2)
ROOM = FULL + A(1, 3) + A(1, 0) + A(2, 2) + T() + world(0, 1, 2) + C(3, far=True) + B(3) + G + A(1, 3)
ROOM += T() + world(0, 1, 2, 3) + MP(3, 1) + G

CASES = {
    'example': (EXAMPLE, TOUCH + '4\n' + PART + '2\n10\n'),
    'empty': ('', ''),

    # ---- Answers.
    # Collider, bodies, marks; and a 2 comes before a 3.
    'out_of_range': (A(256, 1) + A(0, 1, 128) + A(0, 1, 0, 4294967295) + A(0, 1, events=2) + A(0, 1, modify=2) + A(256, 256, 0, 1), '2\n' * 6),
    'same_collider': (A(3, 3), '3\n'),
    'pair_exists': (A(0, 1) + A(0, 1) + A(1, 0), '4\n4\n'),
    # A 4 and a 3 come before a 5.
    'graph_full': (ROOM, '5\n4\n3\n' + started(2, 1, 3) + start(2)),
    # Refused, the go leaves the graph as it was, and its records are gone: of the next, without colliders, nothing comes.
    'too_many_manifolds': (A(0, 1) + go(MP(0, 1) * (MANIFOLDS + 1)) + T() + G + MARK + go(MP(1, 0) * MANIFOLDS), '6\n3\n' + TOUCH),
    'too_many_points': (A(0, 1) + go(M(0, 1), P() * (PROPOSED_POINTS + 1)) + go(M(0, 1), P() * 33) + go(M(0, 1), P() * PROPOSED_POINTS), '6\n6\n' + TOUCH),
    'too_many_passed_over': (A(0, 1) + go(MP(0, 1), M(0, 2) * (MANIFOLDS + 1), P() * (PROPOSED_POINTS + 1)), TOUCH),
    'out_of_range_before_too_many': (A(0, 1) + go(M(0, 1) * (MANIFOLDS + 1), B(128)), '2\n'),
    # Of each kind of line; none is answered again at the next go.
    'out_of_range_at_go': (A(0, 1) + T(match=2) + G + go(C(0, 128)) + go(B(1, 2)) + go(H(0, 1, 2)) + go(M(256, 0)) + go(MP(0, 1)), '2\n' * 5 + TOUCH),
    'out_of_range_gone': (C(256, 1) + T() + G + T() + G + A(3, 3), '2\n3\n'),
    'out_of_range_no_go': (T() + C(256, 1) + MP(0, 256) + A(3, 3), '3\n'),
    'settings_missing': (A(3, 3) + C(256, 1) + G + A(3, 3), '3\n10\n'),

    # ---- Lines replaced and passed over.
    # The first C is far off, the first H says no. The first B's margin, and the first T's tolerance, would count the gap as touch; at
    # the second go they are the last.
    'replaced': (A(0, 1, modify=1) + go(C(1, far=True), C(1), H(0, 1, 0), MP(1, 0), H(1, 0, 1)), TOUCH),
    'replaced_body': (A(0, 1) + go(B(1, margin=ONE), B(1), M(0, 1), P(GAP)) + MARK + go(B(1, margin=ONE), M(0, 1), P(GAP)), '3\n' + TOUCH),
    'replaced_settings': (A(0, 1) + T(tolerance=ONE) + go(M(0, 1), P(GAP)) + MARK + go(M(0, 1), P(GAP), T(tolerance=ONE)), '3\n' + TOUCH),
    'replaced_out_of_range': (T(match=2) + T() + G + go(C(0, 128), C(0)) + go(B(1, friction=(HALF, 6)), B(1)) + go(H(0, 1, 2), H(1, 0, 1)), '2\n' * 4),
    'passed_over_out_of_range': (A(0, 1) + go(MP(0, 1), H(5, 6, 2)) + go(MP(0, 1), MP(5, 256)) + go(MP(0, 1), H(300, 300, 1)), '2\n' * 3),
    # No, no, none for the pair, no.
    'hooks': (A(0, 1, modify=1) + go(MP(0, 1), H(1, 0, 0)) + go(MP(0, 1), H(0, 1, 0)) + MARK + go(MP(0, 1), H(0, 2, 0)) + MARK + go(MP(0, 1), H(0, 1, '00')),
              '3\n' + TOUCH + '3\n' + PART),
    # One, one of each order, one; a pair's manifolds add up.
    'manifold_orders': (A(0, 1) + go(MP(0, 1)) + go(MP(0, 1), MP(1, 0)) + go(MP(1, 0)), TOUCH + count(0, 0, 1, 1) + count(0, 0, 1, -1)),
    # Its own manifold has no point; the point is of another pair's.
    'point_passed_over': (A(0, 1) + go(M(0, 1), MP(0, 2)), ''),
    'addition_below_manifold': (go(MP(0, 1), A(0, 1)), TOUCH),
    'point_below_addition': (A(3, 3) + M(0, 1) + A(0, 1) + P() + A(3, 3), '3\n10\n'),
    'point_below_go': (A(0, 1) + go(MP(0, 1)) + P(), TOUCH + '10\n'),
    # Colliders and bodies hold for one go: at the second nothing is there, the pair is skipped and stays; the third parts it.
    'records_gone': (A(0, 1) + go(MP(0, 1)) + T() + MP(0, 1) + G + MARK + go(), TOUCH + '3\n' + PART),

    # ---- Steps.
    'events_before_changes': (A(0, 1) + A(1, 2) + T() + world(0, 1, 2) + MP(1, 2) + MP(0, 1) + G,
                              started(0, 0, 1) + started(1, 1, 2) + start(0) + start(1)),
    # Touching without constraints; they start as the sensor goes; they do not stop where it comes back as the contact ends.
    'sensor': (A(0, 1) + go(C(1, sensor=1), MP(0, 1)) + go(MP(0, 1)) + go(C(1, sensor=1)), started(0, 0, 1) + start(0) + ended(0, 0, 1)),
    # 1, 3, 4, 1.
    'count_changes': (A(0, 1) + go(MP(0, 1)) + go(MP(0, 1) * 3) + go(MP(0, 1) * 4) + go(MP(0, 1)),
                      TOUCH + count(0, 0, 1, 2) + count(0, 0, 1, 1) + count(0, 0, 1, -3)),
    # A start needs the colliders' bodies alone, a stop the pair's too.
    'bodies_absent': (A(0, 1, '-') + A(0, 2, 0, '-') + A(1, 2, '-', '-') + T() + world(0, 1, 2) + MP(0, 1) + MP(0, 2) + MP(1, 2) + G + T() + world(0, 1, 2) + G,
                      started(0, 0, 1, '-') + started(1, 0, 2, 0, '-') + started(2, 1, 2, '-', '-') + start(0) + start(1) + start(2)
                      + ended(0, 0, 1, '-') + ended(1, 0, 2, 0, '-') + ended(2, 1, 2, '-', '-')),
    # Nothing moves: the second step recycles, though nothing is proposed; the third does not.
    'recycled': (A(0, 1) + go(T(recycle=ONE), MP(0, 1)) + go(T(recycle=ONE)) + MARK + go(), TOUCH + '3\n' + PART),
    'boxes_apart': (A(0, 1) + go(MP(0, 1)) + go(C(1, far=True), MP(0, 1)) + A(1, 0) + go(MP(0, 1)), TOUCH + PART + started(0, 1, 0) + start(0)),

    # ---- Numbers and floats.
    'zeros_in_front': (A('007', '00000000000000000008', '07', 8) + T() + C('07') + C(8) + B('0000000007') + B(8) + MP('0008', 7) + G, started(0, 7, 8) + start(0)),
    'largest_number': (A(4294967295, 1, 0, 1) + A(0, 1) + go(C(1, memberships='0004294967295'), M(0, 1), P(DEPTH, 4294967295, 4294967295)), '2\n' + TOUCH),
    'number_too_large': (unreadable(A(0, 4294967296, 0, 1)), '3\n10\n'),
    'zeros_before_too_large': (unreadable(MP(0, '0000000004294967296')), '3\n10\n'),
    'lower_case': (A(0, 1) + lower_case(go(MP(0, 1))), TOUCH),
    # No such float decides anything here.
    'nan_patterns': (A(0, 1) + go(line('M', 0, 1, 'FFFFFFFF', '7F800001', 'fFc00000') + P()), TOUCH),
    'seven_digits': (unreadable(replaced(T(), ONE, ONE[1:])), '3\n10\n'),
    'nine_digits': (unreadable(replaced(T(), ONE, '0' + ONE)), '3\n10\n'),
    'minus': (unreadable(A(-3, 1, 3, 1)), '3\n10\n'),
    'plus': (unreadable(A('+3', 1, 3, 1)), '3\n10\n'),

    # ---- Dashes where a value has to be said.
    'dash_for_distance': (unreadable(A(0, 1, distance='-')), '3\n10\n'),
    'dash_for_mark': (unreadable(T(match='-')), '3\n10\n'),
    'dash_for_feature': (unreadable(M(0, 1) + P(DEPTH, 0, '-')), '3\n10\n'),
    'dash_for_rule': (unreadable(B(0, friction=(HALF, '-'))), '3\n10\n'),
    'two_dashes_for_friction': (unreadable(B(0, friction=('-', '-'))), '3\n10\n'),

    # ---- Lines that fit no record.
    'letter_unknown': (unreadable('X\n'), '3\n10\n'),
    'letter_small': (unreadable(A(0, 1).lower()), '3\n10\n'),
    'letter_twice': (unreadable(T() + 'GG\n'), '3\n10\n'),
    'empty_line': (unreadable('\n'), '3\n10\n'),
    'doubled_tab': (unreadable(replaced(A(0, 1), '\t', '\t\t')), '3\n10\n'),
    'trailing_tab': (unreadable(A(0, 1)[:-1] + '\t\n'), '3\n10\n'),
    'space': (unreadable(replaced(A(0, 1), '\t', ' ')), '3\n10\n'),
    'carriage_return': (EXAMPLE.replace('\n', '\r\n'), '10\n'),
    'last_feed_missing': (A(0, 1) + go(MP(0, 1))[:-1], '10\n'),
    'field_missing': (unreadable(replaced(MP(0, 1), '\t0\n', '\n')), '3\n10\n'),
    'settings_of_9_fields': (unreadable(T()[:-3] + '\n'), '3\n10\n'),
    'settings_of_12_fields': (unreadable(T(0, 0)), '3\n10\n'),
    'settings_tab_at_end': (unreadable(T()[:-1] + '\t\n'), '3\n10\n'),
    'unreadable_passed_over': (unreadable(replaced(M(5, 6), ONE, '-')), '3\n10\n'),

    # ---- The matching setting; by number and by place print the same.
    # Missing, a dash, 0, 1, and both with zeros in front.
    'matching': (A(0, 1) + go(MP(0, 1)) + go(settings=T('-')) + go(MP(0, 1), settings=T(0)) + go(settings=T(1)) + go(MP(0, 1), settings=T('00')) + go(settings=T('01')),
                 (TOUCH + PART) * 3),
    'matching_out_of_range': (A(0, 1) + T(2) + G + go(MP(0, 1), settings=T('007')) + go(MP(0, 1), settings=T(4294967295)) + go(MP(0, 1)), '2\n' * 3 + TOUCH),
    'matching_replaced_out_of_range': (A(0, 1) + T(2) + go(MP(0, 1)) + go(MP(0, 1), T(0), settings=T(2)) + go(MP(0, 1)), '2\n' * 2 + TOUCH),
    'matching_too_large': (unreadable(T(4294967296)), '3\n10\n'),
    'matching_minus': (unreadable(T(-1)), '3\n10\n'),
    'matching_two_dashes': (unreadable(T('-', '-')), '3\n10\n'),
    'matching_tab_at_end': (unreadable(T(0)[:-1] + '\t\n'), '3\n10\n'),
    'matching_dash_tab_at_end': (unreadable(T('-')[:-1] + '\t\n'), '3\n10\n'),
    'matching_feed_missing': (MARK + T()[:-1], '3\n10\n'),
    'matching_dash_feed_missing': (MARK + T('-')[:-1], '3\n10\n'),

    # ---- Length.
    'longest': (filled(MOST_BYTES), TOUCH + PART + '4\n'),
    'too_long': (filled(MOST_BYTES + 1), '1\n'),
}

# ---- the files

def played(text):
    return subprocess.run([sys.argv[1]], input=text, stdout=subprocess.PIPE, check=True).stdout

def write(path, content):
    os.makedirs(os.path.dirname(path), exist_ok=True)
    with open(path, 'wb') as f:
        f.write(content)

def main():
    stdout = b''
    for name, (text, by_hand) in CASES.items():
        printed = played(text.encode())
        if printed != by_hand.encode():
            sys.exit('%s prints\n%sby hand\n%s' % (name, printed.decode(), by_hand))
        write('crates/play_trace_cases/data/' + name, text.encode())
        stdout += name.encode() + b'\n' + printed
    assert len(CASES['longest'][0]) == MOST_BYTES and len(CASES['too_long'][0]) == MOST_BYTES + 1
    write('crates/play_trace_cases/stdout', stdout)

main()
