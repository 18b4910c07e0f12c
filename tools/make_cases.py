#!/usr/bin/env python3
"""Writes stdin and stdout of crates/cases, or of another folder (tools/make_cases.py [FOLDER]): the cases, and what document 01 says of each.

The reading below is written from document 01's table and shares nothing with the engine. Where document 01 itself gives an
example's answer, the case states it (the last argument) and the reading is held to it."""
import os, random, struct, sys
from files import blocks, letter_payload as letter, walker_payload

random.seed(1)
HERE = sys.argv[1] if len(sys.argv) > 1 else os.path.join(os.path.dirname(os.path.abspath(__file__)), '..', 'crates', 'cases')


# ---- files

def walker(n, m, rules, start=1, final=2, branch=4, count=None):
    return walker_payload(n, m, start, final, branch, rules, count=count)


def changed(payload, *edits):
    p = bytearray(payload)
    for at, v in edits: p[at] = v
    return p


def damaged(file, at):
    f = bytearray(file)
    f[at] ^= 1
    return bytes(f)


# ---- document 01's table, read independently

def read_blocks(f, most):
    if len(f) == 0 or len(f) % 512 or len(f) > most: return None, (1, 0)
    p = b''
    for b in range(len(f) // 512):
        c = f[512 * b:512 * b + 508]
        check = (b + 1 + sum(int.from_bytes(c[i:i + 4], 'little') for i in range(0, 508, 4))) % 2 ** 32
        if check != int.from_bytes(f[512 * b + 508:512 * b + 512], 'little'): return None, (2, b)
        p += c
    return p, None


def read_walker(f):
    p, bad = read_blocks(f, 3072)
    if bad: return None, bad
    if p[0] != 87: return None, (3, 0)
    n, m, r = p[1], p[2], p[4] + 256 * p[5]
    if not 1 <= n <= 24: return None, (4, 1)
    if not 1 <= m <= 32: return None, (4, 2)
    if not 0 <= r <= 512: return None, (4, 4)
    end = 20 + 5 * r
    need = (end + 507) // 508
    if need * 512 != len(f): return None, (5, need)
    for at in range(len(p)):
        if (at in (3, 6, 7) or at >= end) and p[at]: return None, (6, at)
    start, final, branch = (int.from_bytes(p[k:k + 4], 'little') for k in (8, 12, 16))
    for at, s, c in ((8, start, n), (12, final, n), (16, branch, m)):
        if any(s >> i & 1 for i in range(c, 32)): return None, (7, at)
    rules = [tuple(p[20 + 5 * i:25 + 5 * i]) for i in range(r)]
    for i, (a, s, place, move, t) in enumerate(rules):
        if a >= m or s >= n or t >= n or place > 3 or move > 3: return None, (8, i)
        if (move >= 2 and not branch >> a & 1) or (move == 1 and place in (0, 3)): return None, (9, i)
    return (n, m, start, final, branch, rules), None


def read_letter(f, w):
    n, m, start, final, branch, rules = w
    p, bad = read_blocks(f, 4608)
    if bad: return None, bad
    if p[0] != 84: return None, (3, 0)
    k = p[2] + 256 * p[3]
    if not 1 <= k <= 4096: return None, (4, 2)
    need = (4 + k + 507) // 508
    if need * 512 != len(f): return None, (5, need)
    for at in range(len(p)):
        if (at == 1 or at >= 4 + k) and p[at]: return None, (6, at)
    symbols = p[4:4 + k]
    for i, a in enumerate(symbols):
        if a >= m: return None, (10, i)
    # the nodes still to come, each by its depth
    open_, deep = [0], None
    for i, a in enumerate(symbols):
        if not open_: return None, (11, i)
        d = open_.pop()
        if d >= 65 and deep is None: deep = i
        if branch >> a & 1: open_ += [d + 1, d + 1]
    if open_: return None, (11, k)
    if deep is not None: return None, (12, deep)
    return k, None


def places(p): return (0, 1, 2) if p == 3 else (p,)


def single(rules):
    """Document 02, W2: of the rules with place 3 spread, equal ones taken once, no two have one symbol, state and place."""
    spread = {(a, s, p, move, t) for a, s, place, move, t in rules for p in places(place)}
    return len({rule[:3] for rule in spread}) == len(spread)


def answer(w, t):
    def refused(file, bad): return ' refused=%d file=%d place=%d' % (bad[0], file, bad[1])
    a, bad = read_walker(w)
    if bad: return refused(0, bad)
    if t is not None:
        k, bad = read_letter(t, a)
        return refused(1, bad) if bad else ' nodes=%d' % k
    n, m, start, final, branch, rules = a
    steps = {(x, s, p, move, q) for x, s, place, move, q in rules for p in places(place)}
    return ' states=%d symbols=%d rules=%d initial=%d final=%d branches=%d single=%s transitions=%d' % (
        n, m, len(rules), start, final, branch, 'yes' if single(rules) else 'no', len(steps))


# ---- the cases

cases = []


def case(label, w, t=None, says=None):
    got = answer(w, t)
    assert says is None or got == says, (label, got, says)
    cases.append((label, w, t, got))


def no(number, file, place): return ' refused=%d file=%d place=%d' % (number, file, place)


A = [(2, 0, 0, 3, 0), (2, 0, 2, 3, 0), (1, 0, 2, 1, 1), (2, 1, 2, 1, 1)]
a = walker(2, 3, A)
good = blocks(a)

case('document 01 walker A', good, None, ' states=2 symbols=3 rules=4 initial=1 final=2 branches=4 single=yes transitions=4')
case('A+ has another rule at the root', blocks(walker(2, 3, A + [(1, 0, 0, 0, 1)])))

# line 1
case('table: 511 bytes', bytes(511), None, no(1, 0, 0))
case('empty walker', b'', None, no(1, 0, 0))
case('513 bytes', good + b'\0', None, no(1, 0, 0))
case('seven blocks of walker', bytes(3584), None, no(1, 0, 0))
case('empty letter', good, b'', no(1, 1, 0))
case('ten blocks of letter', good, bytes(5120), no(1, 1, 0))
case('nine blocks of zeros as letter', good, bytes(4608), no(2, 1, 0))
case('six blocks of zeros as walker', bytes(3072), None, no(2, 0, 0))
# line 2
case('table: 512 zeros', bytes(512), None, no(2, 0, 0))
case('a content byte of block 0 flipped', damaged(good, 100), None, no(2, 0, 0))
case('a check byte of block 0 flipped', damaged(good, 511), None, no(2, 0, 0))
big = blocks(walker(2, 3, A * 128))
for at in (0, 508, 1500, 2559, 3071): case('512 rules, byte %d flipped' % at, damaged(big, at), None, no(2, 0, at // 512))
case('two bad blocks, the lower is told', damaged(damaged(big, 2600), 1100), None, no(2, 0, 2))
# line 3
case('table: kind 84 as walker', blocks(changed(a, (0, 84))), None, no(3, 0, 0))
case('walker as letter', good, good, no(3, 1, 0))
# line 4
case('table: n = 25', blocks(changed(a, (1, 25))), None, no(4, 0, 1))
case('n = 0', blocks(changed(a, (1, 0))), None, no(4, 0, 1))
case('m = 33', blocks(changed(a, (2, 33))), None, no(4, 0, 2))
case('m = 0', blocks(changed(a, (2, 0))), None, no(4, 0, 2))
case('r = 513', blocks(walker(2, 3, [], count=513)), None, no(4, 0, 4))
case('n, m and r all outside: n is told', blocks(changed(a, (1, 200), (2, 200), (5, 200))), None, no(4, 0, 1))
case('m and r outside: m is told', blocks(changed(a, (2, 200), (5, 200))), None, no(4, 0, 2))
case('k = 0', good, blocks(letter([])), no(4, 1, 2))
case('k = 4097', good, blocks(letter([0] * 4097)), no(4, 1, 2))
case('n = 24, m = 32, every set full', blocks(walker(24, 32, [], 2 ** 24 - 1, 2 ** 24 - 1, 2 ** 32 - 1)))
case('n = 1, m = 1', blocks(walker(1, 1, [], 1, 1, 1)))
# line 5, and the sizes
case('table: 97 rules in two blocks', blocks(walker(2, 3, (A * 25)[:97]), 2), None, no(5, 0, 1))
case('97 rules in one block', blocks(walker(2, 3, (A * 25)[:97])))
case('98 rules in two blocks', blocks(walker(2, 3, (A * 25)[:98])))
case('98 rules in one block', blocks(walker(2, 3, (A * 25)[:98]), 1), None, no(5, 0, 2))
case('512 rules in six blocks', big)
case('512 rules in five blocks', blocks(walker(2, 3, A * 128), 5), None, no(5, 0, 6))
comb = lambda k: [2, 0] * (k // 2) + [0]          # branches down the right, k odd: height k // 2


def wide(k):
    """A tree of k nodes (k odd) of the least height, in preorder."""
    if k == 1: return [0]
    l = (k - 1) // 2
    l -= 1 - l % 2
    return [2] + wide(l) + wide(k - 1 - l)


case('504 nodes in one block: no tree', good, blocks(letter(wide(503) + [0])), no(11, 1, 503))
case('505 nodes in two blocks', good, blocks(letter(wide(505))), ' nodes=505')
case('503 nodes in one block', good, blocks(letter(wide(503))), ' nodes=503')
case('505 nodes in one block', good, blocks(letter(wide(505)), 1), no(5, 1, 2))
case('503 nodes in two blocks', good, blocks(letter(wide(503)), 2), no(5, 1, 1))
case('4095 nodes in nine blocks', good, blocks(letter(wide(4095))), ' nodes=4095')
case('4096 nodes: no tree', good, blocks(letter(wide(4095) + [0])), no(11, 1, 4095))
case('4095 nodes in eight blocks', good, blocks(letter(wide(4095)), 8), no(5, 1, 9))
# line 6
case('table: walker offset 3 is 1', blocks(changed(a, (3, 1))), None, no(6, 0, 3))
case('offset 6', blocks(changed(a, (6, 9))), None, no(6, 0, 6))
case('offset 7', blocks(changed(a, (7, 1))), None, no(6, 0, 7))
case('first filler byte', blocks(a + b'\1'), None, no(6, 0, 40))
case('last filler byte', blocks(a.ljust(507, b'\0') + b'\1'), None, no(6, 0, 507))
case('filler of the second block', blocks(changed(walker(2, 3, (A * 25)[:98]).ljust(1016, b'\0'), (1015, 3))), None, no(6, 0, 1015))
case('letter offset 1', good, blocks(changed(letter([2, 0, 1]), (1, 7))), no(6, 1, 1))
case('letter filler', good, blocks(letter([2, 0, 1]) + b'\5'), no(6, 1, 7))
case('letter: zero byte before filler', good, blocks(changed(letter([2, 0, 1]) + b'\5', (1, 7))), no(6, 1, 1))
# line 7
case('table: n = 2, start bytes 4 0 0 0', blocks(walker(2, 3, A, 4)), None, no(7, 0, 8))
case('final states beyond n', blocks(walker(2, 3, A, 3, 2 ** 31)), None, no(7, 0, 12))
case('branch symbols beyond m', blocks(walker(2, 3, A, 1, 2, 8)), None, no(7, 0, 16))
case('all three sets beyond: the first is told', blocks(walker(2, 3, A, 4, 4, 8)), None, no(7, 0, 8))
case('m = 32: the third set cannot fail', blocks(walker(2, 32, A, 1, 2, 2 ** 32 - 1)))
# lines 8 and 9
case('table: move 4', blocks(walker(2, 3, [(2, 0, 0, 4, 0)])), None, no(8, 0, 0))
for i, (name, v) in enumerate((('symbol', 3), ('state', 2), ('place', 4), ('move', 255), ('next state', 2))):
    r = list(A[1]); r[i] = v
    case('rule 1: %s %d' % (name, v), blocks(walker(2, 3, [A[0], tuple(r), A[2]])), None, no(8, 0, 1))
case('table: place 3, move 1', blocks(walker(2, 3, [(1, 0, 3, 1, 1)])), None, no(9, 0, 0))
case('place 0, move 1', blocks(walker(2, 3, A + [(1, 0, 0, 1, 1)])), None, no(9, 0, 4))
case('left at a leaf', blocks(walker(2, 3, A + [(1, 0, 1, 2, 1)])), None, no(9, 0, 4))
case('right at a leaf, at all places', blocks(walker(2, 3, [(0, 0, 3, 3, 1)])), None, no(9, 0, 0))
case('up at left and at right', blocks(walker(2, 3, [(1, 0, 1, 1, 1), (1, 0, 2, 1, 1)])))
case('rule 0 has a bad move, rule 1 a bad state', blocks(walker(2, 3, [(1, 0, 0, 1, 1), (9, 0, 0, 0, 0)])), None, no(9, 0, 0))
case('rule 0 is fine, rule 1 bad by 8, rule 2 by 9', blocks(walker(2, 3, [A[0], (9, 0, 0, 0, 0), (1, 0, 0, 1, 1)])), None, no(8, 0, 1))
case('one rule bad by 8 and by 9', blocks(walker(2, 3, [(1, 9, 0, 1, 1)])), None, no(8, 0, 0))
case('rule 511 of 512', blocks(changed(walker(2, 3, A * 128), (20 + 5 * 511 + 3, 4))), None, no(8, 0, 511))
# line 10
case('table: m = 3, list 3', good, blocks(letter([3])), no(10, 1, 0))
case('symbol 3 after the tree has closed is 10', good, blocks(letter([0, 3])), no(10, 1, 1))
case('the lowest such node', good, blocks(letter([2, 0, 255, 9])), no(10, 1, 2))
# line 11
case('table: lists 0 0', good, blocks(letter([0, 0])), no(11, 1, 1))
case('table: branch alone', good, blocks(letter([2])), no(11, 1, 1))
case('a branch with one part', good, blocks(letter([2, 2, 0, 1])), no(11, 1, 4))
case('two trees', good, blocks(letter([2, 0, 1, 2, 0, 1])), no(11, 1, 3))
# line 12
left = lambda h: [2] * h + [0] * (h + 1)
case('table: 65 branches down the left, 66 leaves', good, blocks(letter(left(65))), no(12, 1, 65))
case('height 64 down the left', good, blocks(letter(left(64))), ' nodes=129')
case('height 65 down the right', good, blocks(letter(comb(131))), no(12, 1, 129))
case('height 64 down the right', good, blocks(letter(comb(129))), ' nodes=129')
case('65 deep and never closed is 11', good, blocks(letter([2] * 66)), no(11, 1, 66))
# both files
case('document 01: letter 2 0 1', good, blocks(letter([2, 0, 1])), ' nodes=3')
case('one leaf', good, blocks(letter([1])), ' nodes=1')
case('a bad walker is told before a bad letter', blocks(changed(a, (1, 25))), b'', no(4, 0, 1))
# the order of the lines, several faults at once
case('2 before 3', damaged(blocks(changed(a, (0, 1))), 300), None, no(2, 0, 0))
case('3 before 4', blocks(changed(a, (0, 1), (1, 99))), None, no(3, 0, 0))
case('4 before 5', blocks(changed(a, (2, 99)), 2), None, no(4, 0, 2))
case('5 before 6', blocks(changed(a, (3, 1)), 2), None, no(5, 0, 1))
case('6 before 7', blocks(changed(walker(2, 3, A, 4), (3, 1))), None, no(6, 0, 3))
case('7 before 8', blocks(walker(2, 3, [(9, 9, 9, 9, 9)], 1, 4)), None, no(7, 0, 12))
case('letter: 4 before 5', good, blocks(letter([], count=0), 3), no(4, 1, 2))
case('letter: 5 before 6', good, blocks(changed(letter([9, 9]), (1, 1)), 2), no(5, 1, 1))
case('letter: 6 before 10', good, blocks(changed(letter([9, 9]), (1, 1))), no(6, 1, 1))
case('letter: 10 before 11', good, blocks(letter([0, 0, 9])), no(10, 1, 2))
case('letter: 11 before 12', good, blocks(letter(left(65) + [0])), no(11, 1, 131))
# single, and W2


def single_case(label, rules, yes, steps, n=2, m=3, branch=4):
    """A walker's rules, whether it is single, and how many rules are left once place 3 is spread and repeats are dropped."""
    says = ' states=%d symbols=%d rules=%d initial=1 final=2 branches=%d single=%s transitions=%d'
    case(label, blocks(walker(n, m, rules, 1, 2, branch)), None, says % (n, m, len(rules), branch, 'yes' if yes else 'no', steps))


single_case('a record twice', A + [A[0]], True, 4)
single_case('a record twice, not side by side', [A[2]] + A, True, 4)
single_case('each record twice', A + A, True, 4)
single_case('a record 512 times', [A[0]] * 512, True, 1)
single_case('a record 511 times and another rule for its place', [A[0]] * 511 + [(2, 0, 0, 2, 0)], False, 2)
single_case('another rule for its place and a record 511 times', [(2, 0, 0, 3, 1)] + [A[0]] * 511, False, 2)
STAY = (1, 0, 3, 0, 1)
for place in (0, 1, 2): single_case('place 3 beside its own copy at %d' % place, [STAY, (1, 0, place, 0, 1)], True, 3)
single_case('a copy at 2 before its place 3', [(1, 0, 2, 0, 1), STAY], True, 3)
single_case('place 3 beside all its copies', [STAY] + [(1, 0, place, 0, 1) for place in (0, 1, 2)], True, 3)
single_case('all copies and no place 3', [(1, 0, place, 0, 1) for place in (2, 0, 1)], True, 3)
single_case('place 3 twice', [STAY, STAY], True, 3)
single_case('place 3 twice, down', [(2, 0, 3, 2, 0), A[3], (2, 0, 3, 2, 0)], True, 4)
single_case('place 3 twice with another move', [(2, 0, 3, 2, 0), (2, 0, 3, 3, 0)], False, 6)
single_case('place 3 twice with another next state', [(2, 0, 3, 2, 0), (2, 0, 3, 2, 1)], False, 6)
for name, other in (('move', (2, 0, 1, 0, 1)), ('next state', (2, 0, 1, 1, 0)), ('move and next state', (2, 0, 1, 3, 0))):
    single_case('one symbol, state and place, another %s' % name, [(2, 0, 1, 1, 1), other], False, 2)
    single_case('the same, and each twice: %s' % name, [(2, 0, 1, 1, 1), other, other, (2, 0, 1, 1, 1)], False, 2)
for name, other in (('symbol', (1, 0, 1, 1, 1)), ('state', (2, 1, 1, 1, 1)), ('place', (2, 0, 2, 1, 1))):
    single_case('another %s alone' % name, [(2, 0, 1, 1, 1), other], True, 2)
for place in (0, 1, 2):
    single_case('meeting through place 3 at %d, another next state' % place, [STAY, (1, 0, place, 0, 0)], False, 4)
case('place 3 meets place 1', blocks(walker(2, 3, [(1, 0, 3, 0, 1), (1, 0, 1, 1, 0)])), None,
     ' states=2 symbols=3 rules=2 initial=1 final=2 branches=4 single=no transitions=4')
single_case('meeting through place 3, and a copy too', [STAY, (1, 0, 1, 0, 1), (1, 0, 1, 1, 1)], False, 4)
case('place 1 beside place 2', blocks(walker(2, 3, [(1, 0, 1, 0, 1), (1, 0, 2, 0, 1)])))
case('two rules for one symbol, state and place', blocks(walker(2, 3, [(1, 0, 1, 0, 1), (2, 0, 1, 0, 1), (1, 0, 1, 1, 1)])))
case('place 3 beside another state', blocks(walker(2, 3, [(1, 0, 3, 0, 1), (1, 1, 3, 0, 1)])))
# the ends of the compiled table: symbol 31, state 23, place 2, move 3, next state 23
LAST, EVERY = (31, 23, 2, 3, 23), 2 ** 32 - 1
many = [(a, s, 2, 3, 23) for a in range(31, 9, -1) for s in range(24)][:511]
single_case('the last rule twice', [LAST, LAST], True, 1, 24, 32, EVERY)
single_case('the last rule and another next state', [LAST, (31, 23, 2, 3, 22)], False, 2, 24, 32, EVERY)
single_case('the last rule and another move', [(31, 23, 2, 2, 23), LAST], False, 2, 24, 32, EVERY)
single_case('the last rule by place 3', [(31, 23, 3, 3, 23), LAST], True, 3, 24, 32, EVERY)
single_case('512 records, no two alike', many + [(0, 0, 0, 0, 0)], True, 512, 24, 32, EVERY)
single_case('512 records, the last a repeat', many + [many[0]], True, 511, 24, 32, EVERY)
single_case('512 records, the last another rule for one place', many + [(31, 0, 2, 3, 0)], False, 512, 24, 32, EVERY)
# chance
for i in range(60):
    p = bytearray(a) + bytearray(8)
    for _ in range(random.randint(1, 3)): p[random.randrange(len(p))] = random.choice([0, 1, 2, 3, 4, 24, 25, 255])
    case('walker by chance %d' % i, blocks(p))
for i in range(60):
    s = [random.choice([0, 0, 0, 1, 2, 2, 3]) if random.random() < 0.1 else random.choice([0, 1, 2]) for _ in range(random.randint(1, 12))]
    case('letter by chance %d' % i, good, blocks(letter(s)))

seen = {line: sum(' refused=%d ' % line in c[3] + ' ' for c in cases) for line in range(1, 13)}
assert all(n >= 2 for n in seen.values()), seen
with open(os.path.join(HERE, 'stdin'), 'wb') as f:
    for label, w, t, got in cases:
        f.write(struct.pack('<BHH', len(label), len(w), 65535 if t is None else len(t)) + label.encode() + bytes(w) + bytes(t or b''))
with open(os.path.join(HERE, 'stdout'), 'w') as f:
    for label, w, t, got in cases: f.write(label + ':' + got + '\n')
print(len(cases), 'cases;', 'refusals by number:', ' '.join('%d:%d' % kv for kv in seen.items()))
