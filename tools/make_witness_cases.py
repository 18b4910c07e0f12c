#!/usr/bin/env python3
"""Writes stdin and stdout of crates/witness_cases, or of another folder (tools/make_witness_cases.py [FOLDER]): plans and lent outputs, and what
document 02 says of each (W1).

The reading below is written from document 02 and shares nothing with the engine. Where a case states its answer (the last argument) the
reading is held to it."""
import os, random, struct, sys
from files import letter_file, walker_file
from told import mix, no

random.seed(2)
HERE = sys.argv[1] if len(sys.argv) > 1 else os.path.join(os.path.dirname(os.path.abspath(__file__)), '..', 'crates', 'witness_cases')
FILL, FOUND = 165, 65535


# ---- W1, read independently

def bad_row(symbols, branches, number, row):
    symbol, left, right = row
    if symbol >= symbols: return True
    if branches >> symbol & 1: return left >= number or right >= number
    return (left, right) != (255, 255)


def tree_of(rows, branches):
    """The symbols of the last row's tree in preorder; of at most 4,097 nodes."""
    symbols, waiting = [], [len(rows) - 1]
    while waiting and len(symbols) <= 4096:
        symbol, left, right = rows[waiting.pop()]
        symbols.append(symbol)
        if branches >> symbol & 1: waiting += [right, left]
    return symbols


def answer(symbols, branches, plan, room):
    """Number and place of a refusal, or the letter's file."""
    if len(plan) == 0 or len(plan) % 3 or len(plan) > 195: return 15, 0, None
    rows = [tuple(plan[at:at + 3]) for at in range(0, len(plan), 3)]
    for number, row in enumerate(rows):
        if bad_row(symbols, branches, number, row): return 15, number, None
    nodes = tree_of(rows, branches)
    if len(nodes) > 4096: return 16, 0, None
    file = letter_file(nodes)
    if room < len(file): return 13, len(file), None
    return None, None, file


# ---- the cases

cases = []


def add(label, file, plan, room, told, letter=b''):
    plan = None if plan is None else bytes(plan)
    after = letter.ljust(room, bytes([FILL]))
    cases.append((label, file, plan, room, told if told.startswith(' empty') else f'{told} mix={mix(after)}'))


def case(label, symbols, branches, plan, room, final=2, says=None):
    """The walker has no rules, so that it accepts every letter if its start state is final, and none otherwise."""
    number, place, letter = answer(symbols, branches, plan, room)
    if letter is None: told = no(number, place)
    else: told = f' bytes={len(letter)} ' + ('accepted' if final & 1 else 'other')
    assert says is None or told == says, (label, told, says)
    add(label, walker_file(2, symbols, 1, final, branches, []), plan, room, told, letter or b'')


def yes(length): return f' bytes={length} other'


L = [0, 255, 255]
GOOD = [0, 255, 255, 1, 255, 255, 2, 0, 1]
double = lambda rows: L + [x for i in range(rows - 1) for x in (2, i, i)]
comb = lambda rows: L + [x for i in range(rows - 1) for x in (2, i, 0)]
right_comb = lambda rows: L + [x for i in range(rows - 1) for x in (2, 0, i)]

case('the plan of document 01', 3, 4, GOOD, 512, says=yes(512))
case('start is final', 3, 4, GOOD, 512, final=1, says=' bytes=512 accepted')
case('one leaf', 3, 4, L, 512, says=yes(512))
# the output
case('one byte short', 3, 4, GOOD, 511, says=no(13, 512))
case('exact', 3, 4, GOOD, 512, says=yes(512))
case('longer', 3, 4, GOOD, 700, says=yes(512))
case('no output', 3, 4, GOOD, 0, says=no(13, 512))
# 15: the length
case('empty', 3, 4, [], 512, says=no(15, 0))
case('one byte', 3, 4, [0], 512, says=no(15, 0))
case('four bytes', 3, 4, L + [0], 512, says=no(15, 0))
case('195 bytes', 3, 4, comb(65), 512, says=yes(512))
case('198 bytes', 3, 4, comb(66), 512, says=no(15, 0))
case('196 bytes', 3, 4, comb(65) + [0], 512, says=no(15, 0))
case('a bad length before a bad row', 3, 4, L + [9, 255, 255, 0], 512, says=no(15, 0))
# 15: each fault at the first, a middle and the last row
FAULTS = {
    'itself on the left': lambda i: [2, i, 0],
    'itself on the right': lambda i: [2, 0, i],
    'a later row on the left': lambda i: [2, i + 1, 0],
    'a later row on the right': lambda i: [2, 0, i + 1],
    'a row after the last': lambda i: [2, 0, 64],
    'an unknown symbol': lambda i: [3, 255, 255],
    'symbol 255': lambda i: [255, 0, 0],
    'a leaf with two parts': lambda i: [1, 0, 0],
    'a leaf with a left part': lambda i: [1, 0, 255],
    'a leaf with a right part': lambda i: [1, 255, 0],
    'a branch with no part': lambda i: [2, 255, 255],
    'a branch with a left part': lambda i: [2, 0, 255],
    'a branch with a right part': lambda i: [2, 255, 0],
}
for fault, row in FAULTS.items():
    for rows, at in (3, 0), (3, 1), (3, 2), (65, 64), (1, 0):
        plan = comb(rows)
        plan[3 * at:3 * at + 3] = row(at)
        case(f'{fault}, row {at} of {rows}', 3, 4, plan, 512, says=no(15, at))
case('a row that is not used', 3, 4, L + [3, 255, 255, 2, 0, 0], 512, says=no(15, 1))
case('two bad rows: the first', 3, 4, L + [2, 5, 0, 7, 0, 0], 512, says=no(15, 1))
# 16
case('shared rows', 3, 4, double(3), 512, says=yes(512))
case('doubling, 12 rows', 3, 4, double(12), 4608, says=yes(4608))
case('doubling, 12 rows, one byte short', 3, 4, double(12), 4607, says=no(13, 4608))
case('doubling, 12 rows, longer', 3, 4, double(12), 8192, says=yes(4608))
case('doubling, 13 rows', 3, 4, double(13), 8192, says=no(16, 0))
case('4,097 nodes', 3, 4, double(12) + [2, 11, 0], 8192, says=no(16, 0))
case('2^65 - 1 nodes', 3, 4, double(65), 8192, says=no(16, 0))
case('a large row that is not used', 3, 4, double(64) + [2, 0, 0], 512, says=yes(512))
case('503 nodes in one block', 3, 4, double(8) + [2, 3, 2, 2, 4, 8, 2, 5, 9, 2, 6, 10, 2, 7, 11], 512, says=yes(512))
BLOCKS_2 = double(8) + [2, 2, 0, 2, 3, 8, 2, 4, 9, 2, 5, 10, 2, 6, 11, 2, 7, 12]
case('505 nodes in two blocks', 3, 4, BLOCKS_2, 1100, says=yes(1024))
case('505 nodes, one byte short', 3, 4, BLOCKS_2, 1023, says=no(13, 1024))
# combs
case('comb of 65 rows down the left', 3, 4, comb(65), 600, says=yes(512))
case('comb of 65 rows down the right', 3, 4, right_comb(65), 600, says=yes(512))
# the order
case('15 before 16', 3, 4, double(20) + [3, 0, 0], 512, says=no(15, 20))
case('16 before 13', 3, 4, double(13), 0, says=no(16, 0))
case('15 before 13', 3, 4, [0], 0, says=no(15, 0))
case('32 symbols', 32, 1 << 31, [0, 255, 255, 31, 0, 0], 512, says=yes(512))
case('no branch symbol', 3, 0, [2, 255, 255], 512, says=yes(512))
case('no leaf symbol', 1, 1, [0, 255, 255], 512, says=no(15, 0))
A = [(2, 0, 0, 3, 0), (2, 0, 2, 3, 0), (1, 0, 2, 1, 1), (2, 1, 2, 1, 1)]
WALKER = walker_file(2, 3, 1, 2, 4, A)
add('the walker first: its kind', walker_file(2, 3, 1, 2, 4, A, kind=88), [], 0, ' refused=3 file=0 place=0')
add('the walker first: its length', WALKER[:511], [], 0, ' refused=1 file=0 place=0')
add('the walker first: its last rule', walker_file(2, 3, 1, 2, 4, A + [(1, 0, 0, 1, 1)]), [], 0, ' refused=9 file=0 place=4')
# by chance
ROOMS = [0, 511, 512, 1023, 1024, 4608, 8192]
for k in range(300):
    symbols = random.randint(2, 32)
    branches = random.randint(0, 2 ** symbols - 1)
    plan = []
    for i in range(random.randint(1, random.choice([3, 8, 66]))):
        symbol = random.randrange(symbols)
        for _ in range(8):
            if i == 0 and branches >> symbol & 1: symbol = random.randrange(symbols)
        near = lambda: max(0, i - 1 - int(random.expovariate(0.5)))
        plan += [symbol] + ([near(), near()] if branches >> symbol & 1 else [255, 255])
    if random.random() < 0.25: plan[random.randrange(len(plan))] = random.choice([0, 1, 2, 31, 32, 64, 255])
    case(f'chance {k}', symbols, branches, plan, random.choice(ROOMS))
# plans that the survey finds
add('found: walker A', WALKER, None, 600, ' found=1 bytes=512 accepted', letter_file([2, 0, 1]))
LEFT_RIGHT = walker_file(5, 3, 1, 16, 4, [(2, 0, 0, 2, 1), (1, 1, 1, 1, 2), (2, 2, 0, 3, 3), (0, 3, 2, 1, 4)])
add('found: 1 on the left, 0 on the right', LEFT_RIGHT, None, 600, ' found=1 bytes=512 accepted', letter_file([2, 1, 0]))
add('found: one byte short', LEFT_RIGHT, None, 511, ' found=1 refused=13 file=2 place=512')
add('found: a leaf', walker_file(1, 3, 1, 1, 4, []), None, 512, ' found=0 bytes=512 accepted', letter_file([0]))
add('found nothing', walker_file(2, 3, 1, 2, 4, []), None, 512, ' empty=1')

seen = {number: sum(f' refused={number} ' in told for *_, told in cases) for number in (13, 15, 16)}
assert all(n >= 2 for n in seen.values()), seen
with open(os.path.join(HERE, 'stdin'), 'wb') as f:
    for label, file, plan, room, told in cases:
        f.write(struct.pack('<BHHH', len(label), len(file), FOUND if plan is None else len(plan), room) + label.encode() + file + (plan or b''))
with open(os.path.join(HERE, 'stdout'), 'w') as f:
    for label, file, plan, room, told in cases: f.write(f'{label}:{told}\n')
print(len(cases), 'cases;', 'refusals by number:', ' '.join('%d:%d' % kv for kv in seen.items()))
