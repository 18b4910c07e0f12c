#!/usr/bin/env python3
"""Writes stdin and stdout of crates/canonical_cases, or of another folder (tools/make_canonical_cases.py [FOLDER]): walker files and lent outputs,
and what document 02 says of each (W4).

The reading below is written from documents 01 and 02 and shares nothing with the engine. Where a case states its answer, or the rules of the
form, the reading is held to it. Every file that is refused by document 01's table states its refusal."""
import itertools, os, random, struct, sys
from files import blocks, walker_file, walker_payload
from told import mix, no, pattern

random.seed(4)
HERE = sys.argv[1] if len(sys.argv) > 1 else os.path.join(os.path.dirname(os.path.abspath(__file__)), '..', 'crates', 'canonical_cases')


# ---- W4, read independently

def spread(rule):
    symbol, state, place, move, to = rule
    return [(symbol, state, at, move, to) for at in ((0, 1, 2) if place == 3 else (place,))]


def form(rules):
    """The rules that remain: tuples compare from the first byte."""
    return sorted({one for rule in rules for one in spread(rule)})


def answer(states, symbols, start, final, branches, rules, room):
    """Number and place of a refusal, or the file."""
    remain = form(rules)
    if len(remain) > 512: return 17, 0, None
    file = walker_file(states, symbols, start, final, branches, remain)
    if room < len(file): return 13, len(file), None
    return None, None, file


# ---- the cases

cases = []


def add(label, file, room, told, written=b''):
    assert len(label) < 256 and all(label != other[0] for other in cases), label
    cases.append((label, file, room, f'{told} mix={mix(written + pattern(room)[len(written):])}'))


def case(label, rules, room, says=None, gives=None, states=2, symbols=3, start=1, final=2, branches=4, like=None):
    """`says` is the answer, `gives` the rules of the form in order, `like` the file written; this is given back."""
    number, place, file = answer(states, symbols, start, final, branches, rules, room)
    told = no(number, place) if file is None else yes(len(file), len(form(rules)))
    assert says is None or told == says, (label, told, says)
    assert gives is None or file == walker_file(states, symbols, start, final, branches, gives), (label, form(rules))
    assert like is None or file == like, label
    add(label, walker_file(states, symbols, start, final, branches, rules), room, told, file or b'')
    return file


def yes(length, rules): return f' written={length} rules={rules} again=same'
def own(number, place): return no(number, place, 0)


A = [(2, 0, 0, 3, 0), (2, 0, 2, 3, 0), (1, 0, 2, 1, 1), (2, 1, 2, 1, 1)]
A_FORM = [(1, 0, 2, 1, 1), (2, 0, 0, 3, 0), (2, 0, 2, 3, 0), (2, 1, 2, 1, 1)]
ALL_STATES, ALL_SYMBOLS = 2 ** 24 - 1, 2 ** 32 - 1
LARGE = dict(states=24, symbols=32, start=1, final=ALL_STATES, branches=ALL_SYMBOLS)

first = case('the walker of document 01', A, 512, yes(512, 4), A_FORM)
# one walker as different bytes
SAME = {
    'its form': A_FORM,
    'its records turned round': A[::-1],
    'each record twice': A + A,
    'each record twice, side by side': [rule for rule in A for _ in (0, 1)],
    '512 records': A * 128,
}
for name, rules in SAME.items(): case(f'the same walker: {name}', rules, 512, yes(512, 4), A_FORM, like=first)
for k, rules in enumerate(itertools.permutations(A)):
    if k % 5 == 3: case(f'the same walker: another order, {k}', rules, 512, yes(512, 4), A_FORM, like=first)
# other walkers: another count, another set, another rule
others = [
    case('a state more', A, 512, yes(512, 4), A_FORM, states=3),
    case('a symbol more', A, 512, yes(512, 4), A_FORM, symbols=4),
    case('other start states', A, 512, yes(512, 4), A_FORM, start=3),
    case('other final states', A, 512, yes(512, 4), A_FORM, final=3),
    case('other branch symbols', A, 512, yes(512, 4), A_FORM, branches=5),
    case('a rule more', A + [(1, 0, 0, 0, 1)], 512, yes(512, 5), [(1, 0, 0, 0, 1)] + A_FORM),
    case('a rule less', A[:3], 512, yes(512, 3), A_FORM[:3]),
    case('another next state', A[:3] + [(2, 1, 2, 1, 0)], 512, yes(512, 4), A_FORM[:3] + [(2, 1, 2, 1, 0)]),
]
assert len({first, *others}) == 1 + len(others)
# counts and sets: symbols and states that no rule uses stay
case('no rule', [], 512, yes(512, 0), [])
case('no rule, one state, one symbol', [], 512, yes(512, 0), [], 1, 1, 1, 1, 1)
case('no rule, every set empty', [], 512, yes(512, 0), [], 24, 32, 0, 0, 0)
case('no rule, every set full', [], 512, yes(512, 0), [], 24, 32, ALL_STATES, ALL_STATES, ALL_SYMBOLS)
case('no rule, no leaf symbol', [], 512, yes(512, 0), [], 7, 9, 64, 1, 511)
case('one rule', [A[2]], 512, yes(512, 1), [A[2]])
case('one rule, 24 states and 32 symbols', [A[2]], 512, yes(512, 1), [A[2]], 24, 32, 8388608, 4194304, 2 ** 31)
case('one rule, every set full', [(31, 23, 2, 3, 23)], 512, yes(512, 1), None, 24, 32, ALL_STATES, ALL_STATES, ALL_SYMBOLS)
case('one rule, one state, one symbol', [(0, 0, 1, 1, 0)], 512, yes(512, 1), None, 1, 1, 0, 1, 0)
# place 3
STAY = (1, 0, 3, 0, 1)
SPREAD = [(1, 0, 0, 0, 1), (1, 0, 1, 0, 1), (1, 0, 2, 0, 1)]
spread_file = case('place 3', [STAY], 512, yes(512, 3), SPREAD)
COPIES = {f'beside its copy at {rule[2]}': [STAY, rule] for rule in SPREAD}
COPIES.update({f'after its copy at {rule[2]}': [rule, STAY] for rule in SPREAD})
COPIES.update({'beside all its copies': [STAY] + SPREAD, 'between its copies': [SPREAD[2], STAY, SPREAD[0], SPREAD[1]], 'twice': [STAY, STAY]})
for name, rules in COPIES.items(): case(f'place 3 {name}', rules, 512, yes(512, 3), SPREAD, like=spread_file)
case('its copies and no place 3', SPREAD[::-1], 512, yes(512, 3), SPREAD, like=spread_file)
case('two copies and no place 3', SPREAD[1:], 512, yes(512, 2), SPREAD[1:])
case('place 3 to the left', [(2, 1, 3, 2, 0)], 512, yes(512, 3), [(2, 1, 0, 2, 0), (2, 1, 1, 2, 0), (2, 1, 2, 2, 0)])
case('place 3 to the right', [(2, 1, 3, 3, 0)], 512, yes(512, 3), [(2, 1, 0, 3, 0), (2, 1, 1, 3, 0), (2, 1, 2, 3, 0)])
case('place 3 of the last symbol and state', [(31, 23, 3, 3, 23)], 512, yes(512, 3), **LARGE)
case('two of place 3, another move: the places come first', [(2, 0, 3, 3, 0), (2, 0, 3, 2, 0)], 512, yes(512, 6),
     [(2, 0, 0, 2, 0), (2, 0, 0, 3, 0), (2, 0, 1, 2, 0), (2, 0, 1, 3, 0), (2, 0, 2, 2, 0), (2, 0, 2, 3, 0)])
case('two of place 3, another next state', [(2, 0, 3, 2, 1), (2, 0, 3, 2, 0)], 512, yes(512, 6),
     [(2, 0, 0, 2, 0), (2, 0, 0, 2, 1), (2, 0, 1, 2, 0), (2, 0, 1, 2, 1), (2, 0, 2, 2, 0), (2, 0, 2, 2, 1)])
case('place 3 and another rule at 1', [STAY, (1, 0, 1, 1, 0)], 512, yes(512, 4), SPREAD[:2] + [(1, 0, 1, 1, 0), SPREAD[2]])
case('place 3 of two states', [(1, 1, 3, 0, 0), (1, 0, 3, 0, 0)], 512, yes(512, 6),
     [(1, 0, 0, 0, 0), (1, 0, 1, 0, 0), (1, 0, 2, 0, 0), (1, 1, 0, 0, 0), (1, 1, 1, 0, 0), (1, 1, 2, 0, 0)])
# repeats
case('a record 512 times', [A[0]] * 512, 512, yes(512, 1), [A[0]])
case('place 3 512 times', [STAY] * 512, 512, yes(512, 3), SPREAD)
case('a record 511 times, and a lower one', [A[0]] * 511 + [A[2]], 512, yes(512, 2), [A[2], A[0]])
# the order: each byte weighs more than each later one, and than all of them
BYTES = ('symbol', 'state', 'place', 'move', 'next state')
ORDER = dict(states=24, symbols=32, branches=ALL_SYMBOLS)
LOW, HIGH = (3, 4, 1, 1, 5), (7, 9, 2, 3, 8)


def at(rule, i, value): return rule[:i] + (value,) + rule[i + 1:]


for i, name in enumerate(BYTES):
    higher = at(LOW, i, HIGH[i])
    case(f'another {name} alone', [higher, LOW], 512, yes(512, 2), [LOW, higher], **ORDER)
    for j in range(i + 1, 5):
        lower = at(LOW, j, HIGH[j])
        case(f'{name} before {BYTES[j]}', [higher, lower], 512, yes(512, 2), [lower, higher], **ORDER)
        case(f'{name} before {BYTES[j]}, in order', [lower, higher], 512, yes(512, 2), [lower, higher], **ORDER)
    lower, higher = at(HIGH, i, LOW[i]), HIGH[:i + 1] + LOW[i + 1:]
    case(f'{name} before all later bytes', [higher, lower], 512, yes(512, 2), [lower, higher], **ORDER)
case('next states 23 to 0', [(0, 0, 0, 0, to) for to in range(23, -1, -1)], 512, yes(512, 24), [(0, 0, 0, 0, to) for to in range(24)], **LARGE)
case('symbols 31 to 0', [(symbol, 0, 0, 0, 0) for symbol in range(31, -1, -1)], 512, yes(512, 32),
     [(symbol, 0, 0, 0, 0) for symbol in range(32)], **LARGE)
case('states 23 to 0', [(0, state, 0, 0, 0) for state in range(23, -1, -1)], 512, yes(512, 24), [(0, state, 0, 0, 0) for state in range(24)], **LARGE)
case('the lowest and the highest rule', [(31, 23, 2, 3, 23), (0, 0, 0, 0, 0)], 512, yes(512, 2), [(0, 0, 0, 0, 0), (31, 23, 2, 3, 23)], **LARGE)
ONE = [(5, 6, place, move, to) for place in range(3) for move in range(4) for to in range(24) if (place, move) != (0, 1)]
case('every rule of one symbol and state, falling', ONE[::-1], 1536, yes(1536, 264), ONE, **LARGE)
case('every rule of one symbol and state, shuffled', random.sample(ONE, 264), 1536, yes(1536, 264), ONE, **LARGE)
# the lent output
for room in 0, 1, 511: case(f'document 01, {room} bytes lent', A, room, no(13, 512))
for room in 512, 513, 700, 1024, 8192: case(f'document 01, {room} bytes lent', A, room, yes(512, 4), A_FORM)
# the blocks: 97, 199, 300, 402, 504 and 512 rules are the most of one to six
MANY = [(symbol, state, place, 0, 23 - state) for symbol in range(32) for state in range(24) for place in (0, 2)]


def falling(count): return MANY[:count][::-1]


for number, most in enumerate((97, 199, 300, 402, 504), 1):
    length = 512 * number
    case(f'{most} rules', falling(most), length, yes(length, most), MANY[:most], **LARGE)
    case(f'{most} rules, one byte short', falling(most), length - 1, no(13, length), **LARGE)
    case(f'{most + 1} rules, a block more', falling(most + 1), length + 600, yes(length + 512, most + 1), MANY[:most + 1], **LARGE)
    case(f'{most + 1} rules, that block not lent', falling(most + 1), length, no(13, length + 512), **LARGE)
case('97 rules, longer by one', falling(97), 513, yes(512, 97), MANY[:97], **LARGE)
case('98 rules, one byte short', falling(98), 1023, no(13, 1024), **LARGE)
case('98 rules, no output', falling(98), 0, no(13, 1024), **LARGE)
case('98 records, a repeat: 97 rules', falling(97) + [MANY[0]], 512, yes(512, 97), MANY[:97], **LARGE)
EVERYWHERE = [(symbol, state, 3, 2, state) for symbol in range(32) for state in range(24)]
case('32 of place 3 and one more: 97 rules', EVERYWHERE[:32] + [(31, 0, 0, 0, 0)], 512, yes(512, 97), **LARGE)
case('32 of place 3 and two more: 98 rules', EVERYWHERE[:32] + [(31, 0, 0, 0, 0), (31, 0, 2, 1, 0)], 1024, yes(1024, 98), **LARGE)
case('33 of place 3: 99 rules', EVERYWHERE[:33], 1023, no(13, 1024), **LARGE)
case('97 of place 3: 291 rules', EVERYWHERE[:97][::-1], 2048, yes(1536, 291), **LARGE)
# 17
ONCE = [(31, 23, 1, 1, 23), (31, 23, 2, 1, 22), (30, 22, 1, 0, 5)]
case('512 records: 512 rules', falling(512), 3072, yes(3072, 512), MANY[:512], **LARGE)
case('512 records in order', MANY[:512], 3072, yes(3072, 512), MANY[:512], **LARGE)
case('512 records, the last a repeat: 511 rules', falling(511) + [MANY[0]], 3072, yes(3072, 511), MANY[:511], **LARGE)
case('512 records, one of place 3: 514 rules', falling(511) + [EVERYWHERE[700]], 3072, no(17, 0), **LARGE)
case('511 records, one of place 3: 513 rules', falling(510) + [EVERYWHERE[700]], 3072, no(17, 0), **LARGE)
case('510 records, one of place 3: 512 rules', falling(509) + [EVERYWHERE[700]], 3072, yes(3072, 512), **LARGE)
case('512 records, one of place 3 over two of them: 512 rules', falling(511) + [at(MANY[0], 2, 3)], 3072, yes(3072, 512), **LARGE)
case('170 of place 3 and two more: 512 rules', EVERYWHERE[:170] + ONCE[:2], 3072, yes(3072, 512), **LARGE)
case('170 of place 3 and three more: 513 rules', EVERYWHERE[:170] + ONCE, 3072, no(17, 0), **LARGE)
case('170 of place 3, two more and a copy: 512 rules', ONCE[:2] + EVERYWHERE[:170] + [(0, 0, 1, 2, 0)], 3072, yes(3072, 512), **LARGE)
case('170 of place 3, two more and 340 copies: 512 rules', EVERYWHERE[:170] + ONCE[:2] + [at(rule, 2, place) for rule in EVERYWHERE[:170]
     for place in (2, 0)], 3072, yes(3072, 512), **LARGE)
case('171 of place 3: 513 rules', EVERYWHERE[:171], 3072, no(17, 0), **LARGE)
case('171 of place 3 and a copy: 513 rules', EVERYWHERE[:171] + [(0, 0, 1, 2, 0)], 3072, no(17, 0), **LARGE)
case('171 of place 3, two of them equal: 510 rules', EVERYWHERE[:170] + [EVERYWHERE[0]], 3072, yes(3072, 510), **LARGE)
case('512 of place 3: 1,536 rules', EVERYWHERE[:512], 8192, no(17, 0), **LARGE)
case('512 of place 3, 170 of them different: 510 rules', (EVERYWHERE[:170] * 4)[:512], 3072, yes(3072, 510), **LARGE)
# the order of the checks
for room in 0, 511, 3071, 8192: case(f'17 before 13: 513 rules, {room} bytes lent', EVERYWHERE[:171], room, no(17, 0), **LARGE)
case('512 rules, one byte short', EVERYWHERE[:170] + ONCE[:2], 3071, no(13, 3072), **LARGE)
case('512 rules, no output', EVERYWHERE[:170] + ONCE[:2], 0, no(13, 3072), **LARGE)
case('512 rules, longer by one', EVERYWHERE[:170] + ONCE[:2], 3073, yes(3072, 512), **LARGE)
# the walker's own, before 13 and before 17
parts = (24, 32, 1, ALL_STATES, ALL_SYMBOLS)
WIDE = walker_payload(*parts, EVERYWHERE[:171])


def changed(payload, at, value): return payload[:at] + bytes([value]) + payload[at + 1:]


OWN = [
    ('1', blocks(WIDE)[:-1], own(1, 0)),
    ('1: no bytes', b'', own(1, 0)),
    ('1: seven blocks', blocks(WIDE, 7), own(1, 0)),
    ('2', changed(blocks(WIDE), 600, 77), own(2, 1)),
    ('3', blocks(changed(WIDE, 0, 84)), own(3, 0)),
    ('4: states', blocks(changed(WIDE, 1, 25)), own(4, 1)),
    ('4: symbols', blocks(changed(WIDE, 2, 0)), own(4, 2)),
    ('4: 513 records', blocks(walker_payload(*parts, EVERYWHERE[:513], count=513)), own(4, 4)),
    ('5', blocks(WIDE, 3), own(5, 2)),
    ('6: byte 3', blocks(changed(WIDE, 3, 1)), own(6, 3)),
    ('6: filler', blocks(WIDE + b'\1'), own(6, 875)),
    ('7', walker_file(23, 32, 1, ALL_STATES, ALL_SYMBOLS, EVERYWHERE[:171]), own(7, 12)),
    ('8', blocks(changed(WIDE, 20 + 5 * 170 + 3, 4)), own(8, 170)),
    ('8: place 4', blocks(changed(WIDE, 20 + 5 * 2 + 2, 4)), own(8, 2)),
    ('9: place 3, up', blocks(changed(WIDE, 20 + 5 * 170 + 3, 1)), own(9, 170)),
    ('9: down at a leaf', walker_file(24, 32, 1, ALL_STATES, 2 ** 32 - 2, EVERYWHERE[:171]), own(9, 0)),
]
assert len(WIDE) == 875
for name, file, says in OWN:
    for room in (0, 3072): add(f'the walker first, {name}, {room} bytes lent', file, room, says)
# by chance
for k in range(80):
    states, symbols = random.randint(1, 24), random.randint(1, 32)
    branches = random.randrange(2 ** symbols)
    rules = []
    for _ in range(random.choice((5, 30, 110, 210))):
        symbol, place = random.randrange(min(symbols, 3)), random.choice((0, 1, 2, 3))
        moves = [0] + [1] * (place in (1, 2)) + [2, 3] * (branches >> symbol & 1)
        rules.append((symbol, random.randrange(states), place, random.choice(moves), random.randrange(min(states, 4))))
    needed = -(-(20 + 5 * len(form(rules))) // 508) * 512
    room = max(0, needed + random.choice((0, 0, 1, 100, -1, -300, -needed)))
    case(f'chance {k}', rules, room, None, None, states, symbols, random.randrange(2 ** states), random.randrange(2 ** states), branches)

seen = {number: sum(f' refused={number} ' in told for *_, told in cases) for number in (*range(1, 10), 13, 17)}
assert all(n >= 2 for n in seen.values()), seen
with open(os.path.join(HERE, 'stdin'), 'wb') as f:
    for label, file, room, told in cases: f.write(struct.pack('<BHH', len(label), len(file), room) + label.encode() + file)
with open(os.path.join(HERE, 'stdout'), 'w') as f:
    for label, file, room, told in cases: f.write(f'{label}:{told}\n')
print(len(cases), 'cases;', 'refusals by number:', ' '.join('%d:%d' % kv for kv in seen.items()))
