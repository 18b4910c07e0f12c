#!/usr/bin/env python3
"""Writes stdin and stdout of crates/logs_cases, or of another folder (tools/make_logs_cases.py [FOLDER]): walker files, letter files and pairs of logs,
and what document 02 says of each (W8).

The reading below is written from documents 01 and 02 and shares nothing with the engine. Where a case states its answer, the reading is held to it.
Every answer is held to a second reading, too. Every file that is refused by document 01's table states its refusal."""
import functools, itertools, os, random, struct, sys
from collections import Counter
from files import blocks, letter_file, walker_file
from told import mix, no
from walkers import (A, GOOD, LEFT, LETTER, LETTERS, RIGHT, RULES, STAY, UP, WALKERS, Walker, changed, leaf_walker, left_comb, letter_by_chance, moved, parts,
                     place_of, right_comb, ways_of, wide)

random.seed(8)
HERE = sys.argv[1] if len(sys.argv) > 1 else os.path.join(os.path.dirname(os.path.abspath(__file__)), '..', 'crates', 'logs_cases')
KEPT = 2 ** 31


# ---- W8, read independently

def log_of(entries): return b''.join(struct.pack('<HB', *entry) for entry in entries)
def entries_of(log): return list(struct.iter_unpack('<HB', log))


class Steps:
    """The positions that each position of a letter leads to; of one that does not exist, none."""

    def __init__(self, walker, letter):
        self.walker, self.letter, self.ways = walker, letter, ways_of(walker.branches, letter)
        self.node_at = {way: node for node, way in enumerate(self.ways)}

    @functools.cache
    def __call__(self, node, state):
        if node >= len(self.letter): return set()
        way = self.ways[node]
        rules = [rule for rule in self.walker.rules if rule[:2] == (self.letter[node], state) and rule[2] in (place_of(way), 3)]
        return {(self.node_at[moved(way, move)], to) for *_, move, to in rules}


def lawful(walker, steps, log):
    """How many entries from the start are a lawful walk."""
    starts = {(0, state) for state in range(walker.states) if walker.start >> state & 1}
    count, allowed = 0, starts
    for entry in entries_of(log):
        if entry not in allowed: break
        count, allowed = count + 1, steps(*entry)
    return count


def common(first, second):
    """How many entries from the start are the same in both."""
    pairs = zip(entries_of(first), entries_of(second))
    return next((count for count, (one, other) in enumerate(pairs) if one != other), min(len(first), len(second)) // 3)


def answer(walker, letter, first, second):
    """The log that is refused, or the entries in common and the two counts."""
    if len(first) % 3: return 0
    if len(second) % 3: return 1
    steps = Steps(walker, letter)
    return common(first, second), lawful(walker, steps, first), lawful(walker, steps, second)


# ---- a second reading, which every answer is held to

@functools.lru_cache(8)
def all_steps(walker, letter):
    """Every pair of positions of which one leads to the other, rule by rule."""
    left, right, above, place = parts(walker.branches, letter)
    pairs = set()
    for symbol, state, at, move, to in set(walker.rules):
        for node in range(len(letter)):
            if letter[node] == symbol and at in (place[node], 3):
                pairs.add((node, state, (node, above[node], left[node], right[node])[move], to))
    return pairs


def hold(walker, letter, log, count):
    """The entries that are counted are a walk, and the next one is no part of it."""
    pairs, entries = all_steps(walker, tuple(letter)), entries_of(log)
    right = [k > 0 and (*entries[k - 1], *entries[k]) in pairs or k == 0 and entries[0][0] == 0 and bool(walker.start >> entries[0][1] & 1)
             for k in range(len(entries))]
    assert all(right[:count]) and not any(right[count:count + 1])


def hold_part(first, second, count):
    assert len(os.path.commonprefix([first, second])) // 3 == count


# ---- the cases

cases, labels = [], set()


def add(label, automaton, tree, first, second, told):
    assert 0 < len(label) < 256 and label not in labels, label
    labels.add(label)
    cases.append((label, automaton, tree, first, second, told))


def numbers(part, one, other): return f' part={len(part)} mix={mix(part)} first={one} second={other}'
def refusal(*said): return no(*said) + numbers(b'', 0, 0)


def case(label, walker, letter, first, second, says=None):
    """A log is its entries, or its bytes; `says` is the log that 23 refuses, or the entries in common and the two counts."""
    first, second = (log if isinstance(log, bytes) else log_of(log) for log in (first, second))
    found = answer(walker, letter, first, second)
    assert says is None or found == says, (label, found, says)
    if isinstance(found, int): told = refusal(23, found)
    else:
        hold_part(first, second, found[0])
        hold(walker, letter, first, found[1])
        hold(walker, letter, second, found[2])
        told = numbers(first[:3 * found[0]], *found[1:])
    add(label, walker_file(*walker), letter_file(letter), first, second, told)


THREE, SEVEN = [2, 0, 1], [2, 2, 0, 1, 2, 1, 0]
WALK = [(0, 0), (2, 0), (0, 1)]


def down_to(letter, node, state=0):
    """The positions from the root to a node."""
    ways = ways_of(4, letter)
    return [(ways.index(ways[node][:depth]), state) for depth in range(len(ways[node]) + 1)]


# every beginning of document 01's walk beside every other; a walk that is none; empty logs
for one, other in itertools.product(range(4), repeat=2):
    case(f'A on 2 0 1, {one} and {other} entries', A, THREE, WALK[:one], WALK[:other], (min(one, other), one, other))
FIVE = [(0, 0), (2, 0), (4, 0), (2, 1), (0, 1)]
case('A on 2 0 2 0 1, twice', A, [2, 0, 2, 0, 1], FIVE, FIVE, (5, 5, 5))
for at in range(5): case(f'A on 2 0 2 0 1, without entry {at}', A, [2, 0, 2, 0, 1], FIVE, FIVE[:at] + FIVE[at + 1:], (at, 5, at))
for at in range(5): case(f'A on 2 0 2 0 1, entry {at} twice', A, [2, 0, 2, 0, 1], FIVE[:at] + FIVE[at:at + 1] + FIVE[at:], FIVE, (at + 1, at + 1, 5))
for at in range(4):
    swapped = FIVE[:at] + [FIVE[at + 1], FIVE[at]] + FIVE[at + 2:]
    case(f'A on 2 0 2 0 1, entries {at} and {at + 1} exchanged', A, [2, 0, 2, 0, 1], swapped, FIVE, (at, at, 5))
case('A on 2 0 2 0 1, turned round', A, [2, 0, 2, 0, 1], FIVE[::-1], FIVE, (0, 0, 5))
case('A on 2 0 2 0 1, one entry more', A, [2, 0, 2, 0, 1], FIVE + [(0, 1)], FIVE, (5, 5, 5))
case('A on 2 0 2 0 1, both go on alike', A, [2, 0, 2, 0, 1], FIVE + [(9, 9)] * 3, FIVE + [(9, 9)] * 4, (8, 5, 5))
case('A on 2 1 0, the walk of 2 0 1', A, [2, 1, 0], WALK, WALK, (3, 2, 2))
NO_WALK = [(7, 3), (900, 77), (65535, 255), (0, 0)]
for one, other in itertools.product((0, 1, 3, 4), repeat=2):
    case(f'no walks, {one} and {other} entries', A, THREE, NO_WALK[:one], NO_WALK[:other], (min(one, other), 0, 0))
case('a walk and no walk', A, THREE, WALK, NO_WALK, (0, 3, 0))
case('no walk and a walk', A, THREE, NO_WALK, WALK, (0, 0, 3))
case('empty logs, no start state', A._replace(start=0), THREE, [], [], (0, 0, 0))
case('empty logs, one leaf', leaf_walker(1, []), [0], [], [], (0, 0, 0))
case('empty logs, 4,095 nodes', A, wide(4095), [], [], (0, 0, 0))

# one byte differs, in the first, a middle and the last entry: low byte, high byte, state
BIG = wide(1021)
DOWN = Walker(2, 3, 1, 0, 4, ((2, 0, 3, LEFT, 0), (2, 0, 3, RIGHT, 0), (2, 0, 3, STAY, 0), (0, 0, 3, STAY, 0)))
FAR_DOWN = down_to(BIG, 1020)
FAR_DOWN += [FAR_DOWN[-1]] * 2
assert len(FAR_DOWN) == 12 and FAR_DOWN[-1] == (1020, 0)
for at, (byte, name) in itertools.product((0, 1, 5, 10, 11), enumerate(('low byte', 'high byte', 'state'))):
    for bit in (1, 2, 128, 255):
        log = log_of(FAR_DOWN)
        other = changed(log, 3 * at + byte, log[3 * at + byte] ^ bit)
        case(f'entry {at} of 12, the {name} by {bit}', DOWN, BIG, log, other, (at, 12, at))
        if bit == 1: case(f'entry {at} of 12, the {name} by 1, of the first', DOWN, BIG, other, log, (at, at, 12))
for at in (0, 6, 11):
    log = log_of(FAR_DOWN)
    case(f'entry {at} of 12, both', DOWN, BIG, changed(log, 3 * at, 77), changed(log, 3 * at, 78), (at, at, at))
    case(f'entry {at} of 12, both alike', DOWN, BIG, changed(log, 3 * at, 77), changed(log, 3 * at, 77), (12, at, at))
case('entries 2 and 7 of 12', DOWN, BIG, FAR_DOWN[:7] + [(3, 3)] + FAR_DOWN[8:], FAR_DOWN[:2] + [(3, 3)] + FAR_DOWN[3:], (2, 7, 2))
for one, other in (((1, 0), (256, 0)), ((0, 1), (1, 0)), ((2, 0), (0, 2)), ((256, 0), (0, 1)), ((0, 0), (256, 0)), ((513, 0), (258, 0))):
    case(f'{one} and {other}', DOWN, BIG, [one], [other], (0, int(one == (0, 0)), 0))
case('bytes in common and no entry', DOWN, BIG, [(0, 0), (510, 1)], [(0, 0), (510, 0)], (1, 1, 2))
case('the same walk from another entry on', DOWN, BIG, FAR_DOWN, FAR_DOWN[1:], (0, 12, 0))

# the first entry: the root in a start state
for node in (1, 2, 3, 255, 256, 257, 512, 4096, 32768, 65280, 65535):
    case(f'begins at node {node}', A, THREE, [(node, 0)] + WALK[1:], [(node, 0)], (1, 0, 0))
    case(f'begins at node {node} of 1,021', DOWN, BIG, [(node, 0), (node, 0)], [(0, 0), (node, 0)], (0, 0, 2 if node == 1 else 1))
case('begins in no start state', A, THREE, [(0, 1)], WALK, (0, 0, 3))
case('begins in no start state, and goes on', A, THREE, [(0, 1)] + WALK[1:], WALK, (0, 0, 3))
case('begins in a second start state', A._replace(start=3), THREE, [(0, 1)], WALK, (0, 1, 3))
case('begins in a second start state only', A._replace(start=2), THREE, [(0, 1)], WALK, (0, 1, 0))
case('no start state', A._replace(start=0), THREE, WALK, [(0, 1)], (0, 0, 0))
EVERY = Walker(24, 3, 2 ** 24 - 1, 0, 4, tuple((0, 0, 0, STAY, to) for to in range(24)))
STATES = (0, 1, 2, 7, 8, 15, 16, 22, 23, 24, 25, 31, 32, 33, 55, 56, 63, 64, 127, 128, 224, 255)
for state in STATES:
    case(f'all 24 states start, state {state}', EVERY, [0], [(0, state)], [(0, state)] * 2, (1, int(state < 24), int(state < 24) + (state == 0)))
    case(f'state 23 starts, state {state}', EVERY._replace(start=1 << 23), [0], [(0, state)], [(0, 23)], (int(state == 23), int(state == 23), 1))
    case(f'all 24 states start, state {state} at node 1', EVERY, [0], [(1, state)], [(256, state)], (0, 0, 0))
for start in range(24):
    case(f'state {start} starts', EVERY._replace(start=1 << start), [0], [(0, start)], [(0, (start + 1) % 24)], (0, 1, 0))

# the next entry: a state that does not exist, a node that does not
for states in (1, 2, 8, 23, 24):
    walker = leaf_walker(states, [(0, to) for to in range(states)])
    for state in sorted({states - 1, states, states + 1, *STATES}):
        good = 1 + (state < states)
        case(f'{states} states, then state {state}', walker, [0], [(0, 0), (0, state)], [(0, 0)], (1, good, 1))
        case(f'{states} states, then state {state}, then 0', walker, [0], [(0, 0), (0, 0)], [(0, 0), (0, state), (0, 0)],
             (2 if state == 0 else 1, 2, 3 if state == 0 else good))
STEPPING = DOWN._replace(rules=DOWN.rules + ((2, 0, 1, UP, 0), (2, 0, 2, UP, 0), (0, 0, 1, UP, 0), (0, 0, 2, UP, 0)))
for count in (1, 3, 253, 255, 257, 509, 511, 513, 4093, 4095):
    letter = wide(count)
    last = down_to(letter, count - 1)
    for node in sorted({count - 1, count, count + 1, count + 255, count + 256, 4095, 4096, 65535}):
        log = last + [(node, 0)]
        case(f'{count} nodes, node {node} last', STEPPING, letter, log, last, (len(last), len(last) + (node == count - 1), len(last)))
        case(f'{count} nodes, node {node} after the root', STEPPING, letter, [(0, 0), (node, 0)], [(0, 0), (node, 0), (0, 0)])
    case(f'{count} nodes, down and up', STEPPING, letter, last + last[-2::-1], last + last[:-1])

# moves: every node of seven, every move, and every node that it could lead to
MOVES = {'stay': tuple((symbol, 0, 3, STAY, 1) for symbol in range(3)),
         'up': tuple((symbol, 0, place, UP, 1) for symbol in range(3) for place in (1, 2)),
         'left': ((2, 0, 3, LEFT, 1),), 'right': ((2, 0, 3, RIGHT, 1),)}
GOES = {'stay': [0, 1, 2, 3, 4, 5, 6], 'up': [None, 0, 1, 1, 0, 4, 4], 'left': [1, 2, None, None, 5, None, None], 'right': [4, 3, None, None, 6, None, None]}
for (name, rules), node in itertools.product(MOVES.items(), range(7)):
    walker, log = Walker(2, 3, 1, 0, 4, ((2, 0, 3, LEFT, 0), (2, 0, 3, RIGHT, 0)) + rules), down_to(SEVEN, node)
    for target in range(0, 8, 2):
        counts = [len(log) + (GOES[name][node] == to) for to in (target, target + 1)]
        case(f'{name} from {node} to {target} and {target + 1}', walker, SEVEN, log + [(target, 1)], log + [(target + 1, 1)], (len(log), *counts))
    case(f'{name} from {node} in another state', walker, SEVEN, log + [(GOES[name][node] or 0, 2)], log + [(GOES[name][node] or 0, 0)])
PLACES = {'root': ([(0, 0), (0, 1)], STAY), 'left part': ([(0, 0), (1, 1)], LEFT), 'right part': ([(0, 0), (4, 1)], RIGHT)}
for at, (name, (log, move)) in enumerate(PLACES.items()):
    for given in range(4):
        walker = Walker(3, 3, 1, 0, 4, ((2, 0, 0, move, 1), (2, 1, given, STAY, 2)))
        case(f'a rule for place {given} at the {name}', walker, [2, 2, 0, 0, 2, 0, 0], log + [(log[1][0], 2)], log, (2, 2 + (given in (at, 3)), 2))
for name, rule in ('symbol', (1, 1, 1, UP, 2)), ('state', (0, 2, 1, UP, 2)), ('place', (0, 1, 2, UP, 2)), ('next state', (0, 1, 1, UP, 0)):
    walker = Walker(3, 3, 1, 4, 4, ((2, 0, 0, LEFT, 1), rule))
    case(f'a rule for another {name}', walker, [2, 0, 0], [(0, 0), (1, 1), (0, 2)], [(0, 0), (1, 1)], (2, 2, 2))
    case(f'a rule for another {name}, mended', walker._replace(rules=walker.rules + ((0, 1, 1, UP, 2),)), [2, 0, 0], [(0, 0), (1, 1), (0, 2)],
         [(0, 0), (1, 1)], (2, 3, 2))
UP_ONLY = Walker(2, 3, 1, 0, 4, tuple((symbol, 0, place, UP, 1) for symbol in range(3) for place in (1, 2)))
case('up at the root', UP_ONLY, THREE, [(0, 0), (0, 1)], [(0, 0), (65535, 1)], (1, 1, 1))
DOWN_ONLY = Walker(2, 3, 1, 0, 4, ((2, 0, 3, LEFT, 1), (2, 0, 3, RIGHT, 1), (2, 1, 3, LEFT, 1), (2, 1, 3, RIGHT, 1)))
case('down at a leaf', DOWN_ONLY, [0], [(0, 0), (1, 1)], [(0, 0), (0, 1)], (1, 1, 1))
case('down at a left leaf', DOWN_ONLY, THREE, [(0, 0), (1, 1), (2, 1)], [(0, 0), (1, 1), (0, 1)], (2, 2, 2))
case('down at the last leaf', DOWN_ONLY, THREE, [(0, 0), (2, 1), (3, 1)], [(0, 0), (2, 1), (0, 1)], (2, 2, 2))

# a final state at the root does not end a walk; positions come again
PASSING = leaf_walker(2, [(0, 1), (1, 0)], final=3)
for count in (1, 2, 3, 10): case(f'{count} positions in final states', PASSING, [0], [(0, 0), (0, 1)] * count, [(0, 0), (0, 1)] * count, (2 * count,) * 3)
GOES_ON = A._replace(rules=RULES + ((2, 1, 0, STAY, 0),))
case('on after a pass', GOES_ON, THREE, WALK * 3, WALK, (3, 9, 3))
case('no rule after a pass', A, THREE, WALK * 3, WALK, (3, 3, 3))
case('passed at once, and on', A._replace(final=3), THREE, WALK, WALK[:1], (1, 3, 1))
case('an entry again, a stay rule', leaf_walker(1, [(0, 0)]), [0], [(0, 0)] * 9, [(0, 0)] * 4, (4, 9, 4))
case('an entry again, no rule', leaf_walker(1, []), [0], [(0, 0)] * 9, [(0, 0)] * 4, (4, 1, 1))

# later entries do not count
case('steps of one another after a wrong start', A, [2, 0, 2, 0, 1], FIVE[1:], FIVE[2:], (0, 0, 0))
for at in range(5):
    wrong = FIVE[:at] + [(3, 0)] + FIVE[at:]
    case(f'steps of one another after a wrong entry {at}', A, [2, 0, 2, 0, 1], wrong, FIVE, (at, at, 5))
    case(f'steps of one another after a state too high at {at}', A, [2, 0, 2, 0, 1], FIVE, FIVE[:at] + [(FIVE[at][0], 32 + FIVE[at][1])] + FIVE[at + 1:],
         (at, 5, at))

# walkers that are not single
FORKS = Walker(3, 3, 1, 0, 4, ((2, 0, 0, LEFT, 1), (2, 0, 0, RIGHT, 1), (2, 0, 0, RIGHT, 2), (2, 0, 0, STAY, 1), (2, 0, 0, STAY, 2), (2, 0, 3, STAY, 0),
                            (0, 1, 1, UP, 0), (0, 1, 1, UP, 1), (1, 1, 2, UP, 0), (1, 2, 2, UP, 2)))
WAYS = {'left': (1, 1), 'right': (2, 1), 'right, state 2': (2, 2), 'stay': (0, 1), 'stay, state 2': (0, 2), 'place 3': (0, 0), 'left, state 2': (1, 2)}
for (one, first), (other, second) in itertools.product(WAYS.items(), repeat=2):
    case(f'a fork: {one} and {other}', FORKS, THREE, [(0, 0), first], [(0, 0), second], (1 + (first == second), 2 - (first == (1, 2)), 2 - (second == (1, 2))))
case('two forks', FORKS, THREE, [(0, 0), (1, 1), (0, 0), (2, 2), (0, 2)], [(0, 0), (1, 1), (0, 1), (2, 2), (0, 2)], (2, 5, 3))
case('two forks, and the first again', FORKS, THREE, [(0, 0), (2, 1), (0, 0), (1, 1), (0, 1)], [(0, 0), (2, 1), (0, 0), (0, 0), (1, 1)], (3, 5, 5))
for name, rules in {'equal rules': RULES * 2, 'place 3 and its copies': ((2, 0, 3, 3, 0),) + RULES, '512 rules': RULES * 128, 'turned round': RULES[::-1],
                    'a second next state': RULES + ((2, 0, 0, 3, 1),), 'the last of 512': ((1, 1, 3, 0, 1),) * 508 + RULES}.items():
    case(name, A._replace(rules=rules), THREE, WALK, [(0, 0), (2, 1)], (1, 3, 2 if name == 'a second next state' else 1))
case('no rules', A._replace(rules=()), THREE, WALK, WALK, (3, 1, 1))

# 23: every two lengths, with bytes that agree, and with a log that is none
for one, other in itertools.product(range(13), repeat=2):
    bad = 0 if one % 3 else 1 if other % 3 else None
    log = log_of(WALK + WALK)
    case(f'{one} and {other} bytes', A, THREE, log[:one], log[:other], bad if bad is not None else (min(one, other) // 3, min(one // 3, 3), min(other // 3, 3)))
    if bad is not None and one < 7 and other < 7: case(f'{one} and {other} bytes, no walk', A, THREE, b'\xff' * one, b'\xfe' * other, bad)
LONG_LOG = log_of(FAR_DOWN)
for name, log in ('1 more', LONG_LOG + b'\0'), ('2 more', LONG_LOG + b'\0\0'), ('1 fewer', LONG_LOG[:-1]), ('2 fewer', LONG_LOG[:-2]):
    case(f'the first log, {name}', DOWN, BIG, log, LONG_LOG, 0)
    case(f'the second log, {name}', DOWN, BIG, LONG_LOG, log, 1)
    case(f'both logs, {name}', DOWN, BIG, log, log, 0)
    case(f'the first log, {name}, the second empty', DOWN, BIG, log, b'', 0)
    case(f'the second log, {name}, the first empty', DOWN, BIG, b'', log, 1)
case('one more and one fewer', DOWN, BIG, LONG_LOG + b'\0', LONG_LOG[:-1], 0)

# the high byte of a node
for size in (251, 253, 255, 509, 1021, 2045, 3997, 4091):
    letter, node = [2] + wide(size) + [2, 0, 1], size + 1
    walker = Walker(2, 3, 1, 0, 4, ((2, 0, 3, RIGHT, 0), (2, 0, 3, LEFT, 0), (0, 0, 1, UP, 1), (1, 0, 2, UP, 1), (2, 1, 2, UP, 1)))
    walk = [(0, 0), (node, 0), (node + 1, 0), (node, 1), (0, 1)]
    case(f'nodes {node} to {node + 2}', walker, letter, walk, [(0, 0), (node, 0), (node + 2, 0), (node, 1), (0, 1)], (2, 5, 5))
    for name, other in ('low byte', node ^ 255), ('high byte', node ^ 256), ('bytes exchanged', node >> 8 | (node & 255) << 8), ('low byte only', node & 255):
        case(f'node {node}, {name}', walker, letter, walk, [(0, 0), (other, 0)] + walk[2:], None if other in (1, node) else (1, 5, 1))
FAR = [2] + wide(4093) + [1]
case('a right part far from the root', A, FAR, [(0, 0), (4094, 0), (0, 1)], [(0, 0), (4094, 0), (256, 1)], (2, 3, 2))
case('64 down the left', STEPPING, left_comb(64), [(node, 0) for node in range(65)], [(node, 0) for node in range(66)], (65, 65, 65))
case('64 down the right', STEPPING, right_comb(64), [(2 * node, 0) for node in range(65)], [(2 * node, 0) for node in range(66)], (65, 65, 65))

# symbols up to 31
for symbol in (0, 1, 7, 8, 15, 16, 30, 31):
    walker = Walker(2, 32, 1, 2, 0, ((symbol, 0, 0, STAY, 1),))
    case(f'a rule for symbol {symbol}', walker, [symbol], [(0, 0), (0, 1)], [(0, 0), (0, 0)], (1, 2, 1))
    case(f'a rule for symbol {symbol}, at {symbol ^ 1}', walker, [symbol ^ 1], [(0, 0), (0, 1)], [(0, 0), (0, 0)], (1, 1, 1))
for symbol in (3, 24, 31):
    walker = Walker(2, 32, 1, 2, 1 << symbol, ((symbol, 0, 0, RIGHT, 1), (symbol ^ 1, 1, 2, UP, 1)))
    case(f'branch symbol {symbol}', walker, [symbol, symbol ^ 2, symbol ^ 1], [(0, 0), (2, 1), (0, 1)], [(0, 0), (1, 1)], (1, 3, 1))

# logs longer than any budget; and of more bytes, and more entries, than two bytes count
DOWN_UP = Walker(1, 3, 1, 0, 4, ((2, 0, 0, LEFT, 0), (0, 0, 1, UP, 0)))
LONG = [(0, 0), (1, 0)] * 32769
case('65537 entries, twice', DOWN_UP, THREE, LONG[:65537], LONG[:65537], (65537,) * 3)
case('65537 entries, one byte less', DOWN_UP, THREE, log_of(LONG[:65537]), log_of(LONG[:65537])[:-1], 1)
for one, other in itertools.product((65537, 65536, 65535, 21846, 21845, 20002, 20001, 20000), (65537, 20001, 1)):
    case(f'{one} entries and {other}', DOWN_UP, THREE, LONG[:one], LONG[:other], (min(one, other), one, other))
case('20002 entries, not of this letter', DOWN_UP, [0], LONG[:20002], LONG[:1], (1, 1, 1))
case('21846 entries, the last differs', DOWN_UP, THREE, LONG[:21846], LONG[:21845] + [(2, 0)], (21845, 21846, 21845))

# the order of the checks: each of them fails or not
FAULTS = ('walker', 'letter', 'first log', 'second log')
for wrong in itertools.product((False, True), repeat=4):
    kinds = {'kind': 84} if wrong[0] else {}, {'kind': 87} if wrong[1] else {}
    first, second = (log_of(WALK)[:8 if bad else 9] for bad in wrong[2:])
    title = 'wrong: ' + (', '.join(name for name, so in zip(FAULTS, wrong) if so) or 'nothing')
    told = (refusal(3, 0, 0), refusal(3, 0, 1), refusal(23, 0), refusal(23, 1), numbers(log_of(WALK), 3, 3))[(*wrong, True).index(True)]
    add(title, walker_file(*A, **kinds[0]), letter_file(THREE, **kinds[1]), first, second, told)

# document 01's table
LOGS = {'': (log_of(WALK), log_of(WALK)), ', no logs': (b'', b''), ', a bad first log': (log_of(WALK)[:-1], log_of(WALK)),
        ', a bad second log': (log_of(WALK), log_of(WALK) + b'\0'), ', bad logs': (b'\0', b'\0\0')}
for fault, file, number, at in WALKERS:
    for more, logs in LOGS.items(): add(f'the walker, {fault}{more}', file, blocks(LETTER), *logs, refusal(number, at, 0))
    add(f'the walker, {fault}, everything else wrong', file, b'', b'\0', b'\0\0', refusal(number, at, 0))
for fault, file, number, at in LETTERS:
    for more, logs in LOGS.items(): add(f'the letter, {fault}{more}', blocks(GOOD), file, *logs, refusal(number, at, 1))


# by chance
def rules_by_chance(states, symbols, branches, count):
    """Any rules that document 01 does not refuse."""
    rules = []
    while len(rules) < count:
        rule = (random.randrange(symbols), random.randrange(states), random.randrange(4), random.randrange(4), random.randrange(states))
        if not (rule[3] == UP and rule[2] in (0, 3) or rule[3] > UP and not branches >> rule[0] & 1): rules.append(rule)
    return tuple(rules)


def by_chance():
    """A walker and a letter."""
    states, symbols = random.choice((1, 2, 3, 4, 5, 6, 24)), random.randint(2, 5)
    branches = random.randrange(1, 2 ** symbols - 1)
    inner, leaves = ([symbol for symbol in range(symbols) if branches >> symbol & 1 == is_branch] for is_branch in (1, 0))
    rules = rules_by_chance(states, symbols, branches, random.choice((5, 20, 60)))
    return Walker(states, symbols, random.randrange(2 ** states), random.randrange(2 ** states), branches, rules), \
        letter_by_chance(leaves, inner, random.choice((0, 1, 2, 3, 4, 5, 7, 10, 20)))


def walk_by_chance(walker, steps, most):
    """A lawful walk of at most so many entries; none where there is no start state."""
    log, allowed = [], {(0, state) for state in range(walker.states) if walker.start >> state & 1}
    while allowed and len(log) < most:
        log.append(random.choice(sorted(allowed)))
        allowed = steps(*log[-1])
    return log


def other_log(log):
    """The log with a fault, or none."""
    at, kind = random.randrange(len(log) + 1), random.randrange(8)
    entry = log[at - 1] if log else (0, 0)
    if kind == 0: return log
    if kind == 1: return log[:at]
    if kind == 2: return log[:at] + log[at + 1:]
    if kind == 3: return log[:at] + [entry] + log[at:]
    if kind == 4: return log[:at] + [(random.randrange(8), random.randrange(4))] + log[at:]
    if kind == 5: return log[:at] + [(entry[0], (entry[1] + 1) % 256)] + log[at + 1:]
    if kind == 6: return log[:at] + [((entry[0] + random.choice((1, 256))) % 65536, entry[1])] + log[at + 1:]
    return [(random.randrange(65536), random.randrange(256)) for _ in range(at)]


for number in range(400):
    while True:
        walker, letter = by_chance()
        steps = Steps(walker, letter)
        logs = [walk_by_chance(walker, steps, random.choice((3, 10, 40))) for _ in range(2)]
        # most of the walks that are kept make several steps
        if len(logs[0]) >= random.choice((0, 2, 3, 4, 6)): break
    if number % 2: logs[1] = other_log(logs[0])
    if number % 4 > 1: logs = [other_log(log) for log in logs[::-1]]
    case(f'by chance, {number}', walker, letter, *logs)

seen = {number: sum(f' refused={number} ' in told for *_, told in cases) for number in (*range(1, 13), 23)}
answered = [[int(word.split('=')[1]) for word in told.split()] for *_, told in cases if 'refused' not in told]
classes = Counter()
for (part, _, one, other), (*_, first, second, told) in zip(answered, (case for case in cases if 'refused' not in case[-1])):
    classes['equal'] += first == second
    classes['beginning'] += first != second and part == min(len(first), len(second))
    classes['parting'] += part < min(len(first), len(second))
    classes['lawful to the end'] += one == len(first) // 3 > 0
    classes['lawful past the part'] += min(one, other) > part // 3
    classes['alike past the walk'] += part // 3 > max(one, other)
assert all(n >= 2 for n in seen.values()) and len(classes) == 6 and all(n >= 50 for n in classes.values()), (seen, classes)
with open(os.path.join(HERE, 'stdin'), 'wb') as f:
    read = [b''] * 4
    for label, *given, told in cases:
        kept = [before.startswith(data) for data, before in zip(given, read)]
        f.write(struct.pack('<B4I', len(label), *(len(data) + KEPT * same for data, same in zip(given, kept))) + label.encode())
        f.write(b''.join(data for data, same in zip(given, kept) if not same))
        read = [data + before[len(data):] for data, before in zip(given, read)]
with open(os.path.join(HERE, 'stdout'), 'w') as f:
    for label, *_, told in cases: f.write(f'{label}:{told}\n')
print(len(cases), 'cases;', ', '.join('%s %d' % kv for kv in classes.items()), end='; ')
print('refusals by number:', ' '.join('%d:%d' % kv for kv in seen.items()))
