#!/usr/bin/env python3
"""Writes stdin and stdout of crates/growth_cases, or of another folder (tools/make_growth_cases.py [FOLDER]): walker files and letter files, and what
judging tells of each: the answer of document 01, and the sum of growths of document 02 (W9).

The reading below is written from documents 01 and 02 and shares nothing with the engine. Where a case states its answer or its growths, the reading is
held to them. Every closed table is held to the runs inside its subtree, too. Every file that is refused by document 01's table states its refusal."""
import functools, itertools, os, random, struct, sys
from collections import Counter, defaultdict
from files import blocks, letter_file, walker_file
from told import no
from walkers import (A, GOOD, LEFT, LETTER, LETTERS, RIGHT, RULES, STAY, UP, WALKERS, Walker, leaf_walker, left_comb, letter_by_chance, parts, right_comb, wide)

random.seed(9)
HERE = sys.argv[1] if len(sys.argv) > 1 else os.path.join(os.path.dirname(os.path.abspath(__file__)), '..', 'crates', 'growth_cases')
ALL = 3


# ---- W9, read independently

def chained(states, given):
    """Every (p, p) and every chain of the given pairs, by walking them from each state."""
    after, closed = defaultdict(set), set()
    for state, to in given: after[state].add(to)
    for first in range(states):
        reached, waiting = {first}, [first]
        while waiting:
            new = after[waiting.pop()] - reached
            reached |= new
            waiting += new
        closed |= {(first, last) for last in reached}
    return closed


def subtree(branches, letter, node):
    """The nodes of the subtree at a node."""
    end, missing = node, 1
    while missing:
        missing += 1 if branches >> letter[end] & 1 else -1
        end += 1
    return letter[node:end]


class Reading:
    """A walker's rules by symbol, state and place."""

    def __init__(self, walker):
        self.walker, self.rules_at = walker, defaultdict(set)
        for symbol, state, place, move, to in walker.rules:
            for at in (0, 1, 2) if place == ALL else (place,): self.rules_at[symbol, state, at].add((move, to))

    @functools.cache
    def runs(self, letter, place):
        """For a subtree at a place: from which state at its root a run inside leads to which one there, and its crossings."""
        left, right, above, places = parts(self.walker.branches, letter)
        places[0] = place
        loops, crossings = set(), set()
        for first in range(self.walker.states):
            reached, waiting = {(0, first)}, [(0, first)]
            while waiting:
                node, state = waiting.pop()
                for move, to in self.rules_at[letter[node], state, places[node]]:
                    if node == 0 and move == UP:
                        crossings.add((first, to))
                        continue
                    after = (node, above[node], left[node], right[node])[move], to
                    if after not in reached: waiting.append(after)
                    reached.add(after)
            loops |= {(first, state) for node, state in reached if node == 0}
        return loops, crossings

    @functools.cache
    def growth(self, letter, place):
        """How many pairs closing adds at the root of a subtree at a place."""
        states, branches = self.walker.states, self.walker.branches
        crossings = {}
        if branches >> letter[0] & 1:
            left = subtree(branches, letter, 1)
            right = subtree(branches, letter, 1 + len(left))
            crossings = {LEFT: self.runs(left, 1)[1], RIGHT: self.runs(right, 2)[1]}
        given = set()
        for state in range(states):
            for move, to in self.rules_at[letter[0], state, place]:
                if move == STAY: given.add((state, to))
                if move in crossings: given |= {(state, last) for first, last in crossings[move] if first == to}
        closed = chained(states, given)
        assert closed == self.runs(letter, place)[0]
        return len(closed - given)

    def growths(self, letter):
        """The growth at each node, at its own place in the letter."""
        places = parts(self.walker.branches, letter)[3]
        each = [self.growth(subtree(self.walker.branches, letter, node), place) for node, place in enumerate(places)]
        assert sum(each) <= 576 * len(letter)
        return each

    def accepted(self, letter):
        walker = self.walker
        return any(walker.start >> state & 1 and walker.final >> to & 1 for state, to in self.runs(letter, 0)[0])


# ---- the cases

cases, labels = [], set()


def add(label, automaton, tree, told):
    assert 0 < len(label) < 256 and label not in labels, label
    labels.add(label)
    cases.append((label, automaton, tree, told))


def case(label, walker, letter, answer=None, growth=None):
    """`growth` is the sum, or a list of the growths at the nodes."""
    reading, letter = Reading(walker), tuple(letter)
    each = reading.growths(letter)
    told = f" {'accepted' if reading.accepted(letter) else 'other'} growth={sum(each)}"
    assert not isinstance(growth, list) or growth == each, (label, each)
    total = sum(growth) if isinstance(growth, list) else growth
    assert answer in (None, told.split()[0]) and (total is None or told.endswith(f' growth={total}')), (label, told)
    add(label, walker_file(*walker), letter_file(letter), told)


def refused(label, automaton, tree, number, place, file): add(label, automaton, tree, no(number, place, file) + ' growth=0')
def tree_walker(states, rules, start=1, final=0): return Walker(states, 3, start, final, 4, tuple(rules))
def stays(symbol, place, pairs): return tuple((symbol, state, place, STAY, to) for state, to in pairs)
def same(count): return [(state, state) for state in range(count)]
def chain(count): return [(state, state + 1) for state in range(count - 1)]
def ring(count): return [(state, (state + 1) % count) for state in range(count)]


SEVEN = [2, 2, 0, 1, 2, 1, 0]
PAIRS = list(itertools.product(range(24), repeat=2))

# document 01's walker, and its letters
case('A on 2 0 1', A, [2, 0, 1], 'accepted', [2, 2, 2])
case('A on 2 1 0', A, [2, 1, 0], 'other', [2, 2, 2])
case('A on 1', A, [1], 'other', 2)
case('A+ on 1', A._replace(rules=RULES + ((1, 0, 0, 0, 1),)), [1], 'accepted', 2)
case('A on 2 0 2 0 1', A, [2, 0, 2, 0, 1], 'accepted', 10)
case('A on 2 2 0 1 0', A, [2, 2, 0, 1, 0], 'other', 10)
case('A on 2 2 0 1 1', A, [2, 2, 0, 1, 1], 'accepted', 10)
case('A, a third state', A._replace(states=3), [2, 0, 1], 'accepted', [3, 3, 3])
case('A, a third state, then on from 1', A._replace(states=3, rules=RULES + ((2, 1, 0, STAY, 2),)), [2, 0, 1], 'accepted', [4, 3, 3])
case('A, a third state, then on from 1, not come to', A._replace(states=3, rules=RULES + ((2, 1, 0, STAY, 2),)), [2, 1, 0], 'other', [3, 3, 3])

# nothing given: every (p, p) is new
for states in range(1, 25):
    case(f'{states} states, a leaf', leaf_walker(states, []), [0], 'other', states)
    if states in (1, 2, 23, 24):
        case(f'{states} states, a leaf, accepted', leaf_walker(states, [], final=1), [0], 'accepted', states)
        case(f'{states} states, three nodes', tree_walker(states, []), [2, 0, 1], 'other', [states] * 3)
        case(f'{states} states, seven nodes', tree_walker(states, [], final=1), SEVEN, 'accepted', [states] * 7)

# stay pairs at one leaf
for states in 1, 2, 23, 24:
    last = states - 1
    case(f'{states} states, the pair of 0 and 0', leaf_walker(states, [(0, 0)]), [0], 'other', states - 1)
    case(f'{states} states, the pair of the last and itself', leaf_walker(states, [(last, last)]), [0], 'other', states - 1)
    if states > 1:
        case(f'{states} states, the pair of 0 and the last', leaf_walker(states, [(0, last)], final=1 << last), [0], 'accepted', states)
        case(f'{states} states, the pair of the last and 0', leaf_walker(states, [(last, 0)], final=1 << last), [0], 'other', states)
        case(f'{states} states, both pairs', leaf_walker(states, [(0, last), (last, 0)]), [0], 'other', states)
        case(f'{states} states, all four pairs', leaf_walker(states, itertools.product((0, last), repeat=2)), [0], 'other', states - 2)
for count in range(25): case(f'24 states, {count} of the pairs of p and p', leaf_walker(24, same(count)), [0], 'other', 24 - count)
for count in range(1, 25):
    longer = count * (count - 1) // 2 - (count - 1)
    case(f'24 states, a chain of {count}', leaf_walker(24, chain(count), final=1 << count - 1), [0], 'accepted', 24 + longer)
    case(f'24 states, a ring of {count}', leaf_walker(24, ring(count)), [0], 'other', 24 - count + count * count - count)
    case(f'{count} states, a chain of all', leaf_walker(count, chain(count)), [0], None, count + longer)
    case(f'{count} states, a ring of all', leaf_walker(count, ring(count)), [0], None, count * count - count)
DOWNWARD = [(to, state) for state, to in chain(24)]
case('24 states, a chain downward', leaf_walker(24, DOWNWARD, final=1 << 23), [0], 'other', 277)
case('24 states, a chain and back', leaf_walker(24, chain(24) + DOWNWARD, final=1 << 23), [0], 'accepted', 530)
case('24 states, a chain with every pair of p and p', leaf_walker(24, chain(24) + same(24)), [0], 'other', 253)
case('24 states, a chain that is closed but for (p, p)', leaf_walker(24, [(p, q) for p, q in PAIRS if p < q]), [0], 'other', 24)
case('24 states, a chain that is closed', leaf_walker(24, [(p, q) for p, q in PAIRS if p <= q]), [0], 'other', 0)
case('24 states, a star out of 0', leaf_walker(24, [(0, q) for q in range(1, 24)]), [0], 'other', 24)
case('24 states, a star into 0', leaf_walker(24, [(p, 0) for p in range(1, 24)]), [0], 'other', 24)
case('24 states, a star through 0', leaf_walker(24, [(p, q) for p, q in PAIRS if (p == 0) != (q == 0)]), [0], 'other', 530)
case('24 states, two rings of 12', leaf_walker(24, ring(12) + [(p + 12, q + 12) for p, q in ring(12)]), [0], 'other', 264)
case('24 states, two rings of 12 and a pair between', leaf_walker(24, ring(12) + [(p + 12, q + 12) for p, q in ring(12)] + [(0, 12)]), [0], 'other', 407)
MORE = ring(24) + [pair for pair in PAIRS if pair not in ring(24)]
for count in 24, 25, 26, 48, 96, 97, 98, 300, 511, 512:
    case(f'{count} of 576 pairs, a ring among them', leaf_walker(24, MORE[:count]), [0], 'other', 576 - count)
case('512 pairs, 22 states lead to all', leaf_walker(24, PAIRS[:512]), [0], 'other', 18)

# pairs through the parts: rows of the root's table are full, where it goes left into 0 and the leaf comes up in every state
UPS = tuple((0, 0, 1, UP, to) for to in range(24))
for count in range(25):
    case(f'{24 * count} of 576 pairs through the left part', tree_walker(24, UPS + tuple((2, state, 0, LEFT, 0) for state in range(count))),
         [2, 0, 1], 'other', [24 - count, 24, 24])
for lacking in 0, 7, 22, 23:
    rules = UPS + tuple((2, state, 0, LEFT, 0) for state in range(23)) + ((2, 23, 0, RIGHT, 0),)
    rules += tuple((1, 0, 2, UP, to) for to in range(24) if to != lacking)
    case(f'575 of 576 pairs, that of 23 and {lacking} lacking', tree_walker(24, rules), [2, 0, 1], 'other', [1, 24, 24])
TURNS = [(2, state, 0, RIGHT if state % 2 else LEFT, state) for state in range(24)]
TURNS += [(state % 2, state, 1 + state % 2, UP, (state + 1) % 24) for state in range(24)]
case('a ring of 24 through both parts', tree_walker(24, TURNS), [2, 0, 1], 'other', [552, 24, 24])
case('a ring of 24 through both parts, these exchanged', tree_walker(24, TURNS), [2, 1, 0], 'other', [24, 24, 24])
case('a ring of 24 through the left part only', tree_walker(24, TURNS), [2, 0, 0], 'other', [24, 24, 24])
THREE = ((2, 0, 0, LEFT, 0), (0, 0, 1, UP, 1), (2, 1, 0, RIGHT, 1), (1, 1, 2, UP, 2), (2, 2, 0, STAY, 0))
case('left, right and stay', tree_walker(3, THREE), [2, 0, 1], 'other', [6, 3, 3])
case('left, right and stay, the parts exchanged', tree_walker(3, THREE), [2, 1, 0], 'other', [3, 3, 3])
case('left, right and stay, no left leaf', tree_walker(3, THREE), [2, 1, 1], 'other', [4, 3, 3])
case('left, right and stay, no right leaf', tree_walker(3, THREE), [2, 0, 0], 'other', [4, 3, 3])
case('up rules are no pairs', tree_walker(24, [(0, p, 1, UP, q) for p, q in ring(24)]), [2, 0, 1], 'other', [24, 24, 24])
case('a crossing of no steps but the up rule', tree_walker(2, [(2, 0, 0, LEFT, 1), (0, 1, 1, UP, 0)]), [2, 0, 1], 'other', [1, 2, 2])
case('a crossing through a chain', tree_walker(24, stays(0, 1, chain(24)) + ((0, 23, 1, UP, 0), (2, 0, 0, LEFT, 0))), [2, 0, 1], 'other', [23, 277, 24])
case('a way down with no way up', tree_walker(24, stays(0, 1, chain(24)) + ((2, 0, 0, LEFT, 0),)), [2, 0, 1], 'other', [24, 277, 24])
case('a part that nothing leads into', tree_walker(24, stays(0, 1, ring(24))), [2, 0, 1], 'other', [24, 552, 24])
case('parts below a part that nothing leads into', tree_walker(24, stays(0, 1, ring(24)) + stays(1, 2, chain(24))), SEVEN, 'other',
     [24, 24, 552, 277, 24, 24, 24])
BOTTOM = tuple((2, 0, at, RIGHT, 0) for at in (0, 2)) + ((1, 0, 2, UP, 1), (2, 1, 2, UP, 1)) + stays(2, 0, [(1, 2)]) + stays(2, 2, [(1, 2)])
for height in 1, 2, 3, 63, 64:
    comb = right_comb(height)
    case(f'{height} branches, the last leaf answers', tree_walker(3, BOTTOM, final=4), comb[:-1] + [1], 'accepted', [4, 3] * height + [3])
    case(f'{height} branches, the last leaf does not answer', tree_walker(3, BOTTOM, final=4), comb, 'other', [3, 3] * height + [3])

# a pair that comes twice is one: by a stay, through the left part, through the right part
for (state, to), states in itertools.product(((0, 1), (1, 0), (0, 0), (1, 1)), (2, 24)):
    ways = (((2, state, 0, STAY, to),), ((2, state, 0, LEFT, 0), (0, 0, 1, UP, to)), ((2, state, 0, RIGHT, 1), (1, 1, 2, UP, to)))
    for used in itertools.product((False, True), repeat=3):
        rules = [rule for way, so in zip(ways, used) if so for rule in way]
        title = f'{states} states, {state} to {to}: ' + (', '.join(name for name, so in zip(('stay', 'left', 'right'), used) if so) or 'no way')
        root = states - (state == to and any(used))
        case(title, tree_walker(states, rules, start=1 << state, final=1 << to), [2, 0, 1], None, [root, states, states])
TWICE = ((2, 0, 0, LEFT, 0), (2, 0, 0, LEFT, 1), (0, 0, 1, UP, 2), (0, 1, 1, UP, 2))
case('a pair through two states below', tree_walker(3, TWICE), [2, 0, 1], 'other', [3, 3, 3])
case('a pair through two states below, then on', tree_walker(3, TWICE + ((2, 2, 0, STAY, 1),)), [2, 0, 1], 'other', [4, 3, 3])

# each node at its own place: at root, left and right, so many pairs of p and p are given
PLACES = {(0,): (0,), (2, 0, 1): (0, 1, 2), (2, 1, 0): (0, 1, 2), (2, 0, 0): (0, 1, 2), (2, 2, 0, 1, 1): (0, 1, 1, 2, 2), (2, 1, 2, 0, 1): (0, 1, 2, 1, 2),
          (2, 2, 1, 0, 2, 0, 0): (0, 1, 1, 2, 2, 1, 2)}
for leaf, branch in zip(itertools.permutations((1, 2, 4)), itertools.permutations((5, 10, 20))):
    counts = leaf, (0, 0, 0), branch
    walker = tree_walker(24, [rule for symbol, at in itertools.product((0, 2), range(3)) for rule in stays(symbol, at, same(counts[symbol][at]))])
    for letter, places in PLACES.items():
        title = f"leaf {' '.join(map(str, leaf))}, branch {' '.join(map(str, branch))}, on {' '.join(map(str, letter))}"
        case(title, walker, letter, 'other', [24 - counts[symbol][at] for symbol, at in zip(letter, places)])
NAMES = 'root', 'left part', 'right part'
for at, name in enumerate(NAMES):
    walker = tree_walker(24, stays(0, at, ring(24)) + stays(2, at, chain(24)))
    case(f'rules at {name} only, one leaf', walker, [0], 'other', 24 if at else 552)
    case(f'rules at {name} only, three nodes', walker, [2, 0, 0], 'other', [277 if at == 0 else 24, 552 if at == 1 else 24, 552 if at == 2 else 24])
    case(f'rules at {name} only, five nodes', walker, [2, 1, 2, 1, 1], 'other', [277 if at == 0 else 24, 24, 277 if at == 2 else 24, 24, 24])
    case(f'rules at {name} only, five nodes exchanged', walker, [2, 2, 1, 1, 1], 'other', [277 if at == 0 else 24, 277 if at == 1 else 24, 24, 24, 24])
for given, move, up in itertools.product(range(3), (LEFT, RIGHT), (1, 2)):
    walker = tree_walker(2, [(2, 0, given, move, 0), (0, 0, up, UP, 0)])
    root, left, right = (2 - (at == given and up == move - 1) for at in range(3))
    title = f"{NAMES[given]} goes {'left' if move == LEFT else 'right'}, the leaf comes up at the {NAMES[up]}"
    case(f'{title}, three nodes', walker, [2, 0, 0], 'other', [root, 2, 2])
    case(f'{title}, seven nodes', walker, [2, 2, 0, 0, 2, 0, 0], 'other', [2, left, 2, 2, right, 2, 2])
BOTH = ((2, 0, 0, LEFT, 0), (2, 0, 0, RIGHT, 0), (0, 0, 1, UP, 0))
case('a leaf that comes up at the left only, there', tree_walker(2, BOTH), [2, 0, 1], 'other', [1, 2, 2])
case('a leaf that comes up at the left only, at the right', tree_walker(2, BOTH), [2, 1, 0], 'other', [2, 2, 2])
case('a leaf that comes up at the left only, the root going right', tree_walker(2, BOTH[1:]), [2, 0, 0], 'other', [2, 2, 2])
OTHER = ((2, 0, 0, LEFT, 0), (2, 1, 0, RIGHT, 1), (0, 0, 1, UP, 0), (0, 1, 2, UP, 1))
for letter, root in ([2, 0, 1], 1), ([2, 1, 0], 1), ([2, 0, 0], 0), ([2, 1, 1], 2):
    case(f"other rules at each side, on {' '.join(map(str, letter))}", tree_walker(2, OTHER), letter, 'other', [root, 2, 2])

# final and start states add nothing
for start, final in itertools.product((0, 1, 2, 2 ** 24 - 1), (0, 1, 1 << 23, 2 ** 24 - 1)):
    sets = f'start {start}, final {final}'
    case(f'a leaf, no rule, {sets}', leaf_walker(24, [], start, final), [0], 'accepted' if start & final else 'other', 24)
    case(f'a leaf, a chain, {sets}', leaf_walker(24, chain(24), start, final), [0], 'accepted' if start & final or start and final >= 1 << 23 else 'other', 277)
    case(f'three nodes, a ring, {sets}', tree_walker(24, TURNS, start, final), [2, 0, 1], 'accepted' if start and final else 'other', 600)

# repeated records
REPEATED = ((0, 0, 0, STAY, 1), (0, 1, 0, STAY, 2), (0, 2, 0, STAY, 2))
for count in 1, 2, 3, 33, 170:
    case(f'three records {count} times', Walker(3, 1, 1, 4, 0, REPEATED * count), [0], 'accepted', 3)
case('one record 512 times', leaf_walker(24, [(0, 0)] * 512), [0], 'other', 23)
case('another record 512 times', leaf_walker(24, [(0, 1)] * 512, final=2), [0], 'accepted', 24)
case('a ring through both parts, each record ten times', tree_walker(24, TURNS * 10), [2, 0, 1], 'other', [552, 24, 24])
case('a pair of p and p through the left part, each record twice', tree_walker(2, BOTH * 2), [2, 0, 1], 'other', [1, 2, 2])

# counts of symbols, records and nodes
for symbol in 0, 1, 30, 31:
    rules = stays(symbol, 0, chain(24)) + ((symbol, 0, 2, UP, 0), (symbol ^ 3, 0, 0, RIGHT, 0))
    walker = Walker(24, 32, 1, 1 << 23, 1 << (symbol ^ 3), rules)
    case(f'32 symbols, leaf {symbol} as root', walker, [symbol], 'accepted', 277)
    case(f'32 symbols, leaf {symbol} as right part', walker, [symbol ^ 3, symbol ^ 1, symbol], 'other', [23, 24, 24])
    case(f'32 symbols, leaf {symbol} as left part', walker, [symbol ^ 3, symbol, symbol ^ 1], 'other', [24, 24, 24])
OTHERS = tuple((symbol, state, 2, STAY, state) for symbol in range(3, 32) for state in range(24))
for count in 97, 98, 199, 200, 512:
    case(f'{count} records', Walker(24, 32, 1, 2, 4, OTHERS[:count - 4] + RULES), [2, 0, 31], None, [24, 24, 24])
    case(f'{count} records, accepted', Walker(24, 32, 1, 2, 4, OTHERS[:count - 4] + RULES), [2, 0, 1], 'accepted', [24, 24, 24])
RINGS = tuple(rule for symbol in (0, 2) for at in range(3) for rule in stays(symbol, at, ring(24)))
# the leaf comes up, every branch goes left, and there is one state more behind
ANSWERED = [(0, 0, 1, UP, 1), (0, 0, 2, UP, 1)] + [(2, 0, at, LEFT, 0) for at in range(3)] + [(2, 1, at, UP, 1) for at in (1, 2)]
ANSWERED += [(2, 1, at, STAY, 2) for at in range(3)]
for count in 503, 505, 507, 4093, 4095:
    for states in 1, 24: case(f'{count} nodes, {states} states', tree_walker(states, []), wide(count), 'other', states * count)
    case(f'{count} nodes, a ring at each', tree_walker(24, RINGS, final=1 << 23), wide(count), 'accepted', 552 * count)
    case(f'{count} nodes, each branch asks', tree_walker(3, ANSWERED, final=4), wide(count), 'accepted', 3 * count + count // 2)
    case(f'{count} nodes, A', A, wide(count), 'other', 2 * count)
for states in 1, 24:
    refused(f'4,096 nodes, {states} states', walker_file(*tree_walker(states, [])), letter_file(wide(4095) + [0]), 11, 4095, 1)
    refused(f'4,097 nodes, {states} states', walker_file(*tree_walker(states, [])), letter_file(wide(4097)), 4, 2, 1)
UNLIKE = stays(0, 1, same(1)) + stays(0, 2, same(2)) + stays(2, 0, same(4)) + stays(2, 1, same(8)) + stays(2, 2, same(16))
for height in 1, 2, 3, 32, 63, 64:
    case(f'{height} down the left', tree_walker(24, UNLIKE), left_comb(height), 'other', [20] + [16] * (height - 1) + [23] + [22] * height)
    case(f'{height} down the right', tree_walker(24, UNLIKE), right_comb(height), 'other', [20, 23] + [8, 23] * (height - 1) + [22])
refused('65 down the left', walker_file(*tree_walker(24, UNLIKE)), letter_file(left_comb(65)), 12, 65, 1)
refused('65 down the right', walker_file(*tree_walker(24, UNLIKE)), letter_file(right_comb(65)), 12, 129, 1)

# records at place 3 are at each of the three
case('place 3, a leaf', Walker(24, 1, 1, 1 << 23, 0, stays(0, ALL, chain(24))), [0], 'accepted', 277)
case('place 3, a leaf at each side', tree_walker(24, stays(0, ALL, chain(24))), [2, 0, 0], 'other', [24, 277, 277])
case('place 3, a branch at each', tree_walker(24, stays(2, ALL, ring(24))), SEVEN, 'other', [552, 552, 24, 24, 552, 24, 24])
case('place 3, beside its copies', tree_walker(24, [rule for at in (ALL, 0, 1, 2) for rule in stays(0, at, same(5))]), [2, 0, 0], 'other', [24, 19, 19])
for move, up in itertools.product((LEFT, RIGHT), (1, 2)):
    walker = tree_walker(2, [(2, 0, ALL, move, 0), (0, 0, up, UP, 0)])
    branch = 2 - (up == move - 1)
    title = f"place 3 goes {'left' if move == LEFT else 'right'}, the leaf comes up at the {NAMES[up]}"
    case(f'{title}, three nodes', walker, [2, 0, 0], 'other', [branch, 2, 2])
    case(f'{title}, seven nodes', walker, [2, 2, 0, 0, 2, 0, 0], 'other', [2, branch, 2, 2, branch, 2, 2])
EVERY = tuple(rule for symbol in (0, 2) for rule in stays(symbol, ALL, ring(24)))
case('place 3, a ring at each of 4,095', tree_walker(24, EVERY), wide(4095), 'other', 552 * 4095)

# document 01's table: a refusal has no sum
GROWN = walker_file(*tree_walker(24, RINGS))
for fault, file, number, at in WALKERS:
    refused(f'the walker, {fault}', file, blocks(LETTER), number, at, 0)
    refused(f'the walker, {fault}, no letter', file, b'', number, at, 0)
for fault, file, number, at in LETTERS: refused(f'the letter, {fault}', blocks(GOOD), file, number, at, 1)
for fault, file, number, at in LETTERS: refused(f'the letter, {fault}, a ring at each node', GROWN, file, number, at, 1)
case('after the refusals', tree_walker(24, RINGS), [2, 0, 0], 'other', 552 * 3)


# by chance
def walker_by_chance(states, likely, most):
    """Symbols 0 and 1 are leaves, 2 and 3 branches."""
    rules = []
    for symbol, state, at in itertools.product(range(4), range(states), range(3)):
        for move in (STAY,) + (UP,) * (at > 0) + (LEFT, RIGHT) * (symbol > 1):
            rules += [(symbol, state, at, move, random.randrange(states)) for _ in range(2) if random.random() < likely / (1 + (move == STAY))]
    random.shuffle(rules)
    start, final = (1 << random.randrange(states) | random.choice((0, 0, random.randrange(2 ** states))) for _ in range(2))
    return Walker(states, 4, start, final, 12, tuple(rules[:most]))


def exchanged(letter):
    """The letter with the parts of each branch exchanged, of symbols as above."""
    if letter[0] < 2: return letter
    left = subtree(12, letter, 1)
    return letter[:1] + exchanged(letter[1 + len(left):]) + exchanged(left)


def both(label, walker, branches):
    letter = letter_by_chance([0, 1], [2, 3], branches)
    case(label, walker, letter)
    case(f'{label} exchanged', walker, exchanged(letter))


for number in range(75):
    walker = walker_by_chance(random.randint(1, 6), random.choice((0.1, 0.2, 0.3, 0.5)), 97)
    for which in 1, 2: both(f'by chance {number}, letter {which}', walker, random.choice((1, 2, 3, 4, 5, 7, 10)))
for number in range(12):
    walker = walker_by_chance(random.choice((8, 12, 16, 23, 24, 24)), random.choice((0.2, 0.3, 0.4)), 512)
    both(f'large by chance {number}, letter', walker, random.choice((10, 20, 40)))

seen = {number: sum(f' refused={number} ' in told for *_, told in cases) for number in range(1, 13)}
ends = {end: sum(f' {end} ' in told for *_, told in cases) for end in ('accepted', 'other')}
chance = Counter(told.split()[0] for label, *_, told in cases if label.startswith('by chance'))
assert all(n >= 2 for n in seen.values()) and all(n >= 100 for n in ends.values()) and min(chance.values()) >= 75, (seen, ends, chance)
with open(os.path.join(HERE, 'stdin'), 'wb') as f:
    before = [None, None]
    for label, automaton, tree, told in cases:
        kept = [file == other for file, other in zip((automaton, tree), before)]
        lengths = [len(file) + 32768 * so for file, so in zip((automaton, tree), kept)]
        f.write(struct.pack('<BHH', len(label), *lengths) + label.encode())
        f.write(b''.join(file for file, so in zip((automaton, tree), kept) if not so))
        before = [automaton, tree]
with open(os.path.join(HERE, 'stdout'), 'w') as f:
    for label, automaton, tree, told in cases: f.write(f'{label}:{told}\n')
print(len(cases), 'cases;', ', '.join('%s %d' % kv for kv in ends.items()), end='; ')
print('refusals by number:', ' '.join('%d:%d' % kv for kv in seen.items()))
