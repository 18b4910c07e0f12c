#!/usr/bin/env python3
"""Writes data/ and stdout of crates/report_cases, or of another folder (tools/make_reports.py [FOLDER]): pairs of a walker file and letters, and
the report that documents 01 and 02 ask for on each.

The expected lines are written down here from the documents and share nothing with the engine. Of the cases in LARGER they are computed: by
search over configurations, tree by tree, and the survey and the quick check word for word; where the construction of a walker or a batch
tells a line, the case states it and the computed line is held to it."""
import os, shutil, sys
from fractions import Fraction
from files import CONTENT, blocks, blocks_for, letter_file as letter, letter_payload, walker_file as walker

HERE = sys.argv[1] if len(sys.argv) > 1 else os.path.join(os.path.dirname(os.path.abspath(__file__)), '..', 'crates', 'report_cases')


def spoiled(file, at):
    """The file with one byte changed, and no check amended."""
    return file[:at] + bytes([file[at] ^ 1]) + file[at + 1:]


def filled(file, at):
    """A file of one block with a filler byte that is not zero, and the right check."""
    return blocks(file[:at] + b'\1' + file[at + 1:CONTENT])


A = [(2, 0, 0, 3, 0), (2, 0, 2, 3, 0), (1, 0, 2, 1, 1), (2, 1, 2, 1, 1)]
EXAMPLE = walker(2, 3, 1, 2, 4, A)
YES, NO = letter([2, 0, 1]), letter([2, 1, 0])
HEAD = ['walker states=2 symbols=3 rules=4 single=yes', 'quick unsure', 'survey found height=1 rows=3']


def right_comb(height):
    """2 0 2 0 .. 1: accepted, up to height 64."""
    return letter([2, 0] * height + [1])


def of_256_classes():
    """The board's run-only case: down states 0 to 3, back states 4 to 7, no start state. Symbol 0 is the leaf; 1 cycles, 2 swaps and
    3 merges the down states on the way to the left part. All at left places."""
    rules = [(0, p, 1, 1, 4 + p) for p in range(4)]
    for symbol, image in [(1, [1, 2, 3, 0]), (2, [1, 0, 2, 3]), (3, [0, 0, 2, 3])]:
        rules += [(symbol, p, 1, 2, image[p]) for p in range(4)]
    rules += [(symbol, 4 + p, 1, 1, 4 + p) for symbol in range(4) for p in range(4)]
    return walker(8, 4, 0, 1, 14, rules)


def first_height_over_64():
    """Of the run-only case: the least h with more than 64 classes of trees of height at most h. The class of a tree is the map of the
    down states along its left spine."""
    maps = {(0, 1, 2, 3)}
    height = 0
    while len(maps) <= 64:
        maps |= {tuple(f[p] for p in g) for f in maps for g in [(1, 2, 3, 0), (1, 0, 2, 3), (0, 0, 2, 3)]}
        height += 1
    return height


def documents(accepted, other, refused, percent):
    return f'documents accepted={accepted} other={other} refused={refused} percent={percent}'


CASES = [
    ('document 01', EXAMPLE, YES + NO, HEAD + [documents(1, 1, 0, 50)]),
    ('25 states', walker(25, 3, 0, 0, 0, []), YES, ['walker refused=4 place=1']),
    ('no walker', None, YES, ['walker refused=1 place=0']),
    ('a walker that is too long', blocks(b'W' + bytes(3556)), YES, ['walker refused=1 place=0']),
    ('a wrong check', spoiled(EXAMPLE, 30), YES, ['walker refused=2 place=0']),
    ('no letters', EXAMPLE, b'', HEAD + [documents(0, 0, 0, 0)]),
    ('a cut letter', EXAMPLE, YES + YES[:300], HEAD + [documents(1, 0, 1, 100)]),
    ('a letter cut after its first block', EXAMPLE, NO + right_comb(300)[:512], HEAD + [documents(0, 1, 1, 0)]),
    ('refusal 2 ends', EXAMPLE, YES + spoiled(YES, 5) + NO, HEAD + [documents(1, 0, 1, 100)]),
    ('refusal 2 in a later block ends', EXAMPLE, NO + spoiled(letter([2, 0] * 254 + [1]), 600) + YES, HEAD + [documents(0, 1, 1, 0)]),
    ('refusal 3 ends', EXAMPLE, YES + letter([1], kind=87) + YES, HEAD + [documents(1, 0, 1, 100)]),
    ('refusal 4 ends, no node', EXAMPLE, YES + letter([], count=0) + YES, HEAD + [documents(1, 0, 1, 100)]),
    ('refusal 4 ends, 4,097 nodes', EXAMPLE, YES + letter([], count=4097) + YES, HEAD + [documents(1, 0, 1, 100)]),
    ('refusal 6 goes on', EXAMPLE, filled(YES, 100) + YES, HEAD + [documents(1, 0, 1, 100)]),
    ('refusals 10 to 12 go on', EXAMPLE, letter([3]) + YES + letter([2, 0]) + right_comb(65) + NO + right_comb(64), HEAD + [documents(2, 1, 3, 67)]),
    ('12.5 percent', EXAMPLE, YES + 7 * NO, HEAD + [documents(1, 7, 0, 12)]),
    ('A+', walker(2, 3, 1, 2, 4, A + [(1, 0, 0, 0, 1)]), letter([1]), [
        'walker states=2 symbols=3 rules=5 single=yes', 'quick unsure', 'survey found height=0 rows=1', documents(1, 0, 0, 100)]),
    ('rules that meet', walker(2, 3, 1, 2, 4, A + [(1, 0, 3, 0, 0)]), YES, [
        'walker states=2 symbols=3 rules=5 single=no', 'quick unsure', 'survey found height=1 rows=3', documents(1, 0, 0, 100)]),
    ('board (i)', walker(1, 1, 1, 0, 0, []), letter([0]), [
        'walker states=1 symbols=1 rules=0 single=yes', 'quick clear', 'survey empty height=1 rows=0', documents(0, 1, 0, 0)]),
    ('board (j)', walker(1, 1, 1, 1, 1, []), letter([0]), [
        'walker states=1 symbols=1 rules=0 single=yes', 'quick unsure', 'survey empty height=0 rows=0', documents(0, 0, 1, 0)]),
    ('256 classes', of_256_classes(), b'', [
        'walker states=8 symbols=4 rules=32 single=yes', 'quick clear', f'survey open height={first_height_over_64()} rows=0', documents(0, 0, 0, 0)]),
]


# ---- runs, crossings, survey and quick check, by search

class Walker:
    def __init__(self, n, m, start, final, branch, rules):
        self.n, self.m, self.rules = n, m, rules
        self.start, self.final = [{p for p in range(n) if bits >> p & 1} for bits in (start, final)]
        self.branches = [a for a in range(m) if branch >> a & 1]
        self.leaves = [a for a in range(m) if not branch >> a & 1]
        self.steps = {}
        for symbol, state, place, move, following in rules:
            for p in (0, 1, 2) if place == 3 else (place,):
                self.steps.setdefault((symbol, p, state), []).append((move, following))
        self.file = walker(n, m, start, final, branch, rules)

    def is_single(self):
        """Document 02, W2: a rule met twice is one rule."""
        return all(len(set(steps)) == 1 for steps in self.steps.values())


class Tree:
    """A tree by its preorder list: for each node its parent, its parts and the place where it stands. `fault` is what lines 10 to 12 say."""

    def __init__(self, automaton, symbols):
        self.symbols = symbols
        self.parent, self.parts, self.place, depth = [], [[] for _ in symbols], [], []
        waiting, self.fault = [(None, 0, 0)], None
        for node, symbol in enumerate(symbols):
            if symbol >= automaton.m or not waiting:
                self.fault = 10 if max(symbols) >= automaton.m else 11
                return
            parent, place, deep = waiting.pop()
            self.parent.append(parent), self.place.append(place), depth.append(deep)
            if parent is not None:
                self.parts[parent].append(node)
            if symbol in automaton.branches:
                waiting += [(node, 2, deep + 1), (node, 1, deep + 1)]
        self.fault = 11 if waiting else 12 if max(depth) > 64 else None


def reached(automaton, tree, place, state):
    """The states at the root, and those in which the root is left upward, of all runs that begin at the root in a state and stay inside."""
    seen, front, out = {(0, state)}, [(0, state)], set()
    while front:
        node, state = front.pop()
        for move, following in automaton.steps.get((tree.symbols[node], tree.place[node] if node else place, state), []):
            if move == 1 and node == 0:
                out.add(following)
                continue
            to = [node, tree.parent[node]][move] if move < 2 else tree.parts[node][move - 2]
            if (to, following) not in seen:
                seen.add((to, following))
                front.append((to, following))
    return {state for node, state in seen if node == 0}, out


def accepts(automaton, tree):
    return any(reached(automaton, tree, 0, state)[0] & automaton.final for state in automaton.start)


def crossings(automaton, tree, place):
    return frozenset((p, q) for p in range(automaton.n) for q in reached(automaton, tree, place, p)[1])


def survey(automaton):
    """Document 01's rounds. A row is its tree's list."""
    rows, classes, height, known = [], set(), 0, {}
    while True:
        pairs = [(left, right) for left in range(len(rows)) for right in range(len(rows))]
        candidates = [(a, l, r) for a in automaton.branches for l, r in pairs] if height else [(a, None, None) for a in automaton.leaves]
        for symbol, left, right in candidates:
            if (symbol, left, right) not in known:
                tree = Tree(automaton, [symbol] + ([] if left is None else rows[left] + rows[right]))
                known[symbol, left, right] = tree.symbols, accepts(automaton, tree), tuple(crossings(automaton, tree, place) for place in (1, 2))
        if any(known[candidate][1] for candidate in candidates):
            return f'survey found height={height} rows={len(rows) + 1}'
        before = len(rows)
        for candidate in candidates:
            symbols, _, class_ = known[candidate]
            if class_ not in classes:
                classes.add(class_)
                rows.append(symbols)
        if len(rows) > 64:
            return f'survey open height={height} rows=0'
        if len(rows) == before:
            return f'survey empty height={height} rows=0'
        height += 1


def formed(automaton, symbol, place, left, right):
    """The pairs of states that a root of this symbol and place leads through, its parts having these crossings; and those out of it."""
    pairs = {(p, p) for p in range(automaton.n)}
    ups = set()
    for p in range(automaton.n):
        for move, q in automaton.steps.get((symbol, place, p), []):
            if move == 1:
                ups.add((p, q))
            else:
                pairs |= {(p, q)} if move == 0 else {(p, y) for x, y in (left if move == 2 else right) if x == q}
    while True:
        chains = pairs | {(p, s) for p, q in pairs for r, s in pairs if q == r}
        if chains == pairs:
            return pairs, {(p, s) for p, q in pairs for r, s in ups if q == r}
        pairs = chains


def quick(automaton):
    left, right, before = frozenset(), frozenset(), None
    while before != (left, right):
        before = left, right
        parts = [(a, frozenset(), frozenset()) for a in automaton.leaves] + [(a, left, right) for a in automaton.branches]
        left = left.union(*(formed(automaton, a, 1, l, r)[1] for a, l, r in parts))
        right = right.union(*(formed(automaton, a, 2, l, r)[1] for a, l, r in parts))
    roots = {(p, p) for p in range(automaton.n)}.union(*(formed(automaton, a, 0, l, r)[0] for a, l, r in parts))
    return 'quick unsure' if any(p in automaton.start and q in automaton.final for p, q in roots) else 'quick clear'


def verdict(automaton, symbols):
    """0 accepted, 1 other, 2 refused, of a letter's list."""
    tree = Tree(automaton, symbols)
    return 2 if tree.fault else 0 if accepts(automaton, tree) else 1


def computed(name, automaton, letters, states):
    """The case of a walker and letters, each a list of symbols or, where it is refused by line 6, the file itself. What the case states of the
    report is held to what is computed."""
    counts, known = [0, 0, 0], {}
    for symbols in letters:
        key = symbols if isinstance(symbols, bytes) else tuple(symbols)
        if key not in known:
            known[key] = 2 if isinstance(symbols, bytes) else verdict(automaton, symbols)
        counts[known[key]] += 1
    judged = counts[0] + counts[1]
    percent = round(Fraction(100 * counts[0], judged)) if judged else 0  # which takes a half to the even number
    head = f'walker states={automaton.n} symbols={automaton.m} rules={len(automaton.rules)} single={"yes" if automaton.is_single() else "no"}'
    expected = [head, quick(automaton), survey(automaton), documents(*counts, percent)]
    for line in states:
        assert line in expected, (name, line, expected)
    return name, automaton.file, b''.join(symbols if isinstance(symbols, bytes) else letter(symbols) for symbols in letters), expected


# ---- larger walkers and batches

THE_EXAMPLE = Walker(2, 3, 1, 2, 4, A)


def spine_of(length, final=12):
    """Accepts the trees whose left spine has this many branches, or this and some twelves more: states 0 to 11 count, 12 goes back up. With
    the final state 13, which no rule leads to, it accepts none."""
    rules = [(1, p, place, 2, (p + 1) % 12) for p in range(12) for place in (0, 1)]
    rules += [(0, length % 12, 1, 1, 12), (1, 12, 1, 1, 12)]
    return Walker(14, 2, 1, 1 << final, 2, rules)


def spines(*cycles):
    """Left spines are told apart by their lengths modulo those of the cycles; from 3, 4 and 7 there is one class more at each height. From the
    root the left part is asked twice: whether 3 divides the length of its spine (by 0, back in 14), and whether the length is 2 modulo 3 (by
    17, back in 19). No tree has both, and the quick check, which takes trees together, is unsure."""
    rules = []
    for first, length, back in [(0, 3, 14), (16, 3, 19), *cycles]:
        rules += [(0, first, 1, 1, back)] + [(1, first + i, 1, 2, first + (i + 1) % length) for i in range(length)]
    rules += [(1, 14, 1, 1, 14), (1, 19, 1, 1, 19), (1, 15, 0, 2, 0), (1, 14, 0, 2, 17)]
    return Walker(20, 2, 1 << 15, 1 << 19, 2, rules)


def pairs_of_leaves(count):
    """Leaf symbols 0 to 7, of which `count` are there, and a branch. A leaf entered in 0, 1 or 2 is left in 9 where its number has that bit;
    a branch entered in 3, 4 or 5 asks its left part for a bit, in 6, 7 or 8 its right part, and lets 9 go up. So all trees of height at most 1
    are unlike."""
    rules = [(leaf, bit, place, 1, 9) for leaf in range(count) for bit in range(3) if leaf >> bit & 1 for place in (1, 2)]
    for place in (1, 2):
        rules += [(count, 3 + bit, place, 2, bit) for bit in range(3)] + [(count, 6 + bit, place, 3, bit) for bit in range(3)]
        rules += [(count, 9, place, 1, 9)]
    return rules


def leaf_pairs(count):
    return Walker(10, count + 1, 0, 0, 1 << count, pairs_of_leaves(count))


def leaf_pairs_found():
    """Six leaves; from the root, in 10, the right part is asked for bit 2 of the leaf that is its left part: height 2, after 6 leaves and 36
    branches over leaves."""
    return Walker(11, 7, 1 << 10, 1 << 9, 1 << 6, pairs_of_leaves(6) + [(6, 10, 0, 3, 5)])


def low(nodes, last):
    """A tree of so many nodes, an odd number, as low as can be, over the example's symbols; its last leaf is given."""
    if nodes == 1:
        return [last]
    left = (nodes - 1) // 2 | 1
    return [2] + low(left, 0) + low(nodes - 1 - left, last)


def changed(symbols, at, symbol):
    return symbols[:at] + [symbol] + symbols[at + 1:]


def misfilled(symbols, offset):
    """A letter whose byte at an offset, zero by the layout, is 1."""
    payload = letter_payload(symbols)
    payload = payload.ljust(CONTENT * blocks_for(len(payload)), b'\0')
    return blocks(payload[:offset] + b'\1' + payload[offset + 1:])


def refused_walker(place, rule):
    """A walker of 400 rules, of which one is another; line 8 or 9 tells it by its number."""
    rules = (A * 100)[:place] + [rule] + (A * 100)[place + 1:]
    return walker(2, 3, 1, 2, 4, rules)


ACCEPTED, OTHER = [2, 0, 1], [2, 1, 0]
COMB_64, COMB_65 = [2, 0] * 64 + [1], [2, 0] * 65 + [1]
# Of 1,100 letters each seventy-third is refused, 15 in all, and each seventeenth not accepted, 64 in all; none is both.
THOUSAND = [[3] if i % 73 == 72 else OTHER if i % 17 == 16 else ACCEPTED for i in range(1100)]


def letters_of(accepted, other):
    return [ACCEPTED] * accepted + [OTHER] * other


LARGER = [
    ('rule 10 refused', refused_walker(10, (1, 0, 3, 1, 1)), letter(ACCEPTED), ['walker refused=9 place=10']),
    ('rule 300 refused', refused_walker(300, (2, 0, 0, 4, 0)), letter(ACCEPTED), ['walker refused=8 place=300']),
    ('rule 399 refused', refused_walker(399, (0, 0, 1, 2, 0)), letter(ACCEPTED), ['walker refused=9 place=399']),
    ('filler refused', filled(EXAMPLE, 507), letter(ACCEPTED), ['walker refused=6 place=507']),
    ('more rules than blocks', walker(2, 3, 1, 2, 4, [], count=512), b'', ['walker refused=5 place=6']),
    computed('found at height 11, rows 12', spine_of(11), [[0], [1, 0, 0], [1] * 11 + [0] * 12, [1] * 23 + [0] * 24, [1] * 12 + [0] * 13],
             ['survey found height=11 rows=12', documents(2, 3, 0, 40)]),
    computed('found at height 4, rows 5', spine_of(4), [[1] * 4 + [0] * 5], ['survey found height=4 rows=5', documents(1, 0, 0, 100)]),
    computed('open at height 64', spines((3, 4, 14), (7, 7, 14)), [[1, 0, 0], [1] * 64 + [0] * 65], ['survey open height=64 rows=0', 'quick unsure', documents(0, 2, 0, 0)]),
    computed('empty at height 4, unsure', spines(), [[1, 0, 0]], ['survey empty height=4 rows=0', 'quick unsure', documents(0, 1, 0, 0)]),
    computed('empty at height 13', spine_of(11, 13), [[1] * 11 + [0] * 12], ['survey empty height=13 rows=0', 'quick clear', documents(0, 1, 0, 0)]),
    computed('open at height 1', leaf_pairs(8), [[8, 0, 1]], ['survey open height=1 rows=0', 'quick clear']),
    computed('found at height 2, rows 43', leaf_pairs_found(), [[6, 0, 6, 4, 1], [6, 0, 6, 1, 4], [6, 6, 4, 4, 0]],
             ['survey found height=2 rows=43', documents(1, 2, 0, 33)]),
    computed('letters of two blocks', THE_EXAMPLE, [low(505, 1), low(505, 0), low(1011, 1), ACCEPTED, low(1011, 0), low(503, 1)], [documents(4, 2, 0, 67)]),
    computed('letters of nine blocks', THE_EXAMPLE, [low(4095, 0), low(4095, 1), OTHER, low(4061, 1), low(4095, 1)], [documents(3, 2, 0, 60)]),
    computed('refusals 10 to 12 between accepted letters', THE_EXAMPLE,
             [ACCEPTED, [2, 0, 3], ACCEPTED, [2, 0, 1, 0], ACCEPTED, [2, 2, 0, 1], ACCEPTED, COMB_65, COMB_64], [documents(5, 0, 4, 100)]),
    computed('refusals in letters of many blocks', THE_EXAMPLE,
             [changed(low(1011, 1), 700, 3), low(505, 1), low(4095, 1) + [0], low(505, 0), [2] * 600, low(4095, 1), low(505, 1)[:-1] + COMB_65, OTHER, ACCEPTED],
             [documents(3, 2, 4, 60)]),
    computed('refusal 6 between accepted letters', THE_EXAMPLE,
             [ACCEPTED, misfilled(ACCEPTED, 1), ACCEPTED, misfilled(ACCEPTED, 507), low(505, 1), misfilled(low(505, 1), 1015), ACCEPTED, OTHER], [documents(4, 1, 3, 80)]),
    computed('eleven hundred letters', THE_EXAMPLE, THOUSAND, [documents(1021, 64, 15, 94)]),
    # document 02, W2: `rules=` is the number of records, and a repeat changes nothing else
    computed('each record twice', Walker(2, 3, 1, 2, 4, A + A), [ACCEPTED, OTHER],
             ['walker states=2 symbols=3 rules=8 single=yes', *HEAD[1:], documents(1, 1, 0, 50)]),
    computed('place 3 beside its own copies', Walker(2, 3, 1, 2, 4, [(2, 0, 3, 3, 0)] + A), [ACCEPTED, OTHER, [2, 2, 0, 1, 0]],
             ['walker states=2 symbols=3 rules=5 single=yes', *HEAD[1:]]),
    computed('512 records of four rules', Walker(2, 3, 1, 2, 4, A * 128), [ACCEPTED, OTHER],
             ['walker states=2 symbols=3 rules=512 single=yes', *HEAD[1:], documents(1, 1, 0, 50)]),
    computed('repeats beside rules that meet', Walker(2, 3, 1, 2, 4, A + A + [(1, 0, 3, 0, 0)]), [ACCEPTED],
             ['walker states=2 symbols=3 rules=9 single=no', *HEAD[1:], documents(1, 0, 0, 100)]),
    # document 02, W3: a half goes to the even number, and nothing else of the line changes; refused letters count for nothing
    computed('37.5 percent', THE_EXAMPLE, letters_of(3, 5), [*HEAD, documents(3, 5, 0, 38)]),
    computed('62.5 percent', THE_EXAMPLE, letters_of(5, 3), [*HEAD, documents(5, 3, 0, 62)]),
    computed('87.5 percent, and refused letters', THE_EXAMPLE, letters_of(7, 1) + [[3], [2, 0]], [*HEAD, documents(7, 1, 2, 88)]),
    computed('0.5 percent', THE_EXAMPLE, letters_of(1, 199), [*HEAD, documents(1, 199, 0, 0)]),
    computed('1.5 percent', THE_EXAMPLE, letters_of(3, 197), [*HEAD, documents(3, 197, 0, 2)]),
    computed('99.5 percent', THE_EXAMPLE, letters_of(199, 1), [*HEAD, documents(199, 1, 0, 100)]),
    computed('one letter fewer than for 0.5 percent', THE_EXAMPLE, letters_of(1, 198), [*HEAD, documents(1, 198, 0, 1)]),
    computed('one letter more than for 1.5 percent', THE_EXAMPLE, letters_of(3, 198), [*HEAD, documents(3, 198, 0, 1)]),
]


def write(name, data):
    with open(os.path.join(HERE, name), 'wb') as file:
        file.write(data)


def main():
    data = os.path.join(HERE, 'data')
    shutil.rmtree(data, ignore_errors=True)
    os.makedirs(data)
    lines = []
    for number, (name, automaton, letters, expected) in enumerate(CASES + LARGER):
        if automaton is not None:
            write(f'data/{number:02}.walker', automaton)
        write(f'data/{number:02}.letters', letters)
        lines += [f'case {number:02}'] + expected
    write('stdout', ('\n'.join(lines) + '\n').encode())


if __name__ == '__main__':
    main()
