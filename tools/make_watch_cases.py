#!/usr/bin/env python3
"""Writes stdin and stdout of crates/watch_cases, or of another folder (tools/make_watch_cases.py [FOLDER]): walker files, letter files, budgets and
lent logs, and what document 02 says of each (W7).

The reading below is written from documents 01 and 02 and shares nothing with the engine. Where a case states its answer, or its log, the reading
is held to it. Every walk is held to a search over all positions, too. Every file that is refused by document 01's table states its refusal."""
import functools, itertools, os, random, struct, sys
from collections import Counter
from files import blocks, letter_file, walker_file
from told import mix, no, pattern
from walkers import (A, GOOD, LEFT, LETTER, LETTERS, RIGHT, RULES, STAY, UP, WALKERS, Walker, leaf_walker, left_comb, letter_by_chance, moved, parts, place_of,
                     right_comb, ways_of, wide)

random.seed(7)
HERE = sys.argv[1] if len(sys.argv) > 1 else os.path.join(os.path.dirname(os.path.abspath(__file__)), '..', 'crates', 'watch_cases')
MOST = 20000


# ---- W7, read independently

def spread(rules):
    return {(symbol, state, at, move, to) for symbol, state, place, move, to in rules for at in ((0, 1, 2) if place == 3 else (place,))}


def walk(walker, letter, budget):
    """How the walk ends, and its log."""
    ways = ways_of(walker.branches, letter)
    node_at = {way: node for node, way in enumerate(ways)}
    rule_at = {rule[:3]: rule[3:] for rule in spread(walker.rules)}
    way, state, log = '', walker.start.bit_length() - 1, []
    while True:
        log.append((node_at[way], state))
        steps = len(log) - 1
        rule = rule_at.get((letter[node_at[way]], state, place_of(way)))
        if way == '' and walker.final >> state & 1: return 'passed', log
        if rule is None: return 'stuck', log
        if steps == len(letter) * walker.states: return 'circling', log
        if steps == budget: return 'spent', log
        move, state = rule
        way = moved(way, move)


def answer(walker, letter, budget, room):
    """Number and place of a refusal, or how the walk ends and its log."""
    rules = spread(walker.rules)
    if len({rule[:3] for rule in rules}) < len(rules): return (20, 0), None, None
    starts = bin(walker.start).count('1')
    if starts != 1: return (21, starts), None, None
    if budget > MOST: return (22, MOST), None, None
    if room < 3 * (budget + 1): return (13, 3 * (budget + 1)), None, None
    return None, *walk(walker, letter, budget)


# ---- a search over all positions, which a walk is held to

@functools.cache
def accepted(walker, letter):
    """Whether a run leads from the root in a start state to the root in a final one, each rule being tried as it stands in the file."""
    left, right, above, place = parts(walker.branches, letter)
    reached = {(0, state) for state in range(walker.states) if walker.start >> state & 1}
    waiting = list(reached)
    while waiting:
        node, state = waiting.pop()
        for rule in walker.rules:
            if rule[:2] == (letter[node], state) and rule[2] in (place[node], 3):
                after = (node, above[node], left[node], right[node])[rule[3]], rule[4]
                if after not in reached: waiting.append(after)
                reached.add(after)
    return any((0, state) in reached for state in range(walker.states) if walker.final >> state & 1)


def hold(walker, letter, budget, end, steps):
    """A walk that ends comes to no position twice, and so makes fewer steps than nodes x states."""
    most = len(letter) * walker.states
    if end == 'passed': assert accepted(walker, letter) and steps < most
    if end == 'stuck': assert not accepted(walker, letter) and steps < most
    if end == 'circling': assert not accepted(walker, letter) and steps == most
    if end == 'spent': assert budget < most


# ---- the cases

cases, labels = [], set()


def add(label, automaton, tree, budget, room, told, written=b''):
    assert 0 < len(label) < 256 and label not in labels, label
    labels.add(label)
    cases.append((label, automaton, tree, budget, room, f'{told} mix={mix(written + pattern(room)[len(written):])}'))


def case(label, walker, letter, budget, says=None, log=None, room=None):
    """`says` is the answer, `log` the positions; the lent log is as long as 13 asks for, if nothing else is said."""
    room = 3 * (min(budget, MOST) + 1) if room is None else room
    refusal, end, made = answer(walker, letter, budget, room)
    told = f' {end}={len(made) - 1}' if made else no(*refusal)
    assert says is None or told == says, (label, told, says)
    assert log is None or made == log, (label, made)
    if made: hold(walker, tuple(letter), budget, end, len(made) - 1)
    written = b''.join(struct.pack('<HB', *position) for position in made or [])
    add(label, walker_file(*walker), letter_file(letter), budget, room, told, written)


def around(label, walker, letter, steps, end, log=None):
    """The budget is one less than the steps that the end needs, just these, and one more."""
    if steps: case(f'{label}, budget {steps - 1}', walker, letter, steps - 1, f' spent={steps - 1}', log and log[:-1])
    for budget in (steps, steps + 1): case(f'{label}, budget {budget}', walker, letter, budget, f' {end}={steps}', log)


def route(letter, moves, back=None, final=0):
    """A walker that makes these moves (S stay, U up, L left, R right) in states 0, 1, 2 and so on; the last leads to state `back`, or to one more."""
    way, rules, ways = '', [], ways_of(4, letter)
    for state, move in enumerate('SULR'.index(name) for name in moves):
        to = back if back is not None and state + 1 == len(moves) else state + 1
        rules.append((letter[ways.index(way)], state, place_of(way), move, to))
        way = moved(way, move)
    return Walker(len(moves) + (back is None), 3, 1, final, 4, tuple(rules))


def rising(*nodes):
    """The log of a route that comes to these nodes."""
    return [(node, state) for state, node in enumerate(nodes)]


# document 01's walker, and its letters
case('A on 2 0 1', A, [2, 0, 1], 6, ' passed=2', [(0, 0), (2, 0), (0, 1)])
case('A on 2 1 0', A, [2, 1, 0], 6, ' stuck=1', [(0, 0), (2, 0)])
case('A on 1', A, [1], 6, ' stuck=0', [(0, 0)])
case('A+ on 1', A._replace(rules=RULES + ((1, 0, 0, 0, 1),)), [1], 6, ' passed=1', [(0, 0), (0, 1)])
case('A on 2 0 2 0 1', A, [2, 0, 2, 0, 1], 20, ' passed=4', [(0, 0), (2, 0), (4, 0), (2, 1), (0, 1)])
case('A on 2 2 0 1 0', A, [2, 2, 0, 1, 0], 20, ' stuck=1', [(0, 0), (4, 0)])
case('A on 2 2 0 1 1', A, [2, 2, 0, 1, 1], 20, ' passed=2', [(0, 0), (4, 0), (0, 1)])

# the budget: 0, and about the steps that are needed
ONE_RULE = Walker(2, 3, 1, 2, 4, ((0, 0, 0, STAY, 1),))
case('budget 0, passed', A._replace(final=1), [2, 0, 1], 0, ' passed=0', [(0, 0)])
case('budget 0, stuck', A, [1], 0, ' stuck=0', [(0, 0)])
case('budget 0, spent', A, [2, 0, 1], 0, ' spent=0', [(0, 0)])
case('budget 0, spent one step before a pass', ONE_RULE, [0], 0, ' spent=0', [(0, 0)])
case('budget 1, that pass', ONE_RULE, [0], 1, ' passed=1', [(0, 0), (0, 1)])
for name, letter in ('', [2, 0, 1]), (' and no rule', [1]):
    for budget in 0, 1, 2, 5, 6, 7, 100, 19999, 20000:
        case(f'a final start state{name}, budget {budget}', A._replace(final=1), letter, budget, ' passed=0', [(0, 0)])
around('passed in 2 steps', A, [2, 0, 1], 2, 'passed', [(0, 0), (2, 0), (0, 1)])
around('passed in 4 steps', A, [2, 0, 2, 0, 1], 4, 'passed', [(0, 0), (2, 0), (4, 0), (2, 1), (0, 1)])
around('stuck at once', A, [0], 0, 'stuck', [(0, 0)])
around('stuck after 1 step', A, [2, 1, 0], 1, 'stuck', [(0, 0), (2, 0)])
around('stuck after 2 steps', A, [2, 0, 2, 1, 0], 2, 'stuck', [(0, 0), (2, 0), (4, 0)])
DOWN, BACK = [(2 * depth, 0) for depth in range(65)], [(2 * depth, 1) for depth in range(63, -1, -1)]
around('passed in 128 steps', A, right_comb(64)[:-1] + [1], 128, 'passed', DOWN + BACK)
around('stuck after 64 steps', A, right_comb(64), 64, 'stuck', DOWN)
for budget in range(7): case(f'four steps, budget {budget}', A, [2, 0, 2, 0, 1], budget, f' spent={budget}' if budget < 4 else ' passed=4')
for steps in range(24):
    chain = leaf_walker(24, [(state, state + 1) for state in range(steps)])
    around(f'{steps} stays, then stuck', chain, [0], steps, 'stuck', rising(*[0] * (steps + 1)))
    around(f'{steps} stays, then passed', chain._replace(final=1 << steps), [0], steps, 'passed', rising(*[0] * (steps + 1)))

# circling: told after nodes x states steps, not where the walk first comes back
for length, tail in itertools.product(range(1, 13), (0, 1, 2, 5, 12)):
    states = tail + length
    ring = leaf_walker(states, [(state, state + 1) for state in range(states - 1)] + [(states - 1, tail)])
    around(f'a circle of {length} after {tail}, one leaf', ring, [0], states, 'circling', rising(*[0] * states) + [(0, tail)])
    if tail == 1: around(f'a circle of {length} after 1, one leaf, 24 states', ring._replace(states=24), [0], 24, 'circling')
SEVEN = [2, 2, 0, 1, 2, 1, 0]


def circle(label, tail, tail_nodes, moves, nodes):
    """After the tail these moves come again and again; the nodes are those that the moves lead to."""
    states, first = len(tail + moves), len(tail)
    steps = 7 * states
    positions = [step if step < states else first + (step - first) % len(moves) for step in range(steps + 1)]
    log = [(int(('0' + tail_nodes + nodes)[position]), position) for position in positions]
    around(label, route(SEVEN, tail + moves, first), SEVEN, steps, 'circling', log)


CIRCLES = {'S': '0', 'LU': '10', 'LSU': '110', 'LURU': '1040', 'LURSU': '10440', 'LLURUU': '121310', 'RSLURUU': '4454640', 'LLUURLUU': '12104540',
           'LLUSURLUU': '121104540', 'LLUURLURUU': '1210454640', 'LLURUSURLUU': '12131104540', 'LLURUURLURUU': '121310454640'}
TAILS = {'': '', 'S': '0', 'RU': '40', 'LLUU': '1210', 'RLSUURU': '4554040'}
for length, (moves, nodes) in enumerate(CIRCLES.items(), 1):
    assert len(moves) == length
    for tail, tail_nodes in TAILS.items(): circle(f'a circle of {length} in branches after {len(tail)}', tail, tail_nodes, moves, nodes)
BELOW = [('L', '1', 'S', '1'), ('R', '4', 'S', '4'), ('LL', '12', 'S', '2'), ('RR', '46', 'SSS', '666'), ('L', '1', 'RU', '31'),
         ('R', '4', 'LURU', '5464'), ('RSS', '444', 'RSULU', '66454')]
for tail, tail_nodes, moves, nodes in BELOW: circle(f'{tail}, then {moves} again and again', tail, tail_nodes, moves, nodes)
DOWN_UP = Walker(1, 3, 1, 0, 4, ((2, 0, 0, LEFT, 0), (0, 0, 1, UP, 0)))
around('one state, left and up', DOWN_UP, [2, 0, 1], 3, 'circling', [(0, 0), (1, 0), (0, 0), (1, 0)])
around('one state, left and up, five nodes', DOWN_UP, [2, 0, 2, 0, 1], 5, 'circling')
around('one state, one node', leaf_walker(1, [(0, 0)]), [0], 1, 'circling', [(0, 0), (0, 0)])
around('one state, 32 symbols', Walker(1, 32, 1, 0, 4, ((0, 0, 3, STAY, 0),)), [0], 1, 'circling')
around('two states, the other never reached', leaf_walker(2, [(0, 0)]), [0], 2, 'circling', [(0, 0), (0, 0), (0, 0)])
around('two states, the other one final', leaf_walker(2, [(0, 0)], final=2), [0], 2, 'circling')
around('24 states, 23 of them never reached', leaf_walker(24, [(0, 0)]), [0], 24, 'circling')
for budget in range(9):
    case(f'six nodes by states, budget {budget}', DOWN_UP._replace(states=2), [2, 0, 1], budget, f' spent={budget}' if budget < 6 else ' circling=6')
case('a circle of one, budget 20,000', leaf_walker(24, [(0, 0)]), [0], 20000, ' circling=24')

# the order of the four tests
case('passed, though no rule applies', A, [2, 0, 1], 2, ' passed=2', [(0, 0), (2, 0), (0, 1)])
case('passed, though a rule applies', A._replace(rules=RULES + ((2, 1, 0, 2, 1),)), [2, 0, 1], 2, ' passed=2', [(0, 0), (2, 0), (0, 1)])
case('passed at once, no rule, budget 0', Walker(1, 1, 1, 1, 0, ()), [0], 0, ' passed=0', [(0, 0)])
case('passed at once, a rule, budget 0', leaf_walker(1, [(0, 0)], final=1), [0], 0, ' passed=0', [(0, 0)])
case('passed at once, a rule, budget 1', leaf_walker(1, [(0, 0)], final=1), [0], 1, ' passed=0', [(0, 0)])
case('stuck, the budget being spent', A, [2, 1, 0], 1, ' stuck=1', [(0, 0), (2, 0)])
case('stuck at once, no rule at all, budget 0', Walker(1, 1, 1, 0, 0, ()), [0], 0, ' stuck=0', [(0, 0)])
case('spent, not circling: budget 0', leaf_walker(1, [(0, 0)]), [0], 0, ' spent=0', [(0, 0)])
case('circling, the budget being spent', leaf_walker(1, [(0, 0)]), [0], 1, ' circling=1', [(0, 0), (0, 0)])


def every_position(states):
    """The root in 0, the left leaf in every state, the root in 1, the right leaf in every state, the root in 2 and on: the rules, and the log."""
    stays = [(symbol, state, place, STAY, state + 1) for symbol, place in ((0, 1), (1, 2)) for state in range(states - 1)]
    stays += [(2, state, 0, STAY, state + 1) for state in range(2, states - 1)]
    turns = [(2, 0, 0, LEFT, 0), (0, states - 1, 1, UP, 1), (2, 1, 0, RIGHT, 0), (1, states - 1, 2, UP, 2)]
    at_leaf = lambda node: [(node, state) for state in range(states)]
    return tuple(stays + turns), [(0, 0)] + at_leaf(1) + [(0, 1)] + at_leaf(2) + at_leaf(0)[2:]


for states in range(3, 25):
    rules, log = every_position(states)
    walker, steps = Walker(states, 3, 1, 0, 4, rules), 3 * states - 1
    title = f'every position of {states} states'
    if states in (3, 4, 23, 24):
        around(f'{title} once, passed', walker._replace(final=1 << states - 1), [2, 0, 1], steps, 'passed', log)
        around(f'{title} once, stuck', walker, [2, 0, 1], steps, 'stuck', log)
    again = walker._replace(rules=rules + ((2, states - 1, 0, STAY, 0),))
    around(f'{title}, then the first', again, [2, 0, 1], steps + 1, 'circling', log + [(0, 0)])

# moves and places
case('a stay', route([2, 0, 1], 'S'), [2, 0, 1], 9, ' stuck=1', [(0, 0), (0, 1)])
case('down left', route([2, 0, 1], 'L'), [2, 0, 1], 9, ' stuck=1', [(0, 0), (1, 1)])
case('down right', route([2, 0, 1], 'R'), [2, 0, 1], 9, ' stuck=1', [(0, 0), (2, 1)])
case('up from a left part', route([2, 0, 1], 'LU', final=4), [2, 0, 1], 9, ' passed=2', [(0, 0), (1, 1), (0, 2)])
case('up from a right part', route([2, 0, 1], 'RU', final=4), [2, 0, 1], 9, ' passed=2', [(0, 0), (2, 1), (0, 2)])
case('a stay at a left leaf', route([2, 0, 1], 'LS'), [2, 0, 1], 9, ' stuck=2', rising(0, 1, 1))
case('a stay at a right branch', route(SEVEN, 'RS'), SEVEN, 9, ' stuck=2', rising(0, 4, 4))
case('left, right, up, up', route(SEVEN, 'LRUU', final=16), SEVEN, 40, ' passed=4', rising(0, 1, 3, 1, 0))
case('right, left, up, right, up, up', route(SEVEN, 'RLURUU', final=64), SEVEN, 99, ' passed=6', rising(0, 4, 5, 4, 6, 4, 0))
case('every node of seven', route(SEVEN, 'LLURUURLURUU', final=1 << 12), SEVEN, 99, ' passed=12', rising(0, 1, 2, 1, 3, 1, 0, 4, 5, 4, 6, 4, 0))
PLACES = {'root': (0, STAY), 'left part': (1, LEFT), 'right part': (4, RIGHT)}
for at, (name, (node, move)) in enumerate(PLACES.items()):
    for given in range(4):
        walker = Walker(3, 3, 1, 0, 4, ((2, 0, 0, move, 1), (2, 1, given, STAY, 2)))
        applies = given in (at, 3)
        log = [(0, 0), (node, 1)] + [(node, 2)] * applies
        case(f'a rule for place {given} at the {name}', walker, [2, 2, 0, 0, 2, 0, 0], 9, f' stuck={1 + applies}', log)
ANYWHERE = Walker(2, 3, 1, 2, 4, ((2, 0, 3, RIGHT, 0), (0, 0, 2, UP, 1), (2, 1, 2, UP, 1)))
case('place 3 all the way down', ANYWHERE, right_comb(3), 9, ' passed=6', [(0, 0), (2, 0), (4, 0), (6, 0), (4, 1), (2, 1), (0, 1)])
for name, down, node, at in ('left', LEFT, 1, 1), ('left', LEFT, 1, 2), ('right', RIGHT, 2, 1), ('right', RIGHT, 2, 2):
    walker = Walker(3, 3, 1, 4, 4, ((2, 0, 0, down, 1), (0, 1, at, UP, 2)))
    says, log = (' passed=2', [(0, 2)]) if at == node else (' stuck=1', [])
    case(f'up for place {at} at the {name} part', walker, [2, 0, 0], 9, says, [(0, 0), (node, 1)] + log)
for name, rule in ('symbol', (1, 1, 1, UP, 2)), ('state', (0, 2, 1, UP, 2)), ('place', (0, 1, 0, STAY, 2)):
    case(f'a rule for another {name}', Walker(3, 3, 1, 4, 4, ((2, 0, 0, LEFT, 1), rule)), [2, 0, 0], 9, ' stuck=1', [(0, 0), (1, 1)])

# a final state elsewhere than at the root
FINAL = Walker(3, 3, 1, 2, 4, ((2, 0, 0, LEFT, 1),))
case('final at the left part, stuck there', FINAL, [2, 0, 1], 9, ' stuck=1', [(0, 0), (1, 1)])
case('final at the right part, stuck there', FINAL._replace(rules=((2, 0, 0, RIGHT, 1),)), [2, 0, 1], 9, ' stuck=1', [(0, 0), (2, 1)])
UP_TO_2, UP_TO_1, STAYS = (FINAL._replace(rules=FINAL.rules + (rule,)) for rule in ((0, 1, 1, UP, 2), (0, 1, 1, UP, 1), (0, 1, 1, STAY, 1)))
case('final at the left part, then stuck at the root', UP_TO_2, [2, 0, 1], 9, ' stuck=2', [(0, 0), (1, 1), (0, 2)])
case('final at the left part, then passed', UP_TO_2._replace(final=6), [2, 0, 1], 9, ' passed=2', [(0, 0), (1, 1), (0, 2)])
case('final at the left part, spent there', UP_TO_2, [2, 0, 1], 1, ' spent=1', [(0, 0), (1, 1)])
case('final at the left part, circling there', STAYS, [2, 0, 1], 9, ' circling=9', [(0, 0)] + [(1, 1)] * 9)
case('final at the left part and at the root', UP_TO_1, [2, 0, 1], 9, ' passed=2', [(0, 0), (1, 1), (0, 1)])
case('every state final', route(SEVEN, 'LRUU', final=31), SEVEN, 9, ' passed=0', [(0, 0)])
case('every state but the first final', route(SEVEN, 'LRUU', final=30), SEVEN, 9, ' passed=4', rising(0, 1, 3, 1, 0))
case('no state final', route(SEVEN, 'LRUU'), SEVEN, 9, ' stuck=4', rising(0, 1, 3, 1, 0))
case('the root between, not final', route(SEVEN, 'LURU', final=16), SEVEN, 9, ' passed=4', rising(0, 1, 0, 4, 0))
case('the root between, final', route(SEVEN, 'LURU', final=20), SEVEN, 9, ' passed=2', rising(0, 1, 0))

# single: place 3 is spread, and repeats are taken once
SAME = {
    'each record twice': RULES + RULES,
    'each record 128 times': RULES * 128,
    'the last record twice': RULES + RULES[3:],
    'turned round': RULES[::-1],
    'place 0 and 2 by place 3': ((2, 0, 3, 3, 0),) + RULES[2:],
    'place 3 and its copies': ((2, 0, 3, 3, 0),) + RULES,
    'copies, and then place 3': RULES + ((2, 0, 3, 3, 0),),
    'place 3 twice': RULES[2:] + ((2, 0, 3, 3, 0),) * 2,
    'place 3 beside its copy at 1': ((2, 0, 1, 3, 0), (2, 0, 3, 3, 0)) + RULES[2:],
    'another symbol, state or place': RULES + ((0, 0, 0, 0, 0), (2, 1, 0, 3, 1), (2, 0, 1, 3, 1), (1, 1, 2, 1, 0), (1, 0, 1, 1, 0)),
}
for name, rules in SAME.items(): case(f'single, {name}', A._replace(rules=rules), [2, 0, 1], 2, ' passed=2', [(0, 0), (2, 0), (0, 1)])
for name, rules in SAME.items(): case(f'single, {name}, stuck', A._replace(rules=rules), [2, 1, 2, 0, 0], 9, ' stuck=2', [(0, 0), (2, 0), (4, 0)])
NOT_SINGLE = {
    'another next state': RULES + ((2, 0, 0, 3, 1),),
    'another move': RULES + ((2, 0, 0, 2, 0),),
    'another move and next state': ((2, 1, 2, 0, 0),) + RULES,
    'place 3 meets place 0': RULES[2:] + ((2, 0, 0, 3, 0), (2, 0, 3, 2, 0)),
    'place 3 meets place 1': RULES[2:] + ((2, 0, 3, 3, 0), (2, 0, 1, 3, 1)),
    'place 3 meets place 2': ((2, 0, 3, 3, 0), (2, 1, 3, 0, 1)) + RULES[2:],
    'place 3 meets place 3': RULES[2:] + ((2, 0, 3, 3, 0), (2, 0, 3, 3, 1)),
    'place 3 and a copy meet another': ((2, 0, 3, 3, 0), (2, 0, 0, 3, 0), (2, 0, 0, 2, 0)),
    'where the walk never comes': RULES + ((0, 1, 1, 0, 0), (0, 1, 1, 0, 1)),
    'a repeat besides': RULES + RULES + ((0, 1, 1, 0, 0), (0, 1, 1, 1, 0)),
    'the 511th and the 512th record': (RULES * 128)[:510] + ((0, 1, 1, 0, 0), (0, 1, 1, 0, 1)),
    'the first and the 512th record': ((1, 0, 0, 0, 0),) + (RULES * 128)[:510] + ((1, 0, 0, 0, 1),),
}
for name, rules in NOT_SINGLE.items(): case(f'not single, {name}', A._replace(rules=rules), [2, 0, 1], 2, no(20, 0))
for name, rules in NOT_SINGLE.items(): case(f'not single, {name}, a final start state', A._replace(rules=rules, final=1), [0], 20000, no(20, 0))
case('the last four of 512 records', A._replace(rules=((1, 1, 3, 0, 1),) * 508 + RULES), [2, 0, 1], 2, ' passed=2', [(0, 0), (2, 0), (0, 1)])

# start states
EVERY = Walker(24, 3, 1, 2, 4, RULES)
for count in range(25):
    low, high = (EVERY._replace(start=start) for start in (2 ** count - 1, 2 ** 24 - 2 ** (24 - count)))
    case(f'{count} start states, the lowest', low, [2, 0, 1], 2, ' passed=2' if count == 1 else no(21, count))
    case(f'{count} start states, the highest', high, [2, 0, 1], 2, ' stuck=0' if count == 1 else no(21, count))
for states in 1, 2, 3, 23:
    case(f'no start state of {states}', leaf_walker(states, [], start=0), [0], 2, no(21, 0))
    walker = leaf_walker(states, [], start=2 ** states - 1)
    case(f'all start states of {states}', walker, [0], 2, ' stuck=0' if states == 1 else no(21, states))
case('two start states, both final', A._replace(start=3, final=3), [2, 0, 1], 2, no(21, 2))
case('three start states, far from one another', EVERY._replace(start=2 ** 23 + 2 ** 9 + 1), [2, 0, 1], 2, no(21, 3))
case('two start states, bytes apart', EVERY._replace(start=2 ** 16 + 2 ** 8), [2, 0, 1], 2, no(21, 2))
for state in range(24):
    walker = leaf_walker(24, [(state, 23 - state)], 1 << state, 1 << 23 - state)
    case(f'start state {state}', walker, [0], 1, ' passed=1', [(0, state), (0, 23 - state)])
falling = leaf_walker(24, [(state, state - 1) for state in range(1, 24)], 1 << 23, 1)
case('states 23 to 0', falling, [0], 24, ' passed=23', [(0, state) for state in range(23, -1, -1)])

# 22
case('budget 20,000', A, [2, 0, 1], 20000, ' passed=2', [(0, 0), (2, 0), (0, 1)])
case('budget 20,000, stuck', A, [2, 1, 0], 20000, ' stuck=1', [(0, 0), (2, 0)])
OVER = [20001, 20002, 32768, 65535, 65536, 65538, 84000, 2 ** 24 + 2, 2 ** 31, 2 ** 32 - 1, 2 ** 32, 2 ** 32 + 2, 2 ** 40, 2 ** 63, 2 ** 63 + 2]
# three times one more is just over 2^64, and just over 2^65; one more than the last is 2^64
OVER += [2 ** 64 // 3, 2 ** 65 // 3, 2 ** 64 - 2, 2 ** 64 - 1]
for budget in OVER:
    case(f'budget {budget}', A, [2, 0, 1], budget, no(22, 20000))
    case(f'budget {budget}, three bytes lent', A, [2, 0, 1], budget, no(22, 20000), room=3)
for budget in 20001, 2 ** 32, 2 ** 64 - 1:
    case(f'budget {budget}, no log', A, [2, 0, 1], budget, no(22, 20000), room=0)
    case(f'budget {budget}, a long log', A, [2, 0, 1], budget, no(22, 20000), room=65535)
    case(f'budget {budget}, passed at once', A._replace(final=1), [2, 0, 1], budget, no(22, 20000))

# the lent log: 13 goes by the budget
for budget in 0, 1, 2, 3, 9, 84, 85, 255, 256, 5000, 19999, 20000:
    length, says = 3 * (budget + 1), ' passed=2' if budget > 1 else f' spent={budget}'
    for room in sorted({0, 1, length - 3, length - 2, length - 1}):
        case(f'budget {budget}, {room} bytes lent', A, [2, 0, 1], budget, no(13, length), room=room)
    for room in length, length + 1, length + 3, length + 100: case(f'budget {budget}, {room} bytes lent', A, [2, 0, 1], budget, says, room=room)
for what, walker in ('passed', A._replace(final=1)), ('stuck', A._replace(rules=())):
    for budget in 1, 5, 20000:
        length, title = 3 * (budget + 1), f'{what} at once, budget {budget}'
        for room in 0, 3, length - 1: case(f'{title}, {room} bytes lent', walker, [2, 0, 1], budget, no(13, length), room=room)
        case(f'{title}, {length} bytes lent', walker, [2, 0, 1], budget, f' {what}=0', [(0, 0)], length)
case('circling at 24, budget 100, 75 bytes lent', leaf_walker(24, [(0, 0)]), [0], 100, no(13, 303), room=75)
case('circling at 24, budget 100, 303 bytes lent', leaf_walker(24, [(0, 0)]), [0], 100, ' circling=24', room=303)

# many nodes: the high byte of a node
for size in 251, 253, 255, 509, 1021, 2045, 3997, 3999, 4091:
    letter, node = [2] + wide(size) + [2, 0, 1], size + 1
    walker, log = route(letter, 'RLURUU', final=64), rising(0, node, node + 1, node, node + 2, node, 0)
    case(f'nodes {node} to {node + 2}', walker, letter, 6, ' passed=6', log)
    case(f'nodes {node} to {node + 2}, spent', walker, letter, 4, ' spent=4', log[:5])
    case(f'node {node + 2}, circling there, spent', route(letter, 'RRS', 2), letter, 300, ' spent=300', rising(0, node) + [(node + 2, 2)] * 299)
FAR = [2] + wide(4093) + [1]
case('a right part far from the root', A, FAR, 2, ' passed=2', [(0, 0), (4094, 0), (0, 1)])
case('a right part far from the root, three times', route(FAR, 'RURURU', final=64), FAR, 6, ' passed=6', rising(0, 4094, 0, 4094, 0, 4094, 0))
FAR_BELOW = [2, 0, 2] + wide(4001) + [1]
case('a right part far from its parent', A, FAR_BELOW, 4, ' passed=4', [(0, 0), (2, 0), (4004, 0), (2, 1), (0, 1)])
FAR_LEFT = [2, 2] + wide(999) + [1, 0]
case('far from a left part', route(FAR_LEFT, 'LRUURU', final=64), FAR_LEFT, 9, ' passed=6', rising(0, 1, 1001, 1, 0, 1002, 0))
case('64 down the left', Walker(1, 3, 1, 0, 4, ((2, 0, 3, LEFT, 0),)), left_comb(64), 99, ' stuck=64', [(node, 0) for node in range(65)])
case('64 down the right', Walker(1, 3, 1, 0, 4, ((2, 0, 3, RIGHT, 0),)), right_comb(64), 99, ' stuck=64', [(2 * node, 0) for node in range(65)])


# rounds: down, back from a left part, back from a right part, in three states each
def rounds(count, endless=False, leaves=(0, 1), inner=(2,)):
    """Goes round the whole letter so often, or begins again after that; each round makes 2 x (nodes - 1) steps."""
    rules = []
    for first in range(0, 3 * count, 3):
        down, left, right, to = first, first + 1, first + 2, 0 if first == 3 * count - 3 else first + 3
        for leaf in leaves: rules += [(leaf, down, 1, UP, left), (leaf, down, 2, UP, right)]
        for branch in inner:
            rules += [(branch, down, 3, LEFT, down), (branch, left, 3, RIGHT, down)]
            rules += [(branch, right, 1, UP, left), (branch, right, 2, UP, right)]
            if to or endless: rules.append((branch, right, 0, LEFT, to))
    return tuple(rules)


ROUND = Walker(3, 3, 1, 4, 4, rounds(1))
case('round three nodes', ROUND, [2, 0, 1], 9, ' passed=4', [(0, 0), (1, 0), (0, 1), (2, 0), (0, 2)])
case('round seven nodes', ROUND, SEVEN, 99, ' passed=12',
     [(0, 0), (1, 0), (2, 0), (1, 1), (3, 0), (1, 2), (0, 1), (4, 0), (5, 0), (4, 1), (6, 0), (4, 2), (0, 2)])
case('round one leaf: no rule for the root', ROUND, [0], 9, ' stuck=0', [(0, 0)])
for height, (side, comb) in itertools.product((1, 2, 63, 64), (('left', left_comb), ('right', right_comb))):
    around(f'round a comb of height {height} down the {side}', ROUND, comb(height), 4 * height, 'passed')
for count in 503, 505, 4061, 4095: around(f'round {count} nodes', ROUND, wide(count), 2 * (count - 1), 'passed')
around('round 4,095 nodes, then stuck', ROUND._replace(final=0), wide(4095), 8188, 'stuck')
case('round 4,095 nodes, budget 20,000', ROUND, wide(4095), 20000, ' passed=8188')
case('round 4,095 nodes, one byte of the log short', ROUND, wide(4095), 8188, no(13, 24567), room=24566)
ENDLESS = Walker(24, 3, 1, 0, 4, rounds(8, True))
for budget in 8188, 19999, 20000: case(f'24 states, 4,095 nodes, budget {budget}', ENDLESS, wide(4095), budget, f' spent={budget}')
case('24 states, 4,095 nodes, budget 20,001', ENDLESS, wide(4095), 20001, no(22, 20000))
case('24 states, 4,095 nodes, two rounds', ENDLESS._replace(final=1 << 5), wide(4095), 20000, ' passed=16376')
# 5 rounds of 2,001 nodes are 20,000 steps
FIVE = Walker(15, 3, 1, 1 << 14, 4, rounds(5))
case('20,000 steps, passed', FIVE, wide(2001), 20000, ' passed=20000')
case('20,000 steps, stuck', FIVE._replace(final=0), wide(2001), 20000, ' stuck=20000')
case('20,000 steps, one too many to pass', FIVE, wide(2001), 19999, ' spent=19999')
case('20,000 steps, one too many to be stuck', FIVE._replace(final=0), wide(2001), 19999, ' spent=19999')
case('20,000 steps, budget 20,001', FIVE, wide(2001), 20001, no(22, 20000))
case('20,000 steps, spent', Walker(15, 3, 1, 0, 4, rounds(5, True)), wide(2001), 20000, ' spent=20000')
# circling about a budget of 20,000
SEVEN_STATES = Walker(7, 3, 1, 0, 4, rounds(2, True))
for budget in 19998, 19999, 20000:
    case(f'7 x 2,857 = 19,999, budget {budget}', SEVEN_STATES, wide(2857), budget, ' spent=19998' if budget == 19998 else ' circling=19999')
case('24 x 2,731 = 2^16 + 8, budget 20,000', ENDLESS, wide(2731), 20000, ' spent=20000')
case('12 x 1,667 = 20,004, budget 20,000', Walker(12, 3, 1, 0, 4, rounds(4, True)), wide(1667), 20000, ' spent=20000')
for budget in 19991, 19992, 19993, 20000:
    case(f'24 x 833 = 19,992, budget {budget}', ENDLESS, wide(833), budget, ' spent=19991' if budget == 19991 else ' circling=19992')

# symbols up to 31, and many rules
ALL = Walker(3, 32, 1, 4, 0xffff0000, rounds(1, False, range(16), range(16, 32)))
COMB = [node for k in range(16) for node in (16 + k, k)] + [15]
around('round all 32 symbols', ALL, COMB, 64, 'passed')
around('round all 32 symbols, falling', ALL, [31 - k for k in range(15)] + [16, 15, 14] + [15 - k for k in range(2, 16)] + [0], 64, 'passed')
for symbol in 0, 1, 7, 8, 15, 16, 30, 31:
    walker = Walker(2, 32, 1, 2, 0, ((symbol, 0, 0, STAY, 1),))
    case(f'a rule for symbol {symbol}', walker, [symbol], 1, ' passed=1', [(0, 0), (0, 1)])
    case(f'a rule for symbol {symbol}, at {symbol ^ 1}', walker, [symbol ^ 1], 1, ' stuck=0', [(0, 0)])
for symbol in 3, 24, 31:
    walker = Walker(2, 32, 1, 2, 1 << symbol, ((symbol, 0, 0, RIGHT, 1), (symbol ^ 1, 1, 2, UP, 1)))
    case(f'branch symbol {symbol}', walker, [symbol, symbol ^ 2, symbol ^ 1], 2, ' passed=2', [(0, 0), (2, 1), (0, 1)])
MANY = tuple((symbol, state, 2, STAY, state) for symbol in range(3, 32) for state in range(24))
for count in 97, 98, 199, 200, 512:
    walker = Walker(24, 32, 1, 2, 4, MANY[:count - 4] + RULES)
    case(f'{count} records', walker, [2, 0, 1], 2, ' passed=2', [(0, 0), (2, 0), (0, 1)])

# the order of the checks: each of them fails or not
FAULTS = ('walker', 'letter', '20', '21', '22', '13')
for wrong in itertools.product((False, True), repeat=6):
    kinds = {'kind': 84} if wrong[0] else {}, {'kind': 87} if wrong[1] else {}
    walker = A._replace(rules=RULES + ((2, 0, 0, 2, 0),) * wrong[2], start=3 if wrong[3] else 1)
    budget = 20001 if wrong[4] else 2
    room = 8 if wrong[5] else 3 * (budget + 1)
    title = 'wrong: ' + (', '.join(name for name, so in zip(FAULTS, wrong) if so) or 'nothing')
    says = (no(3, 0, 0), no(3, 0, 1), no(20, 0), no(21, 2), no(22, 20000), no(13, 9), ' passed=2')[(*wrong, True).index(True)]
    if wrong[0] or wrong[1]: add(title, walker_file(*walker, **kinds[0]), letter_file([2, 0, 1], **kinds[1]), budget, room, says)
    else: case(title, walker, [2, 0, 1], budget, says, room=room)


# document 01's table
BAD = A._replace(rules=RULES + ((2, 0, 0, 2, 0),), start=3)
for fault, file, number, at in WALKERS:
    add(f'the walker, {fault}', file, blocks(LETTER), 2, 9, no(number, at, 0))
    add(f'the walker, {fault}, everything else wrong', file, b'', 20001, 0, no(number, at, 0))
for fault, file, number, at in LETTERS: add(f'the letter, {fault}', blocks(GOOD), file, 2, 9, no(number, at, 1))
for fault, file, number, at in LETTERS:
    add(f'the letter, {fault}, everything later wrong', walker_file(*BAD), file, 2 ** 64 - 1, 0, no(number, at, 1))


# by chance
def rules_by_chance(states, symbols, branches, likely):
    """At most one rule for a symbol, state and place; some stand for all three places, and some come twice."""
    rules = []
    for symbol, state in itertools.product(range(symbols), range(states)):
        down = [LEFT, RIGHT] * 2 if branches >> symbol & 1 else []
        if random.random() < 0.15: rules.append((symbol, state, 3, random.choice([STAY] + down), random.randrange(states)))
        else:
            rules += [(symbol, state, at, random.choice([STAY] + [UP] * (at > 0) * 3 + down), random.randrange(states))
                      for at in range(3) if random.random() < likely]
    rules += random.choices(rules, k=random.choice((0, 0, 1, 4))) if rules else []
    random.shuffle(rules)
    return tuple(rules)


def by_chance():
    """A walker that is single and has one start state, and a letter."""
    states, symbols = random.randint(1, 6), random.randint(2, 5)
    branches = random.randrange(1, 2 ** symbols - 1)
    inner, leaves = ([symbol for symbol in range(symbols) if branches >> symbol & 1 == is_branch] for is_branch in (1, 0))
    walker = Walker(states, symbols, 1 << random.randrange(states), random.choice((1 << random.randrange(states), random.randrange(2 ** states))),
                    branches, rules_by_chance(states, symbols, branches, random.choice((0.6, 0.8, 0.9, 1))))
    return walker, letter_by_chance(leaves, inner, random.choice((0, 1, 2, 3, 4, 5, 7, 10, 20)))


PAIRS = 45
chosen = Counter()
while min(chosen[end] for end in ('passed', 'stuck', 'circling')) < PAIRS:
    walker, letter = by_chance()
    bound = len(letter) * walker.states
    end, log = walk(walker, letter, bound)
    # most of the walks that are kept come to several nodes
    if chosen[end] == PAIRS or len({node for node, state in log}) < random.choice((1, 2, 3, 3, 4, 5)): continue
    chosen[end] += 1
    steps, title = len(log) - 1, f'by chance, {end} {chosen[end]}'
    for budget in sorted({max(steps - 1, 0), steps, steps + 1, random.randrange(steps + 1), bound, random.randrange(bound + 2)}):
        room = 3 * (budget + 1) + random.choice((0, 0, 1, 7))
        case(f'{title}, budget {budget}', walker, letter, budget, f' {end}={steps}' if budget >= steps else f' spent={budget}', room=room)
    if chosen[end] % 3 == 0 and walker.rules:
        symbol, state, at, move, to = random.choice(walker.rules)
        other = walker._replace(rules=walker.rules + ((symbol, state, random.choice((at, 3 if move != UP else at)), move, (to + 1) % walker.states),))
        case(f'{title}, a rule more', other, letter, bound, None if walker.states == 1 else no(20, 0))
        other = walker._replace(start=walker.start ^ random.randrange(2 ** walker.states))
        case(f'{title}, other start states', other, letter, bound)

seen = {number: sum(f' refused={number} ' in told for *_, told in cases) for number in (*range(1, 14), 20, 21, 22)}
ends = {end: sum(f' {end}=' in told for *_, told in cases) for end in ('passed', 'stuck', 'circling', 'spent')}
assert all(n >= 2 for n in seen.values()) and all(n >= 100 for n in ends.values()), (seen, ends)
with open(os.path.join(HERE, 'stdin'), 'wb') as f:
    before = [None, None]
    for label, automaton, tree, budget, room, told in cases:
        kept = [file == other for file, other in zip((automaton, tree), before)]
        lengths = [len(file) + 32768 * same for file, same in zip((automaton, tree), kept)]
        f.write(struct.pack('<BHHHQ', len(label), *lengths, room, budget) + label.encode())
        f.write(b''.join(file for file, same in zip((automaton, tree), kept) if not same))
        before = [automaton, tree]
with open(os.path.join(HERE, 'stdout'), 'w') as f:
    for label, automaton, tree, budget, room, told in cases: f.write(f'{label}:{told}\n')
print(len(cases), 'cases;', ', '.join('%s %d' % kv for kv in ends.items()), end='; ')
print('refusals by number:', ' '.join('%d:%d' % kv for kv in seen.items()))
