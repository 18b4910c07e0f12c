"""Walkers and letters that the makers of cases about walks share: positions in a letter, letters of given shapes, and files that document 01's table
refuses, each with its number and place. It shares nothing with the engine."""
import random
from collections import namedtuple
from files import blocks, letter_file, letter_payload, walker_file, walker_payload

STAY, UP, LEFT, RIGHT = range(4)
Walker = namedtuple('Walker', 'states symbols start final branches rules')
RULES = ((2, 0, 0, 3, 0), (2, 0, 2, 3, 0), (1, 0, 2, 1, 1), (2, 1, 2, 1, 1))
A = Walker(2, 3, 1, 2, 4, RULES)


# ---- positions

def ways_of(branches, letter):
    """The way from the root to each node, in preorder: 1 is left and 2 is right."""
    ways, waiting = [], ['']
    for symbol in letter:
        way = waiting.pop()
        ways.append(way)
        if branches >> symbol & 1: waiting += [way + '2', way + '1']
    return ways


def place_of(way): return int(way[-1:] or 0)
def moved(way, move): return (way, way[:-1], way + '1', way + '2')[move]


def parts(branches, letter):
    """Left part, right part, parent and place of each node; found from the last node on."""
    size, left, right, above, place = ([0] * len(letter) for _ in range(5))
    for node in range(len(letter) - 1, -1, -1):
        size[node] = 1
        if branches >> letter[node] & 1:
            left[node] = node + 1
            right[node] = node + 1 + size[node + 1]
            size[node] += size[left[node]] + size[right[node]]
            above[left[node]] = above[right[node]] = node
            place[left[node]], place[right[node]] = 1, 2
    return left, right, above, place


# ---- walkers and letters

def leaf_walker(states, rules, start=1, final=0):
    """One leaf symbol; a rule is a state and the next one."""
    return Walker(states, 1, start, final, 0, tuple((0, state, 0, STAY, to) for state, to in rules))


def wide(count):
    """A letter of so many nodes (an odd number) and the least height."""
    if count == 1: return [0]
    left = (count - 1) // 2
    left -= 1 - left % 2
    return [2] + wide(left) + wide(count - 1 - left)


def left_comb(height): return [2] * height + [0] * (height + 1)
def right_comb(height): return [2, 0] * height + [0]


def letter_by_chance(leaves, inner, count):
    """So many branches."""
    if count == 0: return [random.choice(leaves)]
    left = random.randrange(count)
    return [random.choice(inner)] + letter_by_chance(leaves, inner, left) + letter_by_chance(leaves, inner, count - 1 - left)


# ---- document 01's table

def changed(payload, at, value): return payload[:at] + bytes([value]) + payload[at + 1:]


GOOD, LETTER = walker_payload(*A), letter_payload([2, 0, 1])
LARGE, LONG = walker_payload(*A._replace(rules=RULES * 128)), letter_payload(wide(505))
WALKERS = [
    ('1', blocks(GOOD)[:-1], 1, 0),
    ('1: no bytes', b'', 1, 0),
    ('1: one byte more', blocks(GOOD) + b'\0', 1, 0),
    ('1: seven blocks', blocks(GOOD, 7), 1, 0),
    ('2', changed(blocks(GOOD), 300, 77), 2, 0),
    ('2: the check', changed(blocks(GOOD), 511, 77), 2, 0),
    ('2: zeros', bytes(512), 2, 0),
    ('2: the last block', changed(blocks(LARGE), 3000, 77), 2, 5),
    ('3', blocks(changed(GOOD, 0, 88)), 3, 0),
    ('3: a letter', blocks(LETTER), 3, 0),
    ('4: states, 25', blocks(changed(GOOD, 1, 25)), 4, 1),
    ('4: states, 0', blocks(changed(GOOD, 1, 0)), 4, 1),
    ('4: symbols, 33', blocks(changed(GOOD, 2, 33)), 4, 2),
    ('4: symbols, 0', blocks(changed(GOOD, 2, 0)), 4, 2),
    ('4: rules', walker_file(*A, count=513), 4, 4),
    ('5: two blocks', blocks(GOOD, 2), 5, 1),
    ('5: five blocks of six', blocks(LARGE, 5), 5, 6),
    ('6: byte 3', blocks(changed(GOOD, 3, 1)), 6, 3),
    ('6: byte 6', blocks(changed(GOOD, 6, 1)), 6, 6),
    ('6: byte 7', blocks(changed(GOOD, 7, 1)), 6, 7),
    ('6: filler', blocks(GOOD + b'\1'), 6, 40),
    ('6: the last byte', blocks(GOOD.ljust(507, b'\0') + b'\1'), 6, 507),
    ('7: start states', walker_file(*A._replace(start=5)), 7, 8),
    ('7: final states', walker_file(*A._replace(final=6)), 7, 12),
    ('7: branches', walker_file(*A._replace(branches=12)), 7, 16),
    ('8: symbol', walker_file(*A._replace(rules=RULES + ((3, 0, 0, 0, 0),))), 8, 4),
    ('8: state', walker_file(*A._replace(rules=((2, 2, 0, 0, 0),) + RULES)), 8, 0),
    ('8: place', walker_file(*A._replace(rules=RULES + ((2, 0, 4, 0, 0),))), 8, 4),
    ('8: move', walker_file(*A._replace(rules=RULES[:2] + ((2, 0, 0, 4, 0),))), 8, 2),
    ('8: next state', walker_file(*A._replace(rules=RULES + ((2, 0, 0, 0, 2),))), 8, 4),
    ('8: the 512th rule', blocks(changed(LARGE, 20 + 5 * 511 + 3, 4)), 8, 511),
    ('9: up from the root', walker_file(*A._replace(rules=RULES + ((1, 0, 0, 1, 1),))), 9, 4),
    ('9: up from any place', walker_file(*A._replace(rules=RULES + ((1, 0, 3, 1, 1),))), 9, 4),
    ('9: left at a leaf', walker_file(*A._replace(rules=((1, 0, 0, 2, 1),) + RULES)), 9, 0),
    ('9: right at a leaf', walker_file(*A._replace(rules=RULES + ((0, 0, 3, 3, 1),))), 9, 4),
]
LETTERS = [
    ('1', blocks(LETTER)[:-1], 1, 0),
    ('1: no bytes', b'', 1, 0),
    ('1: one byte more', blocks(LETTER) + b'\0', 1, 0),
    ('1: ten blocks', blocks(LETTER, 10), 1, 0),
    ('2', changed(blocks(LETTER), 300, 77), 2, 0),
    ('2: zeros', bytes(512), 2, 0),
    ('2: the second block', changed(blocks(LONG), 1000, 77), 2, 1),
    ('3', blocks(changed(LETTER, 0, 85)), 3, 0),
    ('3: a walker', blocks(GOOD), 3, 0),
    ('4: no node', letter_file([]), 4, 2),
    ('4: 4,097 nodes', letter_file([0] * 4097), 4, 2),
    ('5: two blocks', blocks(LETTER, 2), 5, 1),
    ('5: one block of two', blocks(LONG, 1), 5, 2),
    ('6: byte 1', blocks(changed(LETTER, 1, 1)), 6, 1),
    ('6: filler', blocks(LETTER + b'\1'), 6, 7),
    ('6: the last byte', blocks(LETTER.ljust(507, b'\0') + b'\1'), 6, 507),
    ('10', letter_file([2, 0, 3]), 10, 2),
    ('10: at the root', letter_file([255]), 10, 0),
    ('10: after the last node', letter_file([0, 3]), 10, 1),
    ('11: a node over', letter_file([0, 0]), 11, 1),
    ('11: a branch alone', letter_file([2]), 11, 1),
    ('11: two trees', letter_file([2, 0, 1, 2, 0, 1]), 11, 3),
    ('11: 504 nodes', letter_file(wide(503) + [0]), 11, 503),
    ('11: 4,096 nodes', letter_file(wide(4095) + [0]), 11, 4095),
    ('12: down the left', letter_file(left_comb(65)), 12, 65),
    ('12: down the right', letter_file(right_comb(65)), 12, 129),
]
