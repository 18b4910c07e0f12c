#!/usr/bin/env python3
"""Draws a walk on a letter, from the log that tools/watch writes, as a picture in SVG.

    tools/draw.py WALKER LETTER LOG SVG    writes the picture; WALKER is the walker's text, or its file

A node is a box with its symbol's name. A step is an arrow beside the edge that it goes along, with its number and the state after it; where a walk
stays, the arrow stands beside the node. The start and the last entry are marked. Names and arrows are drawn in letters of up to 100 nodes, arrows for
the first 200 steps; what is left out is said in the picture, and the edges that the walk went along are coloured always.

The file is written when the log is a walk on the letter, from its root and from each node to itself, its parent or one of its parts, and otherwise left
as it was. The status is 0 where it was written, 1 where it was not, with the reason, and 2 where the command is not understood.

This program is for people. It is not part of what is proved, and the engine shares nothing with it."""
import math, os, re, sys, unicodedata
from twa import Bad, STATES, check_tree, check_zeros, distinct, fail, letter, of, prefixed, read_either, write_file

NAMED, ARROWS, NAME = 100, 200, 24
LOG_BYTES = 3 * 20001
# In pixels: a line of words, the width of a character, a box, what is around and between.
LINE, CHAR, BOX, MARGIN, GAP, BAND = 16, 7.3, 24, 20, 14, 40
# The same, where no names are drawn.
COLUMN, LEVEL, WIDEST = 8, 40, 1600

STYLE = '''
text { font: 12px ui-monospace, 'DejaVu Sans Mono', Menlo, Consolas, monospace }
.paper { fill: #ffffff } .ink { fill: #1f2328 } .box { fill: #f6f8fa; stroke: #59636e } .edge { fill: none; stroke: #b3bac2 }
.walked { fill: none; stroke: #0969da } .step { fill: #0550ae } .start { fill: #1a7f37 } .last { fill: #bc4c00 }
.ring { fill: none; stroke: #bc4c00; stroke-width: 2.5 }
@media (prefers-color-scheme: dark) {
.paper { fill: #0d1117 } .ink { fill: #e6edf3 } .box { fill: #21262d; stroke: #8b949e } .edge { stroke: #484f58 }
.walked { stroke: #4493f8 } .step { fill: #79c0ff } .start { fill: #56d364 } .last { fill: #f0883e } .ring { stroke: #f0883e } }
'''


# ---- the letter and the walk

class Letter:
    """A letter's nodes with their links: each node's parent, its parts, and how far it is below the root."""

    def __init__(self, walker, symbols):
        self.symbols, self.parents, self.parts, self.depths = symbols, [], [[] for _ in symbols], []
        missing = [(0, 0)]
        for node, symbol in enumerate(symbols):
            parent, depth = missing.pop()
            self.parents.append(parent)
            self.depths.append(depth)
            if node:
                self.parts[parent].append(node)
            if symbol in walker.branches:
                missing += [(node, depth + 1)] * 2

    def leads(self, one, other):
        return other == one or other in self.parts[one] or (one and other == self.parents[one])


class Walk:
    """A log's entries, checked, and the steps along each edge, named by its lower node, and at each node: number, whether it goes up, state."""

    def __init__(self, walker, letter, log):
        if not log or len(log) % 3:
            raise Bad(f'a log has 3 bytes an entry, and one entry or more; here are {len(log)} bytes')
        if len(log) > LOG_BYTES:
            raise Bad(f'over {LOG_BYTES:,} bytes: no walk has more than 20,000 steps')
        self.entries = [(log[at] + 256 * log[at + 1], log[at + 2]) for at in range(0, len(log), 3)]
        self.check(walker, letter)
        self.edges, self.stays, self.used = {}, {}, set()
        for number, ((one, _), (other, state)) in enumerate(zip(self.entries, self.entries[1:]), 1):
            lower = max(one, other)
            if one != other:
                self.used.add(lower)
            if number <= ARROWS:
                (self.stays if one == other else self.edges).setdefault(lower, []).append((number, other < one, state))

    def check(self, walker, letter):
        for number, (node, state) in enumerate(self.entries):
            if node >= len(letter.symbols):
                raise Bad(f'entry {number}, from 0, is at node {node}; {len(letter.symbols) - 1} is the last')
            if state >= len(walker.states):
                raise Bad(f'entry {number}, from 0, has the state {state}; {len(walker.states) - 1} is the last')
            if number == 0 and node != 0:
                raise Bad(f'the first entry is at node {node}, and not at the root')
            if number and not letter.leads(self.entries[number - 1][0], node):
                raise Bad(f'entry {number}, from 0, is at node {node}, which is no step from node {self.entries[number - 1][0]}')

    @property
    def steps(self):
        return len(self.entries) - 1


# ---- SVG

def number(value):
    """With one digit behind the point, or none where that is 0."""
    return f'{round(value, 1) + 0:g}'


def points(*pairs):
    return ' '.join(f'{number(x)} {number(y)}' for x, y in pairs)


def words(text):
    """The text as SVG has it; characters that no XML may have are a question mark."""
    text = re.sub('[\0-\x08\x0b\x0c\x0e-\x1f\x7f\ufffe\uffff]', '?', text)
    return text.replace('&', '&amp;').replace('<', '&lt;').replace('>', '&gt;')


def short(name):
    return name if len(name) <= NAME else name[:NAME - 2] + '..'


def wide(text):
    """How many pixels the text takes, in a font whose characters are equally wide, or twice as wide."""
    return CHAR * sum(0 if unicodedata.combining(c) else 2 if unicodedata.east_asian_width(c) in 'WF' else 1 for c in text)


def line(kind, *pairs, width=1):
    return f'<path class="{kind}" stroke-width="{width}" d="M{points(pairs[0])} L{points(*pairs[1:])}"/>'


def said(kind, x, y, text, anchor='start'):
    return f'<text class="{kind}" x="{number(x)}" y="{number(y + 4)}" text-anchor="{anchor}">{words(text)}</text>'


def arrow(x, y, along, length=14):
    """An arrow with its middle at a point, along a direction of length 1."""
    dx, dy = along
    head, tail = (x + dx * length / 2, y + dy * length / 2), (x - dx * length / 2, y - dy * length / 2)
    side = lambda turn: (head[0] - 5 * dx - turn * 3 * dy, head[1] - 5 * dy + turn * 3 * dx)
    return line('walked', tail, head, width=1.5) + f'<path class="step" d="M{points(head, side(1), side(-1))} Z"/>'


def loop(x, y):
    """An arrow that comes back."""
    return (f'<path class="walked" stroke-width="1.5" d="M{points((x - 3, y - 4))} A 5 5 0 1 0 {points((x + 4, y - 3))}"/>'
            f'<path class="step" d="M{points((x - 1, y - 7), (x + 6, y - 5), (x + 2, y))} Z"/>')


def mark(kind, x, y):
    """The mark of the start, which points at the node on its left, or of the last entry."""
    if kind == 'start':
        return f'<path class="start" d="M{points((x - 6, y), (x + 5, y - 5), (x + 5, y + 5))} Z"/>'
    return f'<rect class="last" x="{number(x - 4.5)}" y="{number(y - 4.5)}" width="9" height="9"/>'


def picture(width, height, title, parts):
    size = f'width="{number(width)}" height="{number(height)}" viewBox="0 0 {number(width)} {number(height)}"'
    head = f'<svg xmlns="http://www.w3.org/2000/svg" {size} role="img">\n<title>{words(title)}</title>\n<style>{STYLE}</style>'
    paper = f'<rect class="paper" width="{number(width)}" height="{number(height)}"/>'
    return '\n'.join([head, paper, *parts, '</svg>', ''])


# ---- with names

class Named:
    """Where everything stands in a letter with names: nothing is drawn over another thing, as each part of the tree keeps its own room in every row.
    The rows are in turn those of the nodes and those of the edges below them; a room is a left and a right end in each row, from the node's middle."""

    def __init__(self, walker, letter, walk):
        self.letter, self.walk = letter, walk
        self.states = [short(name) for name in walker.states]
        self.names = [short(walker.names[symbol]) for symbol in letter.symbols]
        self.measure_rows()
        self.place_nodes()

    def beside(self, node):
        """The lines beside a node: kind and words."""
        lines = []
        if node == 0:
            lines.append(('start', f'start: {self.states[self.walk.entries[0][1]]}'))
        lines += [('stay', self.label(step)) for step in self.walk.stays.get(node, [])]
        if node == self.walk.entries[-1][0]:
            lines.append(('last', f'last: {self.states[self.walk.entries[-1][1]]}'))
        return lines

    def label(self, step):
        return f'{step[0]} {self.states[step[2]]}'

    def measure_rows(self):
        """How high each row of nodes and of edges is, and where it begins."""
        letter, levels = self.letter, max(self.letter.depths) + 1
        nodes, bands = [BOX] * levels, [0] * levels
        for node, depth in enumerate(letter.depths):
            nodes[depth] = max(nodes[depth], LINE * len(self.beside(node)))
            if node:
                bands[depth - 1] = max(bands[depth - 1], BAND, LINE * (len(self.walk.edges.get(node, [])) + 1))
        self.bands, self.tops, self.ends, y = bands, [], [], MARGIN
        for height, band in zip(nodes, bands):
            self.tops.append(y)
            self.ends.append(y + height)
            y += height + band
        self.height = y

    def half(self, node):
        return wide(self.names[node]) / 2 + 8

    def slots(self, lower, dx):
        """The steps along an edge that goes so far aside: for each the place of its arrow and of its words, from the upper node's middle; on the left
        of an edge to the left, on the right of one to the right."""
        steps = self.walk.edges.get(lower, [])
        dy = self.bands[self.letter.depths[lower] - 1]
        side, length = math.copysign(1, dx), math.hypot(dx, dy)
        away = side * 8 * length / dy
        for place, step in enumerate(steps):
            y = (dy - LINE * len(steps)) / 2 + LINE * (place + 0.5)
            x = dx * y / dy + away
            up = -1 if step[1] else 1
            yield step, (x, y), (up * dx / length, up * dy / length), x + side * (7 * abs(dx) / length + 5)

    def room(self, lower, dx):
        """The ends of what is drawn of an edge."""
        ends = [0, dx]
        for step, _, _, x in self.slots(lower, dx):
            ends += [x, x + math.copysign(wide(self.label(step)), dx)]
        return ends

    def place_nodes(self):
        rooms, self.aside = {}, {}
        for node in reversed(range(len(self.letter.symbols))):
            lines = [wide(text) + 24 for _, text in self.beside(node)]
            room = [(-self.half(node), self.half(node) + max(lines, default=0))]
            if self.letter.parts[node]:
                left, right = self.letter.parts[node]
                apart = max(a[1] - b[0] for a, b in zip(rooms[left], rooms[right])) / 2 + GAP
                self.aside[left], self.aside[right] = -apart, apart
                ends = self.room(left, -apart) + self.room(right, apart)
                room += [(min(ends), max(ends)), *joined(rooms.pop(left), rooms.pop(right), apart)]
            rooms[node] = room
        self.x = [MARGIN - min(low for low, _ in rooms[0])]
        for node in range(1, len(self.letter.symbols)):
            self.x.append(self.x[self.letter.parents[node]] + self.aside[node])
        self.width = self.x[0] + max(high for _, high in rooms[0]) + MARGIN

    def draw_edge(self, lower):
        upper, depth = self.letter.parents[lower], self.letter.depths[lower]
        x, y = self.x[upper], self.ends[depth - 1]
        used = lower in self.walk.used
        yield line('walked' if used else 'edge', (x, self.tops[depth - 1] + BOX), (x, y), (self.x[lower], self.tops[depth]), width=1)
        for step, (dx, dy), along, words_at in self.slots(lower, self.aside[lower]):
            yield arrow(x + dx, y + dy, along)
            yield said('step', x + words_at, y + dy, self.label(step), 'end' if self.aside[lower] < 0 else 'start')

    def draw_node(self, node):
        x, y, half = self.x[node], self.tops[self.letter.depths[node]], self.half(node)
        size = f'x="{number(x - half)}" y="{number(y)}" width="{number(2 * half)}" height="{BOX}" rx="5"'
        yield f'<g><title>node {node}</title><rect class="box" {size}/>{said("ink", x, y + BOX / 2, self.names[node], "middle")}</g>'
        if node == self.walk.entries[-1][0]:
            yield f'<rect class="ring" {size}/>'
        for place, (kind, text) in enumerate(self.beside(node)):
            at = (x + half + 10, y + BOX / 2 + LINE * place)
            yield loop(*at) if kind == 'stay' else mark(kind, *at)
            yield said('step' if kind == 'stay' else kind, at[0] + 12, at[1], text)

    def draw(self):
        for node in range(1, len(self.x)):
            yield from self.draw_edge(node)
        for node in range(len(self.x)):
            yield from self.draw_node(node)


def joined(left, right, apart):
    """The rooms of two parts, so far to the left and to the right of the node above them."""
    for row in range(max(len(left), len(right))):
        ends = [x - apart for x in (left[row] if row < len(left) else ())] + [x + apart for x in (right[row] if row < len(right) else ())]
        yield min(ends), max(ends)


# ---- without names

class Plain:
    """A large letter: a column for each leaf, the narrower the more there are, and a branch in the middle above its parts."""

    def __init__(self, letter, walk):
        self.letter, self.walk, self.x = letter, walk, [0] * len(letter.symbols)
        leaves = [node for node, parts in enumerate(letter.parts) if not parts]
        self.column = min(COLUMN, WIDEST / len(leaves))
        for place, node in enumerate(leaves):
            self.x[node] = MARGIN + self.column * place
        for node in reversed(range(len(letter.symbols))):
            if letter.parts[node]:
                self.x[node] = sum(self.x[part] for part in letter.parts[node]) / 2
        self.width = 2 * MARGIN + self.column * (len(leaves) - 1)
        self.height = 2 * MARGIN + LEVEL * max(letter.depths)

    def at(self, node):
        return self.x[node], MARGIN + LEVEL * self.letter.depths[node]

    def dot(self, node, kind, radius):
        x, y = self.at(node)
        return f'<circle class="{kind}" cx="{number(x)}" cy="{number(y)}" r="{number(radius)}"/>'

    def draw(self):
        thin = max(self.column / 8, 0.5)
        for node in range(1, len(self.x)):
            used = node in self.walk.used
            yield line('walked' if used else 'edge', self.at(self.letter.parents[node]), self.at(node), width=number(2 * thin if used else thin))
        visited = {node for node, _ in self.walk.entries}
        for node in range(len(self.x)):
            yield self.dot(node, 'step' if node in visited else 'ink', self.column / 3)
        yield self.dot(0, 'start', 7)
        yield self.dot(self.walk.entries[-1][0], 'last', 5)


# ---- the picture

def counted(count, what):
    return f'{count:,} {what}' + ('' if count == 1 else 's')


def notes(walker, letter, walk):
    """What is said below the tree."""
    yield f'{counted(walk.steps, "step")} on {counted(len(letter.symbols), "node")}'
    if len(letter.symbols) > NAMED:
        start, last = (f'node {node}, {short(list(walker.states)[state])}' for node, state in (walk.entries[0], walk.entries[-1]))
        yield f'green: start ({start}); orange: last ({last}); blue: where the walk was'
        yield f'names and arrows are drawn up to {NAMED} nodes'
    else:
        yield 'arrow: a step, its number and the state after it'
        if walk.steps > ARROWS:
            yield f'the steps after {ARROWS} have no arrow'


def draw(walker, symbols, log):
    letter = Letter(walker, symbols)
    walk = Walk(walker, letter, log)
    tree = Plain(letter, walk) if len(symbols) > NAMED else Named(walker, letter, walk)
    lines = list(notes(walker, letter, walk))
    y = tree.height + LINE
    below = [said('ink', MARGIN, y + LINE * place, text) for place, text in enumerate(lines)]
    width = max(tree.width, *(wide(text) + 2 * MARGIN for text in lines))
    return picture(width, y + LINE * len(lines), lines[0], [*tree.draw(), *below])


# ---- doors

def read_letter(walker, path):
    """The symbols of the one letter of a file."""
    with open(path, 'rb') as source:
        payload, nodes = letter(source.read(512), source)
        if source.read(1):
            raise Bad('more than one letter is in it')
    check_zeros(payload, [1, *range(4 + nodes, len(payload))])
    check_tree(walker, payload[4:4 + nodes])
    return payload[4:4 + nodes]


def read_log(path):
    with open(path, 'rb') as file:
        return file.read(LOG_BYTES + 3)


def write_picture(walker_path, letter_path, log_path, target):
    distinct(target, walker_path, letter_path, log_path)
    walker = of(walker_path, lambda: read_either(walker_path))
    symbols = of(letter_path, lambda: prefixed('letter ', lambda: read_letter(walker, letter_path)))
    text = of(log_path, lambda: draw(walker, symbols, read_log(log_path)))
    of(target, lambda: write_file(target, text.encode()))


def main(arguments):
    if arguments == ['--help']:
        sys.stdout.write(__doc__ + '\n')
        return
    if len(arguments) != 4:
        fail(2, __doc__)
    try:
        write_picture(*arguments)
    except Bad as reason:
        fail(1, f'draw.py: {reason}')


if __name__ == '__main__':
    main(sys.argv[1:])
