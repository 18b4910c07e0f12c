#!/usr/bin/env python3
"""Tests tools/draw.py as its users call it: that nothing in a picture lies over another thing, both sides of each limit, and that a log
that is no walk on the letter gets a reason and leaves the output as it was."""
import os, random, subprocess, sys, tempfile, unittest
import xml.etree.ElementTree as xml

HERE = os.path.dirname(os.path.abspath(__file__))
ROOT = os.path.join(HERE, '..')
sys.path.insert(0, HERE)
from files import letter_file

WALKER = 'states look next done\nsymbols text annex then*\nstart look\nfinal done'
OLD = b'what was there before'
SPACE = '{http://www.w3.org/2000/svg}'


def read(path):
    with open(path, 'rb') as file:
        return file.read()


def tree(branches, chance):
    """The symbols of a tree by chance with so many branches."""
    if branches == 0:
        return [chance.randrange(2)]
    left = chance.randrange(branches)
    return [2] + tree(left, chance) + tree(branches - 1 - left, chance)


def log(*entries):
    return b''.join(bytes([node % 256, node // 256, state]) for node, state in entries)


def neighbours(symbols):
    """The nodes that a step leads to from each node."""
    leads, missing = [], [0]
    for node, symbol in enumerate(symbols):
        parent = missing.pop()
        leads.append({node, parent})
        leads[parent].add(node)
        missing += [node] * (2 * (symbol == 2))
    return [sorted(nodes) for nodes in leads]


def walk(symbols, steps, chance):
    """The log of a walk by chance."""
    entries, leads = [(0, 0)], neighbours(symbols)
    for _ in range(steps):
        entries.append((chance.choice(leads[entries[-1][0]]), chance.randrange(3)))
    return log(*entries)


# ---- what is drawn where

def text_room(element):
    """The left, the upper, the right and the lower end of a text."""
    x, y, width = float(element.get('x')), float(element.get('y')) - 4, 7.2 * len(element.text)
    left = x - {'start': 0, 'middle': width / 2, 'end': width}[element.get('text-anchor')]
    return left, y - 6, left + width, y + 6


def box_room(element):
    x, y, width, height = (float(element.get(name)) for name in ('x', 'y', 'width', 'height'))
    return x, y, x + width, y + height


def lines(element):
    """The straight lines of a path with more points than an arrow has."""
    numbers = [float(word) for word in element.get('d').replace('M', ' ').replace('L', ' ').split()]
    points = list(zip(numbers[::2], numbers[1::2]))
    return list(zip(points, points[1:])) if len(points) > 2 else []


def overlap(one, other):
    return one[0] < other[2] and other[0] < one[2] and one[1] < other[3] and other[1] < one[3]


def crosses(line, room):
    """Whether a line goes through a room: whether a part of it is between the ends both ways."""
    first, last = 0, 1
    for start, end, low, high in zip(*line, room[:2], room[2:]):
        if start == end:
            if not low < start < high:
                return False
        else:
            ends = sorted(((low - start) / (end - start), (high - start) / (end - start)))
            first, last = max(first, ends[0]), min(last, ends[1])
    return first < last


class Picture:
    def __init__(self, svg):
        self.root = xml.fromstring(svg)
        inside = {element for group in self.root.iter(SPACE + 'g') for element in group}
        self.boxes = [box_room(element) for element in self.root.iter(SPACE + 'rect') if element.get('class') == 'box']
        self.labels = [text_room(element) for element in self.root.iter(SPACE + 'text') if element not in inside]
        self.texts = [element.text for element in self.root.iter(SPACE + 'text')]
        self.edges = [line for element in self.root.iter(SPACE + 'path') if 'A' not in element.get('d') and 'Z' not in element.get('d') for line in lines(element)]
        self.size = float(self.root.get('width')), float(self.root.get('height'))


class Draw(unittest.TestCase):
    def setUp(self):
        self.folder = tempfile.TemporaryDirectory()
        self.addCleanup(self.folder.cleanup)
        self.target = self.path('out', OLD)
        self.walker = self.path('walker', WALKER)

    def path(self, name, data=None):
        path = os.path.join(self.folder.name, name)
        if data is not None:
            with open(path, 'wb') as file:
                file.write(data if isinstance(data, bytes) else data.encode())
        return path

    def run_draw(self, *words):
        run = subprocess.run([sys.executable, os.path.join(HERE, 'draw.py'), *words], capture_output=True, timeout=60)
        self.assertNotIn(b'Traceback', run.stderr)
        return run.returncode, run.stderr.decode()

    def made(self, letter, walk, walker=None):
        words = [walker or self.walker, self.path('letter', letter), self.path('log', walk), self.target]
        self.assertEqual(self.run_draw(*words), (0, ''))
        first = read(self.target)
        self.assertEqual(self.run_draw(*words), (0, ''))
        self.assertEqual(read(self.target), first)
        return first

    def drawn(self, symbols, walk, walker=None):
        return Picture(self.made(letter_file(symbols), walk, walker))

    def refused(self, reason, letter, walk, walker=None):
        status, said = self.run_draw(walker or self.walker, self.path('letter', letter), self.path('log', walk), self.target)
        self.assertEqual(status, 1)
        self.assertTrue(said.startswith('draw.py: ') and said.count('\n') == 1)
        self.assertIn(reason, said)
        self.assertEqual(read(self.target), OLD)

    # ---- pictures

    def test_example(self):
        """The stored log is the walk that docs/EXAMPLE.md follows (tools/check has the picture)."""
        look, following, need, expect, done = range(5)
        walked = log((0, look), (1, look), (0, following), (2, look), (3, look), (2, need), (4, expect), (5, expect), (4, following), (6, look), (4, done), (2, done), (0, done))
        self.assertEqual(read(os.path.join(ROOT, 'crates/trace/stdout')), walked)
        texts = self.drawn([3, 0, 3, 1, 3, 2, 0], walked, os.path.join(ROOT, 'samples/annex/walker.txt')).texts
        for text in 'start: look', '1 look', '2 next', '5 need', '6 expect', '12 done', 'last: done', '12 steps on 7 nodes':
            self.assertEqual(texts.count(text), 1)

    def test_words(self):
        texts = self.drawn([2, 0, 1], log((0, 0), (1, 1), (0, 2), (0, 0), (2, 1))).texts
        for text in 'then', 'text', 'annex', 'start: look', '1 next', '2 done', '3 look', '4 next', 'last: next', '4 steps on 3 nodes':
            self.assertEqual(texts.count(text), 1)
        self.assertIn('last: look', self.drawn([1], log((0, 0))).texts)

    def test_nothing_over_another(self):
        for seed in range(60):
            chance = random.Random(seed)
            symbols = tree(chance.randrange(24), chance)
            picture = self.drawn(symbols, walk(symbols, chance.randrange(100), chance))
            rooms = picture.boxes + picture.labels
            self.assertEqual(len(picture.boxes), len(symbols))
            for place, room in enumerate(rooms):
                self.assertTrue(room[0] >= 0 and room[1] >= 0 and room[2] <= picture.size[0] and room[3] <= picture.size[1])
                self.assertFalse(any(overlap(room, other) for other in rooms[:place]), f'seed {seed}')
            for room in picture.labels:
                self.assertFalse(any(crosses(line, room) for line in picture.edges), f'seed {seed}')

    def test_limits(self):
        chance = random.Random(1)
        for branches, named in (49, True), (50, False):
            symbols = tree(branches, chance)
            picture = self.drawn(symbols, walk(symbols, 30, chance))
            self.assertEqual(len(picture.boxes), len(symbols) if named else 0)
            self.assertEqual('names and arrows are drawn up to 100 nodes' in picture.texts, not named)
        for steps, all_drawn in (200, True), (201, False):
            texts = self.drawn([2, 0, 1], walk([2, 0, 1], steps, chance)).texts
            self.assertEqual('the steps after 200 have no arrow' in texts, not all_drawn)
            self.assertEqual(sum(text.startswith('201 ') for text in texts), 0 if all_drawn else 1)
            self.assertTrue(any(text.startswith('200 ') for text in texts))

    def test_largest(self):
        chance = random.Random(2)
        spine = lambda height: [2] * height + [0] * (height + 1)
        for symbols in tree(40, chance), spine(64), [2, 0] * 64 + [1], spine(49):
            picture = self.drawn(symbols, walk(symbols, 20000, chance))
            self.assertLess(max(picture.size), 8000)
        full = lambda height: [2] + full(height - 1) * 2 if height else [0]
        svg = self.made(letter_file(full(11)), walk(full(11), 20000, chance))
        self.assertLess(len(svg), 1000000)
        self.assertLess(max(Picture(svg).size), 2000)

    def test_names(self):
        names = ['<a&b>', '"c\'d"', 'x' * 40, '\u6f22\u5b57', '\u00e9\u0301', '\x01\x7f', 'y' * 24]
        walker = self.path('names', f'states {" ".join(names)}\nsymbols {" ".join(name + ("*" if name == names[0] else "") for name in names)}\nstart\nfinal')
        texts = self.drawn([0, 2, 5], log((0, 0), (1, 1), (0, 2), (2, 3), (0, 4), (0, 5), (0, 6)), walker).texts
        for text in '<a&b>', 'start: <a&b>', '1 "c\'d"', '2 ' + 'x' * 22 + '..', '3 \u6f22\u5b57', '4 \u00e9\u0301', '5 ??', '6 ' + 'y' * 24:
            self.assertIn(text, texts)

    def test_walker_file(self):
        sample = os.path.join(ROOT, 'samples/annex/walker.blk')
        texts = self.drawn([3, 0, 2], log((0, 0), (1, 4)), sample).texts
        for text in '3', '0', '2', 'start: 0', '1 4', 'last: 4':
            self.assertIn(text, texts)

    # ---- what is refused

    def test_no_walk(self):
        letter = letter_file([2, 0, 2, 0, 1])
        for data, reason in [(b'', 'here are 0 bytes'), (b'\0', 'here are 1 bytes'), (bytes(4), 'here are 4 bytes'), (log((5, 0)), 'entry 0, from 0, is at node 5; 4 is the last'),
                             (log((0, 0), (256, 0)), 'entry 1, from 0, is at node 256'), (log((0, 3)), 'entry 0, from 0, has the state 3; 2 is the last'),
                             (log((1, 0)), 'the first entry is at node 1, and not at the root'), (log((0, 0), (3, 0)), 'at node 3, which is no step from node 0'),
                             (log((0, 0), (2, 0), (1, 0)), 'entry 2, from 0, is at node 1, which is no step from node 2'), (log(*[(0, 0)] * 20002), 'over 60,003 bytes')]:
            self.refused(reason, letter, data)
        self.made(letter, log(*[(0, 0)] * 20001))

    def test_no_letter(self):
        walked = log((0, 0))
        for letter, reason in [(b'', 'the file stops inside a letter'), (bytes(512), 'refused=2 place=0'), (letter_file([0], kind=87), 'refused=3 place=0'),
                               (letter_file([0]) * 2, 'more than one letter'), (letter_file([3]), 'refused=10 place=0'), (letter_file([0, 0]), 'refused=11 place=1'),
                               (letter_file([2]), 'refused=11 place=1'), (letter_file([2] * 65 + [0] * 66), 'refused=12 place=65'),
                               (letter_file([0], count=0), 'refused=4 place=2'), (letter_file([0, 1], count=1), 'refused=6 place=5')]:
            self.refused(reason, letter, walked)
        self.refused('line 1: a line begins with', letter_file([0]), walked, self.path('bad', 'nothing'))
        self.refused('walker refused=2', letter_file([0]), walked, self.path('bad', b'W' + bytes(511)))

    def test_doors(self):
        letter, walked = self.path('letter', letter_file([0])), self.path('log', log((0, 0)))
        for words in [], [self.walker], [self.walker, letter, walked], [self.walker, letter, walked, self.target, 'more']:
            self.assertEqual(self.run_draw(*words)[0], 2)
        for words, reason in [(['none', letter, walked, self.target], 'none: No such file'), ([self.walker, 'none', walked, self.target], 'none: No such file'),
                              ([self.walker, letter, 'none', self.target], 'none: No such file'), ([self.walker, letter, walked, walked], 'to be read'),
                              ([self.walker, letter, walked, self.path('no/out')], 'No such file'), ([self.walker, letter, walked, '/dev/full'], 'No space')]:
            status, said = self.run_draw(*words)
            self.assertEqual(status, 1)
            self.assertIn(reason, said)
        self.assertEqual((read(walked), read(self.target)), (log((0, 0)), OLD))
        self.assertEqual(self.run_draw('--help'), (0, ''))


if __name__ == '__main__':
    unittest.main()
