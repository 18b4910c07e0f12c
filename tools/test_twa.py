#!/usr/bin/env python3
"""Tests tools/twa.py as its users call it: both sides of each limit, and that bad input gets a line and a reason and leaves the output as
it was."""
import os, subprocess, sys, tempfile, unittest

HERE = os.path.dirname(os.path.abspath(__file__))
sys.path.insert(0, HERE)
from files import blocks

SAMPLES = os.path.join(HERE, '..', 'samples')
HEAD = ['states look done', 'symbols text annex then*', 'start look', 'final done']
OLD = b'what was there before'


def text(*lines, without=None):
    return '\n'.join([line for line in HEAD if line.split()[0] != without] + list(lines))


def comb(height):
    return 'then(text, ' * height + 'text' + ')' * height


def full(nodes):
    """A tree of so many nodes, an odd number, as low as can be."""
    left = (nodes - 1) // 2 | 1
    return f'then({full(left)}, {full(nodes - 1 - left)})' if nodes > 1 else 'annex'


def read(path):
    with open(path, 'rb') as file:
        return file.read()


class Doors(unittest.TestCase):
    def setUp(self):
        self.folder = tempfile.TemporaryDirectory()
        self.addCleanup(self.folder.cleanup)

    def path(self, name, data=None):
        path = os.path.join(self.folder.name, name)
        if data is not None:
            with open(path, 'wb') as file:
                file.write(data if isinstance(data, bytes) else data.encode())
        return path

    def run_twa(self, *words):
        run = subprocess.run([sys.executable, os.path.join(HERE, 'twa.py'), *words], capture_output=True, timeout=60)
        self.assertNotIn(b'Traceback', run.stderr)
        self.assertLess(len(run.stderr), 5000)
        return run.returncode, run.stdout, run.stderr.decode()

    def made(self, *words):
        """The output of a command that ends with 0."""
        target = self.path('out', OLD)
        status, _, said = self.run_twa(*words, target)
        self.assertEqual((status, said), (0, ''))
        self.assertEqual(self.leftovers(), [])
        return read(target)

    def refused(self, reason, *words):
        """A command that ends with 1, says this, and leaves its output as it was."""
        target = self.path('out', OLD)
        status, _, said = self.run_twa(*words, target)
        self.assertEqual(status, 1, said)
        self.assertIn(reason, said)
        self.assertEqual(self.leftovers(), [])
        self.assertEqual(read(target), OLD)

    def leftovers(self):
        return [name for name in os.listdir(self.folder.name) if name.startswith('.')]

    def told(self, reason, *words):
        status, out, said = self.run_twa(*words)
        self.assertEqual(status, 1, said)
        self.assertIn(reason, said)
        return out

    # ---- walkers

    def walker(self, lines):
        return self.made('walker', self.path('text', lines))

    def bad_walker(self, reason, lines):
        self.refused(reason, 'walker', self.path('text', lines))

    def test_samples(self):
        for name in ('example', 'annex'):
            sample = lambda file: os.path.join(SAMPLES, name, file)
            self.assertEqual(self.made('walker', sample('walker.txt')), read(sample('walker.blk')))
            self.assertEqual(self.made('letters', sample('walker.txt'), sample('letters.txt')), read(sample('letters.blk')))

    def test_states_and_symbols(self):
        names = lambda count: ' '.join(f'n{i}' for i in range(count))
        walker = lambda states, symbols: f'states {names(states)}\nsymbols {names(symbols)}\nstart\nfinal'
        self.assertEqual(self.walker(walker(24, 32))[:8], bytes([87, 24, 32, 0, 0, 0, 0, 0]))
        self.assertEqual(self.walker(walker(1, 1))[:3], bytes([87, 1, 1]))
        self.bad_walker('line 1: 25 names, where 1 to 24 may be', walker(25, 1))
        self.bad_walker('line 1: 0 names', walker(0, 1))
        self.bad_walker('line 2: 33 names, where 1 to 32 may be', walker(1, 33))
        self.bad_walker('line 2: 0 names', walker(1, 0))

    def test_rule_counts(self):
        rules = lambda count: text(*['rule text look any stay done'] * count)
        for count, size in [(0, 512), (97, 512), (98, 1024), (512, 3072)]:
            self.assertEqual(len(self.walker(rules(count))), size)
        self.bad_walker('line 517: more than 512 rules', rules(513))

    def test_rules(self):
        for rule in ['text look left up done', 'text look right up done', 'then look root left done', 'then look any right done', '1 1 2 1 0']:
            self.walker(text('rule ' + rule))
        for rule, reason in [
                ('text look root up done', 'the rule moves up'), ('text look any up done', 'the rule moves up'), ('then look any up done', 'the rule moves up'),
                ('text look left left done', 'the rule moves down at a leaf'), ('annex look any right done', 'the rule moves down at a leaf'),
                ('text look inside stay done', 'no place is called inside'), ('text look left jump done', 'no move is called jump'),
                ('text look 4 stay done', 'no place is called 4'), ('text look left 4 done', 'no move is called 4'),
                ('page look left up done', 'no symbol is called page'), ('text read left up done', 'no state is called read'),
                ('text look left up read', 'no state is called read'), ('3 0 1 1 0', 'no symbol is called 3'), ('0 2 1 1 0', 'no state is called 2'),
                ('0 0 1 1 2', 'no state is called 2'), ('text look left up', 'a rule has symbol, state, place, move and next state; here are 4 words'), ('text look left up done done', 'a rule has')]:
            self.bad_walker('line 5: ' + reason, text('rule ' + rule))

    def test_lines(self):
        for kind in ('states', 'symbols', 'start', 'final'):
            self.bad_walker(f'no line begins with {kind}', text(without=kind))
            self.bad_walker(f'line 5: a second line of {kind}', text(f'{kind} look'))
        self.bad_walker('no line begins with states', '')
        self.bad_walker('line 5: a line begins with', text('rules text look left up done'))
        self.bad_walker('line 4: the name a is there twice', text('states a b a', without='states'))
        self.bad_walker('line 4: the name a is there twice', text('symbols a b a*', without='symbols'))
        self.bad_walker('line 4: a state is there twice', text('start look 0', without='start'))
        self.bad_walker('line 4: no state is called read', text('final read', without='final'))
        for name in ('a*b', 'a(', '*', 'a**', 'a,b'):
            self.bad_walker('is no name', text(f'symbols {name}', without='symbols'))
        self.bad_walker('line 1: the name 1 is a number', 'states 1 0\nsymbols a\nstart\nfinal')
        for number in ('\u00b2', '9' * 5000, '-1', '1.0'):
            self.bad_walker('line 5: no state is called', text(f'rule text {number} left up done'))
        self.assertEqual(self.walker('\ufeff' + text().replace('\n', '\r\n')), self.walker(text()))

    def test_files(self):
        self.bad_walker('line 5: not UTF-8', text().encode() + b'\n\xff')
        self.refused('No such file', 'walker', self.path('nothing'))
        self.refused('Is a directory', 'walker', self.folder.name)
        good = self.path('text', text())
        self.refused('No such file', 'letters', good, self.path('nothing'))
        for target, reason in [(self.folder.name, 'Is a directory'), (self.path('no/out'), 'No such file'), ('/dev/full', 'No space'), (good, 'to be read')]:
            self.told(reason, 'walker', good, target)
        self.assertEqual(read(good), text().encode())
        for words in ([], ['walker'], ['walker', good], ['show'], ['what', good]):
            self.assertEqual(self.run_twa(*words)[0], 2)

    # ---- letters

    def letters(self, trees):
        return self.made('letters', self.path('text', text()), self.path('trees', trees))

    def bad_letters(self, reason, trees):
        self.refused(reason, 'letters', self.path('text', text()), self.path('trees', trees))

    def test_limits(self):
        self.assertEqual(len(self.letters(comb(64))), 512)
        self.bad_letters('line 1: the tree is higher than 64', comb(65))
        self.bad_letters('line 2: the tree is higher than 64', 'text\n' + 'then(' * 5000)
        for nodes, size in [(1, 512), (503, 512), (505, 1024), (4095, 4608)]:
            self.assertEqual(len(self.letters(full(nodes))), size)
        self.bad_letters('line 1: the tree has more than 4,096 nodes', full(4097))

    def test_trees(self):
        self.assertEqual(self.letters('2(0,1)# a comment\n\ntext\n')[:7], bytes([84, 0, 3, 0, 2, 0, 1]))
        for tree, reason in [
                ('then', 'then has two parts'), ('then text', 'then has two parts'), ('text(annex, annex)', 'text is a leaf symbol'),
                ('then(', 'the line ends inside the tree'), ('then(text', '"," should stand at the end'), ('then(text)', '"," should stand before )'),
                ('then(text,', 'the line ends inside'), ('then(text, annex', '")" should stand at the end'), ('then(text, annex, text)', '")" should stand before ,'),
                ('then()', 'a symbol should stand where ")"'), ('then(,)', 'a symbol should stand where ","'), ('(text)', 'a symbol should stand where "("'),
                ('then(text, annex))', 'the tree has ended before )'), ('text text', 'the tree has ended before text'), (',', 'a symbol should stand'),
                ('page', 'no symbol is called page'), ('3', 'no symbol is called 3'), ('then*(text, text)', 'no symbol is called then*')]:
            self.bad_letters('line 2: ' + reason, 'text\n' + tree)
        self.bad_letters('no tree is in it', '\n# nothing\n')
        self.bad_letters('line 1: not UTF-8', b'\xff')

    # ---- back

    def test_show_walker(self):
        file = self.walker(text('rule then look any right done', 'rule text look left up done'))
        status, out, _ = self.run_twa('show', self.path('file', file))
        self.assertEqual((status, self.walker(out)), (0, file))
        payload = lambda *edits: bytes(dict(edits).get(i, byte) for i, byte in enumerate(file[:508]))
        for damaged, reason in [
                (b'', 'refused=1 place=0'), (file[:511], 'refused=1 place=0'), (file + file, 'refused=2 place=1'), (file[:40] + b'\1' + file[41:], 'refused=2 place=0'),
                (blocks(payload((0, 85))), 'refused=3 place=0'), (blocks(payload((1, 25))), 'refused=4 place=1'), (blocks(payload((2, 0))), 'refused=4 place=2'),
                (blocks(payload((5, 3))), 'refused=4 place=4'), (blocks(payload((4, 98))), 'refused=5 place=2'), (blocks(payload((3, 1))), 'refused=6 place=3'),
                (blocks(payload((30, 1))), 'refused=6 place=30'), (blocks(payload((12, 4))), 'refused=7 place=12'), (blocks(payload((28, 4))), 'refused=8 place=1'),
                (blocks(payload((27, 3))), 'refused=9 place=1')]:
            self.told('walker ' + reason, 'show', self.path('file', damaged))

    def test_show_letters(self):
        file = self.letters('text\n' + full(505) + '\nthen(text, annex)')
        self.assertEqual(len(file), 2048)
        status, out, _ = self.run_twa('show', self.path('file', file))
        self.assertEqual((status, out.split(b'\n')[0], out.split(b'\n')[2:]), (0, b'0', [b'2 0 1', b'']))
        letter = lambda head, *symbols: blocks(bytes([*head[:2], *head[2].to_bytes(2, 'little'), *symbols]))
        for end, reason in [
                (file[:300], 'the file stops inside a letter, 300 bytes'), (file[512:1300], 'the file stops inside a letter of 1024 bytes, 788 bytes'),
                (file[:20] + b'\1' + file[21:], 'refused=2 place=0'), (file[512:1100] + b'\1' + file[1101:1536], 'refused=2 place=1'), (letter((87, 0, 1), 0), 'refused=3'),
                (letter((84, 0, 0)), 'refused=4 place=2'), (letter((84, 0, 4097)), 'refused=4 place=2'), (letter((84, 1, 1), 0), 'refused=6 place=1'),
                (letter((84, 0, 1), 0, 1), 'refused=6 place=5')]:
            out = self.told('letter 1, from 0: ' + reason, 'show', self.path('file', file[:512] + end))
            self.assertEqual(out.split(b'\n')[0], b'0')

    def test_plan(self):
        plan = lambda *rows: ['plan', self.path('text', text()), self.path('plan', bytes(rows))]
        self.assertEqual(self.run_twa(*plan(0, 255, 255, 1, 255, 255, 2, 0, 1)), (0, b'then(text, annex)\n', ''))
        doubling = lambda rows: [0, 255, 255] + [byte for row in range(rows - 1) for byte in (2, row, row)]
        self.assertEqual(self.run_twa(*plan(*doubling(11)))[1].count(b'text'), 1024)
        self.told('a tree of 8,191 nodes, of height 12', *plan(*doubling(13)))
        self.told('a tree of 36,893,488,147,419,103,231 nodes, of height 64', *plan(*doubling(65)))
        for rows, reason in [
                ([], '1 to 65 rows'), ([0, 255], '1 to 65 rows'), (doubling(66), '1 to 65 rows'), ([3, 255, 255], 'row 0: no symbol 3'), ([0, 255, 255, 2, 0, 1], 'not both earlier'),
                ([0, 255, 255, 2, 1, 0], 'not both earlier'), ([2, 255, 255], 'row 0: a leaf symbol'), ([0, 0, 0], 'row 0: a leaf symbol'), ([0, 255, 255, 2, 0, 255], 'not both earlier')]:
            self.told(reason, *plan(*rows))

    def test_trees_of_letters(self):
        trees = lambda walker, file: ['trees', walker, self.path('file', file)]
        named = self.path('text', text())
        numbered = self.path('walker', self.made('walker', named))
        list_of = 'then(text, then(annex, text))\ntext\n' + full(505) + '\n'
        file = self.letters(list_of)
        self.assertEqual(self.run_twa(*trees(named, file)), (0, list_of.encode(), ''))
        self.assertEqual(self.run_twa(*trees(numbered, file))[1].split(b'\n')[:2], [b'2(0, 2(1, 0))', b'0'])
        letter = lambda *symbols: blocks(bytes([84, 0, *len(symbols).to_bytes(2, 'little'), *symbols]))
        for nodes, reason in [
                ([3], 'refused=10 place=0'), ([2, 0, 9, 0], 'refused=10 place=2'), ([0, 0], 'refused=11 place=1'), ([2, 0], 'refused=11 place=2'),
                ([2] * 65 + [0] * 66, 'refused=12 place=65'), ([2, 0] * 65 + [0], 'refused=12 place=129')]:
            out = self.told('letter 1, from 0: ' + reason, *trees(named, letter(2, 0, 1) + letter(*nodes)))
            self.assertEqual(out, b'then(text, annex)\n')
        self.told('walker refused=4 place=1', *trees(self.path('bad', blocks(b'W')), letter(0)))
        self.told('line 1: a line begins with', *trees(self.path('bad', 'walker'), letter(0)))

    def test_lost_output(self):
        script = os.path.join(HERE, 'twa.py')
        file = os.path.join(SAMPLES, 'annex', 'walker.blk')
        for redirection in ('> /dev/full', '>&-'):
            run = subprocess.run(f'"{sys.executable}" "{script}" show "{file}" {redirection}', shell=True, capture_output=True)
            self.assertEqual(run.returncode, 1)
            self.assertIn(b'standard output', run.stderr)
            self.assertNotIn(b'Traceback', run.stderr)


if __name__ == '__main__':
    unittest.main()
