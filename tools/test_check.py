#!/usr/bin/env python3
"""Tests tools/check in a copy of the project: that it passes what is stored, and names each file that was changed, added or left out; and
tools/quotations and tools/names, on documents of its own."""
import os, shutil, subprocess, tempfile, unittest

HERE = os.path.dirname(os.path.abspath(__file__))
ROOT = os.path.join(HERE, '..')
COPIED = ['tools', 'samples', 'crates/cases', 'crates/report_cases', 'crates/witness_cases', 'crates/canonical_cases', 'crates/markup_cases',
          'crates/watch_cases', 'crates/logs_cases', 'crates/growth_cases', 'crates/example', 'crates/convert', 'crates/compose', 'crates/trace']


class Check(unittest.TestCase):
    def setUp(self):
        folder = tempfile.TemporaryDirectory()
        self.addCleanup(folder.cleanup)
        self.root = folder.name
        for name in COPIED:
            shutil.copytree(os.path.join(ROOT, name), self.path(name))
        os.mkdir(self.path('docs'))
        shutil.copy(os.path.join(ROOT, 'docs/walk.svg'), self.path('docs'))

    def path(self, name):
        return os.path.join(self.root, name)

    def check(self, *parts):
        run = subprocess.run([self.path('tools/check'), *parts], capture_output=True, text=True, timeout=600)
        return run.returncode, run.stdout, run.stderr

    def change(self, name):
        with open(self.path(name), 'r+b') as file:
            first = file.read(1)
            file.seek(0)
            file.write(bytes([first[0] ^ 1]))

    def test_in_order(self):
        self.assertEqual(self.check('stored'), (0, 'stored\ntools/check: all in order\n', ''))

    def test_differences(self):
        changed = ['crates/cases/stdin', 'crates/cases/stdout', 'crates/report_cases/stdout', 'crates/report_cases/data/07.letters',
                   'crates/report_cases/data/38.walker', 'crates/witness_cases/stdin', 'crates/canonical_cases/stdout', 'crates/markup_cases/stdin',
                   'crates/watch_cases/stdout', 'crates/logs_cases/stdout', 'crates/growth_cases/stdout', 'crates/convert/stdout', 'crates/compose/stdout', 'crates/trace/stdin', 'docs/walk.svg',
                   'samples/annex/walker.blk', 'samples/example/letters.blk']
        for name in changed:
            self.change(name)
        os.remove(self.path('crates/report_cases/data/11.walker'))
        shutil.copy(self.path('crates/report_cases/data/12.walker'), self.path('crates/report_cases/data/more.walker'))
        status, out, said = self.check('stored')
        self.assertEqual((status, out), (1, 'stored\n'))
        for name in changed + ['11.walker', 'more.walker']:
            self.assertIn(name, said)
        # the stored letter of `example` is the first of the one sample's, and the walker of `convert`, of `compose` and of `trace` the other's
        self.assertEqual(said.count('FAILED'), 19)

    def test_maker_fails(self):
        with open(self.path('tools/make_cases.py'), 'a') as file:
            file.write('raise SystemExit("a reason")\n')
        status, _, said = self.check('stored')
        self.assertEqual(status, 1)
        self.assertIn('a reason', said)

    def write(self, name, *lines):
        os.makedirs(os.path.dirname(self.path(name)), exist_ok=True)
        with open(self.path(name), 'w') as file:
            file.write('\n'.join(lines) + '\n')

    def quotations(self, *comment):
        """What is said of a comment, beside documents that stand here."""
        self.write('docs/SOURCES.md', '# Sources', '', '- The first sentence, of `two` parts; its end.', '- Another.', '', '| 1 | a line | of a table |', '', '- **Lemma 1**. A law.')
        self.write('docs/DECISIONS.md', '## A title', '', '- **A point.** Its text.')
        self.write('docs/ARCHITECTURE.md', '"Another", by the paper\'s Lemma 1.')
        self.write('crates/one/specs/One.antt', 'module One where', '', *comment, 'x : "no comment"')
        status, _, said = self.check('sources')
        self.assertEqual(status, 1 if said else 0)
        return said

    def test_quotations(self):
        for comment in (['-- "first sentence, of two', '  -- parts; its end."'], ['-- "The first .. parts .. end"'], ['-- "a line"; at "of a table"; Lemma 1'],
                        ['-- "A title", "a point"'], ['-- "another\\n"']):
            self.assertEqual(self.quotations(*comment), '')
        for comment in (['-- "sentence first"'], ['-- "The first .. end .. parts"'], ['-- "The first .. another"'], ['-- "nother"'], ['-- "two part"'],
                        ['-- "Another'], ['-- "Its text"']):
            self.assertIn('One.antt:3: not in docs/SOURCES.md: "', self.quotations(*comment))
        self.assertIn('One.antt:4: not in docs/SOURCES.md: Lemma 2', self.quotations('-- of the paper:', '-- Lemma 2, Lemma 1'))

    def test_names(self):
        self.write('crates/one/specs/One.antt', '-- gone', 'pub has-law : law')
        self.write('crates/one/src/lib.rt', 'fn code() {}')
        self.write('crates/one/must-fail/wrong.edit', '')
        self.write('docs/ARCHITECTURE.md', '`one` `One`: `One.has-law`, `has-law`, `one::code`, `wrong`; `crates/one/src/lib.rt` `must-fail/`, `walker.blk`, `a b`')
        self.assertEqual(self.check('map')[0], 0)
        self.write('crates/one/proofs/Laws.antt', 'pub lemma : law')
        self.write('docs/ARCHITECTURE.md', '| `one` | `code` | `One` | `proofs/Laws.lemma` |')
        self.assertEqual(self.check('map')[0], 0)
        self.write('docs/ARCHITECTURE.md', '| `one` | `code` | `proofs/One` | `Laws.lemma` |')
        self.assertIn('1: proofs/One is in specs/One.antt\ndocs/ARCHITECTURE.md:1: Laws.lemma is in proofs/Laws.antt', self.check('map')[2])
        self.write('docs/ARCHITECTURE.md', '`two`', '`One.code` `One.gone` `gone`', '`one::coded`, `crates/two/src/lib.rt`')
        status, _, said = self.check('map')
        self.assertEqual(status, 1)
        for place in ('1: there is no two', '2: there is no One.code', '2: there is no One.gone', '2: there is no gone', '3: there is no one::coded', '3: there is no crates/two'):
            self.assertIn('docs/ARCHITECTURE.md:' + place, said)

    def test_parts(self):
        for parts in (['nothing'], [''], ['stored', 'stored doors'], ['--help']):
            status, out, said = self.check(*parts)
            self.assertEqual((status, out), (2, ''))
            self.assertIn('the parts are stored', said)


if __name__ == '__main__':
    unittest.main()
