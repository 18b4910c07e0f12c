#!/usr/bin/env python3
"""Tests tools/example, tools/convert, tools/compose and tools/watch with stand-ins for the toolchain and the program, in a folder of its own: what is missing,
and that what stood in the file to write stays where nothing was written."""
import os, shutil, subprocess, tempfile, unittest

HERE = os.path.dirname(os.path.abspath(__file__))
# Writes what it read behind the words made of; says what stands in words.
PROGRAM = '''#!/bin/sh
printf 'made of ' && cat
[ ! -e words ] || cat words >&2
[ ! -e status ] || exit "$(cat status)"
'''
# Says that it runs the program, which then ends as it likes.
TOOLCHAIN = '''#!/bin/sh
[ "$(pwd)" = "$ROOT/project/crates/{0}" ] && [ "$*" = run ] || exit 1
echo 'rt: running out/{0}; to give it other input, run that file yourself' >&2
exit 7
'''


class Writer:
    name = output = program = None
    inputs, made = ['a walker'], 'made of a walker'

    def setUp(self):
        folder = tempfile.TemporaryDirectory()
        self.addCleanup(folder.cleanup)
        self.root = folder.name
        program = self.program or self.name
        made = f'project/crates/{program}/out/{program}'
        for name, content in [('rt', TOOLCHAIN.format(program)), (made, PROGRAM), ('project/target/bin/' + program, 'an earlier program')]:
            self.write(name, content)
            os.chmod(os.path.join(self.root, name), 0o755)
        self.write(f'project/crates/{program}/src/main.rt', '')
        os.makedirs(os.path.join(self.root, 'project/tools'))
        for script in self.name, 'writer', 'program':
            shutil.copy(os.path.join(HERE, script), os.path.join(self.root, 'project/tools', script))
        self.write('mine/a walker', 'a walker')
        self.write('mine/a text', 'a text')
        self.write('mine/a file', 'old')

    def write(self, name, content):
        path = os.path.join(self.root, name)
        os.makedirs(os.path.dirname(path), exist_ok=True)
        with open(path, 'w') as file:
            file.write(content)

    def run_script(self, *words):
        """The status, what was said, and what stands in the file to write."""
        environment = dict(os.environ, PATH=self.root + ':' + os.environ['PATH'], ROOT=self.root)
        run = subprocess.run([self.root + '/project/tools/' + self.name, *words], capture_output=True, text=True, env=environment,
                             cwd=os.path.join(self.root, 'mine'), timeout=60)
        self.printed = run.stdout
        with open(os.path.join(self.root, 'mine/a file'), encoding='latin-1') as file:
            return run.returncode, run.stderr, file.read()

    def tearDown(self):
        self.assertEqual(self.printed, '')

    def test_written(self):
        self.assertEqual(self.run_script(*self.inputs, 'a file'), (0, '', self.made))

    def test_none(self):
        self.write('mine/words', 'walker refused=1 place=0\n')
        self.assertEqual(self.run_script(*self.inputs, 'a file'), (1, f'tools/{self.name}: walker refused=1 place=0\n', 'old'))

    def test_failure(self):
        self.write('mine/status', '3')
        self.assertEqual(self.run_script(*self.inputs, 'a file'), (1, f'tools/{self.name}: the program failed (3)\n', 'old'))

    def test_missing(self):
        for missing in self.inputs:
            status, said, left = self.run_script(*['none' if name == missing else name for name in self.inputs], 'a file')
            self.assertEqual((status, left), (1, 'old'))
            self.assertIn('none: there is no such file', said)
        status, said, left = self.run_script(*self.inputs, 'none/file')
        self.assertEqual((status, left), (1, 'old'))
        self.assertIn('none/file: the file could not be written', said)

    def test_words(self):
        for words in [], self.inputs, self.inputs + ['a file', 'another']:
            status, said, left = self.run_script(*words)
            self.assertEqual((status, left), (2, 'old'))
            self.assertIn(f'tools/{self.name} WALKER {self.output}:', said)


class Example(Writer, unittest.TestCase):
    name, output = 'example', 'LETTER'


class Convert(Writer, unittest.TestCase):
    name, output = 'convert', 'FORM'


class Compose(Writer, unittest.TestCase):
    name, output = 'compose', 'TEXT LETTER'
    inputs, made = ['a walker', 'a text'], 'made of \x08\0a walkera text'

    def test_long_walker(self):
        self.write('mine/a walker', 'w' * 4000)
        self.assertEqual(self.run_script(*self.inputs, 'a file'), (0, '', 'made of \x01\x0c' + 'w' * 3073 + 'a text'))


class Watch(Writer, unittest.TestCase):
    name, output, program = 'watch', 'LETTER LOG [BUDGET]', 'trace'
    inputs, made = ['a walker', 'a text'], 'made of \x08\0\x20Na walkera text'

    def test_answer(self):
        for answer in 'passed steps=12', 'stuck steps=0', 'circling steps=6', 'spent steps=20000':
            self.write('mine/words', f'trace: {answer}\n')
            self.assertEqual(self.run_script(*self.inputs, 'a file'), (0, '', self.made))
            self.assertEqual(self.printed, answer + '\n')
            self.printed = ''
            self.assertEqual(self.run_script(*self.inputs, 'none/file')[0], 1)

    def test_no_answer(self):
        for words in 'trace: refused=20 file=2 place=0', 'trace: output lost', 'trace: input cut off':
            self.write('mine/words', words + '\n')
            self.assertEqual(self.run_script(*self.inputs, 'a file'), (1, f'tools/watch: {words}\n', 'old'))

    def test_budget(self):
        for budget, told in ('0', '\0\0'), ('1', '\x01\0'), ('300', ',\x01'), ('20001', '!N'), ('65536', '\xff\xff'), ('9' * 30, '\xff\xff'):
            self.assertEqual(self.run_script(*self.inputs, 'a file', budget), (0, '', self.made.replace('\x20N', told)))
        for budget in '', '-1', '+1', '1x', '0x10', '007', '1 2', '1.5':
            status, said, _ = self.run_script(*self.inputs, 'a file', budget)
            self.assertEqual(status, 2)
            self.assertIn('tools/watch WALKER LETTER LOG [BUDGET]:', said)
        self.assertEqual(self.run_script(*self.inputs, 'a file', '1', '2')[0], 2)

    def test_long_files(self):
        self.write('mine/a walker', 'w' * 4000)
        self.write('mine/a text', 'l' * 5000)
        self.assertEqual(self.run_script(*self.inputs, 'a file'), (0, '', 'made of \x01\x0c\x20N' + 'w' * 3073 + 'l' * 4609))


if __name__ == '__main__':
    unittest.main()
