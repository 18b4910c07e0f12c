#!/usr/bin/env python3
"""Tests tools/program and tools/staticlib with a stand-in for the toolchain, in a folder of its own: where it is called, what is copied, and that
nothing is where it fails."""
import os, shutil, subprocess, tempfile, unittest

HERE = os.path.dirname(os.path.abspath(__file__))
# Builds what the words ask for, of the name of the folder it is called in; fails where there is a file `wrong`.
TOOLCHAIN = '''#!/bin/sh
name=$(basename "$(pwd)")
echo "said by rt of $*"
[ ! -e wrong ] || exit 3
mkdir -p out
case $* in
run) echo made >out/$name; echo "rt: running out/$name; to give it other input, run that file yourself"; cat; exit 1 ;;
lib) echo made >out/lib$name.a ;;
*) exit 2 ;;
esac
'''


class Build(unittest.TestCase):
    def setUp(self):
        folder = tempfile.TemporaryDirectory()
        self.addCleanup(folder.cleanup)
        self.root = folder.name
        for name, content in [('rt', TOOLCHAIN), ('project/crates/one/src/main.rt', ''), ('project/crates/two/src/lib.rt', ''), ('project/crates/two_c/src/lib.rt', '')]:
            self.write(name, content)
        os.chmod(os.path.join(self.root, 'rt'), 0o755)
        os.mkdir(os.path.join(self.root, 'project/tools'))
        for script in 'program', 'staticlib':
            shutil.copy(os.path.join(HERE, script), os.path.join(self.root, 'project/tools', script))

    def write(self, name, content):
        path = os.path.join(self.root, name)
        os.makedirs(os.path.dirname(path), exist_ok=True)
        with open(path, 'w') as file:
            file.write(content)

    def run_script(self, *words):
        environment = dict(os.environ, PATH=self.root + ':' + os.environ['PATH'])
        run = subprocess.run([self.root + '/project/tools/' + words[0], *words[1:]], capture_output=True, text=True, env=environment, cwd=self.root, timeout=60)
        self.assertEqual(run.stdout, '')
        return run.returncode, run.stderr

    def made(self, name):
        try:
            with open(os.path.join(self.root, 'project/target', name)) as file:
                return file.read()
        except FileNotFoundError:
            return None

    def test_built(self):
        for words, name in [(('program', 'one'), 'bin/one'), (('staticlib', 'two'), 'staticlib/libtwo.a')]:
            for _ in range(2):
                self.assertEqual(self.run_script(*words), (0, ''))
                self.assertEqual(self.made(name), 'made\n')
                self.write('project/target/' + name, 'an earlier one')

    def test_not_built(self):
        for words, crate, name in [(('program', 'one'), 'one', 'bin/one'), (('staticlib', 'two'), 'two_c', 'staticlib/libtwo.a')]:
            self.write(f'project/crates/{crate}/wrong', '')
            status, said = self.run_script(*words)
            self.assertEqual((status, self.made(name)), (1, None))
            self.assertIn('said by rt', said)

    def test_words(self):
        for words in ['program'], ['program', 'two'], ['program', 'one', 'one'], ['staticlib'], ['staticlib', 'one'], ['staticlib', 'two_c']:
            self.assertEqual(self.run_script(*words)[0], 2)


if __name__ == '__main__':
    unittest.main()
