#!/usr/bin/env python3
"""Tests tools/report with stand-ins for the toolchain and the program, in a folder of its own: whose folder a path is seen from, what is
missing, and that lost output makes it fail."""
import os, shutil, subprocess, tempfile, unittest

HERE = os.path.dirname(os.path.abspath(__file__))
# Says that it runs the program, which then ends as it likes.
TOOLCHAIN = '''#!/bin/sh
[ "$(pwd)" = "$ROOT/project/crates/report" ] && [ "$*" = run ] || exit 1
echo 'rt: running out/report; to give it other input, run that file yourself' >&2
exit 7
'''
# Prints what it was run on, and says that output was lost as the program does.
PROGRAM = '''#!/bin/sh
{ cat walker.blk && cat && printf '\\n'; } 2>/dev/null || echo 'report: output lost' >&2
[ ! -e words ] || cat words >&2
[ ! -e status ] || exit "$(cat status)"
'''


class Report(unittest.TestCase):
    def setUp(self):
        folder = tempfile.TemporaryDirectory()
        self.addCleanup(folder.cleanup)
        self.root = folder.name
        for name, content in [('rt', TOOLCHAIN), ('project/crates/report/out/report', PROGRAM), ('project/target/bin/report', 'an earlier program')]:
            self.write(name, content)
            os.chmod(os.path.join(self.root, name), 0o755)
        self.write('project/crates/report/src/main.rt', '')
        os.makedirs(os.path.join(self.root, 'project/tools'))
        for script in 'report', 'program':
            shutil.copy(os.path.join(HERE, script), os.path.join(self.root, 'project/tools', script))
        # The last two are found by CDPATH, and must not be.
        for name in ('project/samples/one', 'project/samples/two', 'mine/a b', 'mine/-c', 'decoy/a b', 'decoy/tools'):
            of = 'decoy' if 'decoy' in name else os.path.basename(name)
            self.write(name + '/walker.blk', f'walker of {of}, ')
            self.write(name + '/letters.blk', f'letters of {of}')

    def write(self, name, content):
        path = os.path.join(self.root, name)
        os.makedirs(os.path.dirname(path), exist_ok=True)
        with open(path, 'w') as file:
            file.write(content)

    def run_report(self, words='', folder='mine', redirection='', command=None):
        environment = dict(os.environ, PATH=self.root + ':' + os.environ['PATH'], ROOT=self.root, CDPATH=self.root + '/decoy')
        run = subprocess.run(f'"{command or self.root + "/project/tools/report"}" {words} {redirection}', shell=True, capture_output=True, text=True,
                             env=environment, cwd=os.path.join(self.root, folder), timeout=60)
        return run.returncode, run.stdout, run.stderr

    def failed(self, reason, *arguments, **options):
        status, out, said = self.run_report(*arguments, **options)
        self.assertNotEqual(status, 0)
        self.assertIn(reason, said)
        return out

    def test_samples(self):
        expected = 'samples/one/\nwalker of one, letters of one\nsamples/two/\nwalker of two, letters of two\n'
        for folder in ('mine', 'project', 'project/tools'):
            self.assertEqual(self.run_report(folder=folder), (0, expected, ''))
        for folder, command in [('project', 'tools/report'), ('project/tools', './report'), ('mine', '../project/tools/report')]:
            self.assertEqual(self.run_report(folder=folder, command=command), (0, expected, ''))

    def test_folders_of_the_caller(self):
        self.assertEqual(self.run_report('"a b" ./-c/'), (0, 'a b\nwalker of a b, letters of a b\n./-c/\nwalker of -c, letters of -c\n', ''))
        self.assertEqual(self.run_report('../../mine/./a?b', folder='project/samples')[:2], (0, '../../mine/./a b\nwalker of a b, letters of a b\n'))
        self.assertEqual(self.run_report(f'"{self.root}/mine/a b"', folder='project')[0], 0)
        self.assertEqual(self.run_report('.', folder='mine/a b')[:2], (0, '.\nwalker of a b, letters of a b\n'))

    def test_missing(self):
        self.assertEqual(self.failed('samples/one: there is no such directory', '"a b" samples/one'), '')
        for name in ('walker.blk', 'letters.blk'):
            os.rename(os.path.join(self.root, 'mine/a b', name), os.path.join(self.root, 'mine/kept'))
            self.assertEqual(self.failed(f'a b/{name}: there is no such file', './-c "a b"'), '')
            os.mkdir(os.path.join(self.root, 'mine/a b', name))
            self.failed(f'a b/{name}: there is no such file', '"a b"')
            os.rmdir(os.path.join(self.root, 'mine/a b', name))
            os.rename(os.path.join(self.root, 'mine/kept'), os.path.join(self.root, 'mine/a b', name))
        self.assertEqual(self.run_report('--help')[0], 2)

    def test_lost_output(self):
        self.failed('standard output is closed', '"a b"', redirection='>&-')
        self.failed('report: output lost', '"a b"', redirection='> /dev/full')
        self.write('project/crates/report/out/report', '#!/bin/sh\n')
        self.failed('output lost', '"a b"', redirection='> /dev/full')

    def test_lost_by_the_program(self):
        self.write('mine/a b/words', 'report: output lost\n')
        self.assertEqual(self.failed('report: output lost\n', '"a b"'), 'a b\nwalker of a b, letters of a b\n')
        self.write('mine/a b/words', 'other\nwords\n')
        self.failed('other\nwords\n', '"a b"')

    def test_status(self):
        self.write('mine/-c/status', '7')
        self.assertEqual(self.failed('the program failed (7)', './-c "a b"'), './-c\nwalker of -c, letters of -c\n')

    def test_not_built(self):
        self.write('rt', '#!/bin/sh\necho said by rt\nexit 1\n')
        self.assertEqual(self.failed('said by rt', '"a b"'), '')


if __name__ == '__main__':
    unittest.main()
