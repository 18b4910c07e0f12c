#!/usr/bin/env python3
"""Runs the report program on thousands of damaged inputs: tools/try_damaged.py [COUNT]. Each run has to end by itself with status 0, and to
print either one line that refuses the walker or document 01's four lines. Build the program first (tools/report).

This is a test from outside; that the program ends and refuses by the table is what is proved."""
import os, random, re, subprocess, sys, tempfile
from files import with_checks

HERE = os.path.join(os.path.dirname(os.path.abspath(__file__)), '..')
PROGRAM = os.path.join(HERE, 'target', 'bin', 'report')
REFUSED = re.compile(rb'walker refused=\d+ place=\d+\n\Z')
REPORT = re.compile(
    rb'walker states=\d+ symbols=\d+ rules=\d+ single=(yes|no)\nquick (clear|unsure)\n'
    rb'survey (found|open|empty) height=\d+ rows=\d+\ndocuments accepted=\d+ other=\d+ refused=\d+ percent=\d+\n\Z')


def damaged(file, draw):
    kind = draw.randrange(6)
    if kind == 0:
        return bytes(draw.randrange(256) for _ in range(draw.choice([0, 1, 511, 512, 513, 1024, 4608, 9000])))
    file = bytearray(file)
    for _ in range(draw.randrange(1, 4)):
        if file:
            file[draw.randrange(min(len(file), draw.choice([24, 600, len(file)])))] = draw.randrange(256)
    if kind == 1:
        del file[draw.randrange(len(file) + 1):]
    return with_checks(bytes(file)) if kind > 2 else bytes(file)


def main(count):
    if not os.path.exists(PROGRAM):
        sys.exit('there is no target/bin/report: build it by tools/report')
    draw = random.Random(1)
    samples = [[open(os.path.join(HERE, 'samples', name, kind), 'rb').read() for kind in ('walker.blk', 'letters.blk')] for name in ('example', 'annex')]
    refused = reported = 0
    with tempfile.TemporaryDirectory() as folder:
        for number in range(count):
            walker, letters = draw.choice(samples)
            if draw.randrange(3):
                walker = damaged(walker, draw)
            letters = b''.join(damaged(letters, draw) for _ in range(draw.randrange(4)))
            open(os.path.join(folder, 'walker.blk'), 'wb').write(walker)
            run = subprocess.run([PROGRAM], input=letters, capture_output=True, cwd=folder, timeout=60)
            if run.returncode or run.stderr or not (REFUSED.match(run.stdout) or REPORT.match(run.stdout)):
                sys.exit(f'input {number}: status {run.returncode}, {run.stdout!r} {run.stderr!r}')
            if REFUSED.match(run.stdout):
                refused += 1
            else:
                reported += 1
    print(f'{refused} walkers refused, {reported} reports')


if __name__ == '__main__':
    main(int(sys.argv[1]) if len(sys.argv) > 1 else 5000)
