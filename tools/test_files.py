#!/usr/bin/env python3
"""Tests tools/files.py by what document 01 says of its files."""
import os, unittest
from files import blocks, contents, letter_file, letter_payload, walker_file, walker_payload, with_checks

HERE = os.path.dirname(os.path.abspath(__file__))
RULE = (1, 0, 2, 1, 1)


def check(file, block):
    return int.from_bytes(file[512 * block + 508:512 * block + 512], 'little')


class Files(unittest.TestCase):
    def test_checks(self):
        self.assertEqual(check(letter_file([2, 0, 1]), 0), 262231)
        self.assertEqual([check(blocks(bytes(1016)), block) for block in (0, 1)], [1, 2])
        self.assertEqual(check(blocks(b'\xff' * 508), 0), (1 + 127 * (2 ** 32 - 1)) % 2 ** 32)
        self.assertEqual(check(blocks(b'\1\2\3\4\5'), 0), 1 + 0x04030201 + 5)

    def test_sizes(self):
        for rules, size in [(0, 1), (97, 1), (98, 2), (512, 6)]:
            self.assertEqual(len(walker_file(2, 3, 1, 2, 4, [RULE] * rules)), 512 * size)
        for nodes, size in [(1, 1), (504, 1), (505, 2), (4096, 9)]:
            self.assertEqual(len(letter_file([0] * nodes)), 512 * size)
        self.assertEqual([len(blocks(bytes(600), count)) for count in (0, 1, 3)], [0, 512, 1536])

    def test_layouts(self):
        head = bytes([87, 24, 32, 0, 1, 0, 0, 0, 1, 0, 0, 0, 0, 2, 0, 0, 0, 0, 0, 128])
        self.assertEqual(walker_payload(24, 32, 1, 512, 2 ** 31, [RULE]), head + bytes(RULE))
        self.assertEqual(walker_payload(1, 1, 0, 0, 0, [], kind=84, count=513)[:8], bytes([84, 1, 1, 0, 1, 2, 0, 0]))
        self.assertEqual(letter_payload([2, 0, 1]), bytes([84, 0, 3, 0, 2, 0, 1]))
        self.assertEqual(letter_payload([], kind=87, count=4097), bytes([87, 0, 1, 16]))

    def test_contents(self):
        payload = bytes(range(1, 256)) * 3
        self.assertEqual(contents(blocks(payload)), payload.ljust(1016, b'\0'))
        self.assertEqual(contents(blocks(payload, 1)), payload[:508])
        self.assertEqual(contents(blocks(payload, 3)), payload.ljust(1524, b'\0'))

    def test_checks_made_right(self):
        file = blocks(bytes(range(200)) * 4)
        spoiled = bytearray(file + b'rest')
        for at in (508, 511, 1020, 1023):
            spoiled[at] ^= 85
        self.assertEqual(with_checks(bytes(spoiled)), file + b'rest')
        self.assertEqual(with_checks(b'short'), b'short')

    def test_samples(self):
        """The other way round: a sample's file is that of its own contents."""
        with open(os.path.join(HERE, '..', 'samples', 'annex', 'walker.blk'), 'rb') as file:
            sample = file.read()
        self.assertEqual(blocks(contents(sample)), sample)


if __name__ == '__main__':
    unittest.main()
