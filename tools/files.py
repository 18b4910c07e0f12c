"""Writes document 01's files: blocks, walkers and letters. The scripts in this folder share it, and it shares nothing with the engine.

A payload is what a file holds: the bytes before its filler. What is odd in a payload (a kind, a count, more or fewer blocks) is asked for."""
import struct

CONTENT, BLOCK = 508, 512
WALKER, LETTER = 87, 84


def check_of(content, block):
    """The four bytes behind the content of a block."""
    return struct.pack('<I', (block + 1 + sum(struct.unpack('<127I', content))) % 2 ** 32)


def blocks_for(length):
    """The fewest blocks that hold so many bytes."""
    return -(-length // CONTENT)


def blocks(payload, count=None):
    """The file of a payload: the fewest blocks that hold it or, of its front or with filler, `count` blocks."""
    count = blocks_for(len(payload)) if count is None else count
    content = bytes(payload[:CONTENT * count]).ljust(CONTENT * count, b'\0')
    parts = [content[at:at + CONTENT] for at in range(0, len(content), CONTENT)]
    return b''.join(part + check_of(part, number) for number, part in enumerate(parts))


def contents(file):
    """The joined contents of a file's blocks."""
    return b''.join(file[at:at + CONTENT] for at in range(0, len(file), BLOCK))


def with_checks(file):
    """The file with the check of every whole block made right."""
    whole = len(file) // BLOCK * BLOCK
    return blocks(contents(file[:whole])) + file[whole:]


def walker_payload(states, symbols, start, final, branches, rules, kind=WALKER, count=None):
    """The sets are numbers, bit i for number i; a rule is its five bytes."""
    head = struct.pack('<BBBBHH', kind, states, symbols, 0, len(rules) if count is None else count, 0)
    return head + struct.pack('<III', start, final, branches) + b''.join(bytes(rule) for rule in rules)


def letter_payload(nodes, kind=LETTER, count=None):
    """The nodes are their symbols, in preorder."""
    return struct.pack('<BBH', kind, 0, len(nodes) if count is None else count) + bytes(nodes)


def walker_file(*parts, **odd):
    return blocks(walker_payload(*parts, **odd))


def letter_file(nodes, **odd):
    return blocks(letter_payload(nodes, **odd))
