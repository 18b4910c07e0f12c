#!/usr/bin/env python3
"""Writes stdin and stdout of crates/markup_cases, or of another folder (tools/make_markup_cases.py [FOLDER]): walker files, element texts and lent
outputs, and what document 02 says of each (W6).

The reading below is written from documents 01 and 02 and shares nothing with the engine. The grammar is a list of rules, and a text is read by
all ways to go on that they leave, whatever comes next: where none is left, no continuation could be right. `try_short` holds this to the
sentence itself. Where a case states its answer the reading is held to it."""
import functools, itertools, os, random, re, struct, sys
from files import blocks, letter_file, walker_file, walker_payload
from told import mix, no, pattern

random.seed(6)
HERE = sys.argv[1] if len(sys.argv) > 1 else os.path.join(os.path.dirname(os.path.abspath(__file__)), '..', 'crates', 'markup_cases')
SPACES, LONGEST, NODES, HEIGHT = (b'\t', b'\n', b'\r', b' '), 32768, 4096, 64


# ---- the grammar, read independently

RULES = {
    'text': [(space, 'text') for space in SPACES] + [('element', 'run')],
    'run': [()] + [(space, 'run') for space in SPACES] + [('element', 'run')],
    'element': [(b'<', 'numbered')],
    'numbered': [(b'%d>' % number, 'run', b'</%d>' % number) for number in range(100)],
}


def may_be_empty(part): return part == 'run'


@functools.cache
def left_of(part, byte):
    """What can be left of a part, as lists of parts, once its first byte is read."""
    if isinstance(part, bytes): return [(part[1:],) if part[1:] else ()] if part[0] == byte else []
    found = []
    for rule in RULES[part]:
        for i, first in enumerate(rule):
            found += [left + rule[i + 1:] for left in left_of(first, byte)]
            if not may_be_empty(first): break
    return found


# A way to go on is None, or a part and the way after it: what is still to come. Each part begins some text, so that no way is in vain.
START = [('text', None)]


def after(ways, byte):
    """The ways to go on after one byte more."""
    found = []
    for way in ways:
        while way is not None:
            part, rest = way
            for left in left_of(part, byte):
                longer = rest
                for above in reversed(left): longer = (above, longer)
                found.append(longer)
            way = rest if may_be_empty(part) else None
    return found


def may_end(ways):
    """Whether nothing more needs to come. (After a run comes the closing tag around it, if any.)"""
    return any(way is None or may_be_empty(way[0]) and way[1] is None for way in ways)


@functools.lru_cache(16)
def outside(text):
    """The place of 18, where the grammar does not have the text."""
    ways = START
    for at, byte in enumerate(text):
        ways = after(ways, byte)
        if not ways: return at
    return None if may_end(ways) else len(text)


def try_short():
    """Every text of up to 21 bytes that is made of `<`, `/`, `>`, 0, 1 and blanks, by the document's sentence; each beginning of up to 8 bytes is
    that of a text exactly if a way to go on is left. (8 bytes can be gone on with to a text of 21.)"""
    @functools.cache
    def runs(length):
        if length == 0: return ['']
        return [' ' + run for run in runs(length - 1)] + [element + run for part in range(7, length + 1)
                for element in elements(part) for run in runs(length - part)]

    @functools.cache
    def elements(length):
        return [f'<{number}>{run}</{number}>' for number in ('0', '1', '10', '11') if length >= 5 + 2 * len(number)
                for run in runs(length - 5 - 2 * len(number))]

    texts = {run.encode() for length in range(22) for run in runs(length) if run.strip()}
    beginnings = {text[:length] for text in texts for length in range(9)}
    reached, tried = [(b'', START)], 0
    for length in range(9):
        following = []
        for text, ways in reached:
            assert text in beginnings and may_end(ways) == (text in texts), text
            for byte in b'</>01 x\x0b':
                longer, left = text + bytes([byte]), after(ways, byte)
                assert length == 8 or bool(left) == (longer in beginnings), longer
                tried += 1
                if left and length < 8: following.append((longer, left))
        reached = following
    assert all(outside(text) is None for text in itertools.islice(texts, 0, None, 50))
    return len(texts), tried


# ---- W6

def run_of(text):
    """The elements of a text of the grammar: each its number and the run inside it."""
    around, run = [], []
    for slash, number in re.findall(rb'<(/?)([0-9]+)>', text):
        if slash: run = around.pop()
        else:
            run.append((int(number), []))
            around.append(run)
            run = run[-1][1]
    return run


def nodes_of(run):
    """Symbol and depth of each node, in preorder. What is left to list stands on the stack: a run from an element on, and its depth."""
    nodes, waiting = [], [(run, 0, 0)]
    while waiting:
        run, first, depth = waiting.pop()
        if first == len(run): nodes.append((0, depth))
        else:
            number, inside = run[first]
            nodes.append((number, depth))
            waiting += [(run, first + 1, depth + 1), (inside, 0, depth + 1)]
    return nodes


@functools.lru_cache(64)
def answer(symbols, branches, text, room):
    """Number, file and place of a refusal, or the letter's file and the number of nodes."""
    if len(text) > LONGEST: return (18, 2, LONGEST), None, None
    place = outside(text)
    if place is not None: return (18, 2, place), None, None
    if branches & 1: return (19, 2, 0), None, None
    for tag in re.finditer(rb'<([0-9]+)>', text):
        number = int(tag[1])
        if number >= symbols or not branches >> number & 1: return (19, 2, tag.start()), None, None
    nodes = nodes_of(run_of(text))
    if len(nodes) > NODES: return (4, 1, 2), None, None
    for at, (symbol, depth) in enumerate(nodes):
        if depth == HEIGHT + 1: return (12, 1, at), None, None
    file = letter_file([symbol for symbol, depth in nodes])
    if room < len(file): return (13, 2, len(file)), None, None
    return None, file, len(nodes)


# ---- the cases

cases, labels = [], set()
NOWHERE = 65535


def yes(length, nodes): return f' written={length} nodes={nodes}'


def with_mix(told, room, written=b''): return f'{told} mix={mix(written + pattern(room)[len(written):])}'


def joined(pieces): return b''.join(count * piece for count, piece in pieces)


def add(label, file, pieces, room, told, value_at=NOWHERE):
    assert 0 < len(label) < 256 and label not in labels and len(pieces) < 256, label
    labels.add(label)
    cases.append((label, file, pieces, room, value_at, told))


def told_of(symbols, branches, text, room):
    refusal, file, nodes = answer(symbols, branches, text, room)
    return (no(refusal[0], refusal[2], refusal[1]), b'') if file is None else (yes(len(file), nodes), file)


def case(label, text, says=None, room=520, symbols=32, branches=2 ** 32 - 2, like=None):
    """The text is bytes, or pieces with how often each comes; `says` is the answer, `like` the file written. This is given back."""
    pieces = text if isinstance(text, list) else [(1, text)]
    told, file = told_of(symbols, branches, joined(pieces), room)
    assert says is None or told == says, (label, told, says)
    assert like is None or file == like, label
    add(label, walker(symbols, branches), pieces, room, with_mix(told, room, file))
    return file


@functools.cache
def walker(symbols, branches): return walker_file(2, symbols, 1, 2, branches, [])


def every_byte(label, text, right='', room=520):
    """Each of the 256 values in turn in place of the text's `?`; the answers are listed where they change. `right` has those that are written."""
    at, parts, last = text.index(b'?'), [], None
    for value in range(256):
        told, file = told_of(32, 2 ** 32 - 2, text.replace(b'?', bytes([value])), room)
        assert bool(file) == (chr(value) in right), (label, value, told)
        told = with_mix(told, room, file)
        if told != last: parts.append(f' from={value}{told}')
        last = told
    add(label, walker(32, 2 ** 32 - 2), [(1, text)], room, ''.join(parts), at)


def name(text): return ''.join(chr(byte) if 32 <= byte < 127 else f'({byte})' for byte in text)


texts, tried = try_short()

# the readings
one = case('one element', b'<1></1>', yes(512, 3))
assert one == letter_file([1, 0, 0])
assert case('one inside', b'<1><2></2></1>', yes(512, 5)) == letter_file([1, 2, 0, 0, 0])
assert case('one after', b'<1></1><2></2>', yes(512, 5)) == letter_file([1, 0, 2, 0, 0])
assert case('inside and after', b'<1><2></2></1><3></3>', yes(512, 7)) == letter_file([1, 2, 0, 0, 3, 0, 0])
assert case('two inside', b'<1><2></2><3></3></1>', yes(512, 7)) == letter_file([1, 2, 0, 3, 0, 0, 0])
assert case('three deep, and after each', b'<1><2><3></3><4></4></2><5></5></1><6></6>', yes(512, 13)) == letter_file(
    [1, 2, 3, 0, 4, 0, 0, 5, 0, 0, 6, 0, 0])
EARLY = b'', b' ', b' \t\r\n', b'<', b'<1', b'<12', b'<1>', b'<1><', b'<1></', b'<1></1'
for text in EARLY: case(f'ends early: {name(text)}', text, no(18, len(text)))
case('spaces only, 32,768', [(32768, b' ')], no(18, 32768))
OUTSIDE = {
    'closing': [(b'<12></1>', 7), (b'<1></12>', 6), (b'<1><2></1>', 8), (b'<12></21>', 6), (b'<12></13>', 7), (b'<1><2></2></2>', 12),
                (b'<1></10>', 6), (b'<10></1>', 7), (b'<10></0>', 6), (b'<1></01>', 5), (b'<0></00>', 6)],
    'digits': [(b'<00></00>', 2), (b'<01></01>', 2), (b'<007></007>', 2), (b'<07></07>', 2), (b'<07></7>', 2), (b'<100></100>', 3),
               (b'<1><100></100></1>', 6), (b'<999></999>', 3), (b'<-1></-1>', 1)],
    'slash': [(b'</2>', 1), (b' </2>', 2), (b'<2></2></2>', 8), (b'<2></2> </2>', 9), (b'<1/>', 2), (b'<//1>', 1), (b'<1><//1>', 5)],
    'other': [(b'<>', 1), (b'<1></>', 5), (b'1', 0), (b'<1>1</1>', 3), (b'<1></1>>', 7), (b'<<1></1>', 1), (b'<1></1>\0', 7),
              (b'\xef\xbb\xbf<1></1>', 0), (b'<1 a=2></1>', 2)],
}
for what, texts_and_places in OUTSIDE.items():
    for text, place in texts_and_places: case(f'{what}: {name(text)}', text, no(18, place))
INSIDE = {
    'after <': (b'<_1></1>', 1),
    'before >': (b'<1_></1>', 2),
    'between < and /': (b'<1><_/1>', 4),
    'after </': (b'<1></_1>', 5),
    'before the closing >': (b'<1></1_>', 6),
    'between two digits': (b'<1_2></12>', 2),
    'between two closing digits': (b'<12></1_2>', 7),
}
for (what, (text, place)), space in itertools.product(INSIDE.items(), SPACES):
    case(f'space {space[0]} {what}', text.replace(b'_', space), no(18, place))
# numbers; 0 and 32 to 99 are no branch symbol
for number in 0, 1, 9, 10, 19, 20, 31, 32, 39, 90, 99:
    text = b'<%d></%d>' % (number, number)
    case(f'number {number}', text, yes(512, 3) if 0 < number < 32 else no(19, 0))
for number in range(100):
    text = b'<1><%d></%d></1>' % (number, number)
    case(f'number {number} inside', text, yes(512, 5) if 0 < number < 32 else no(19, 3))
# each byte at each kind of place
WS = '\t\n\r '
every_byte('each byte alone', b'?')
every_byte('each byte before the first tag', b'?<1></1>', WS)
every_byte('each byte before the first tag, after a space', b' ?<1></1>', WS)
every_byte('each byte for the first <', b'?1></1>', '<')
every_byte('each byte for the first <, after a space', b'\t?1></1>', '<')
every_byte('each byte after <', b'<?></5>', '5')
every_byte('each byte after <, a digit after it', b'<?0></10>', '1')
every_byte('each byte between < and a number', b'<?1></1>')
every_byte('each byte after an inner <', b'<1><?></2></1>', '2')
every_byte('each byte for /', b'<1><?1>', '/')
every_byte('each byte between < and /', b'<1><?/1>')
every_byte('each byte after the < of a second element', b'<1></1><?2></12>', '1')
every_byte('each byte as second digit', b'<1?></12>', '2')
every_byte('each byte as second digit, closed by one', b'<1?></1>')
every_byte('each byte as second digit after 0', b'<0?></0>')
every_byte('each byte as second digit after 9', b'<9?></99>')
every_byte('each byte for >', b'<1?</1>', '>')
every_byte('each byte for > after 0', b'<0?</0>')
every_byte('each byte for > after two digits', b'<12?</12>', '>')
every_byte('each byte after two digits', b'<12?></12>')
every_byte('each byte between opening and closing tag', b'<1>?</1>', WS)
every_byte('each byte for an inner <', b'<1>?/1>', '<')
every_byte('each byte after </', b'<1></?>', '1')
every_byte('each byte after </, two digits', b'<12></?2>', '1')
every_byte('each byte after an inner </', b'<1><2></?></1>', '2')
every_byte('each byte between </ and a number', b'<1></?1>')
every_byte('each byte as second closing digit', b'<12></1?>', '2')
every_byte('each byte after a closing digit', b'<1></1?>')
every_byte('each byte after two closing digits', b'<12></12?>')
every_byte('each byte for the closing >', b'<1></1?', '>')
every_byte('each byte for the closing > of two digits', b'<12></12?', '>')
every_byte('each byte between elements', b'<1></1>?<2></2>', WS)
every_byte('each byte between opening tags', b'<1>?<2></2></1>', WS)
every_byte('each byte between closing tags', b'<1><2></2>?</1>', WS)
every_byte('each byte at the end', b'<1></1>?', WS)
every_byte('each byte at the end after a space', b'<1></1> ?', WS)
every_byte('each byte at the end of two', b'<1></1><2></2>?', WS)
every_byte('each byte, no output', b'<1></1>?', '', 0)
# cut off at every length
WHOLE = b' <1>\t<12> \n<7></7></12>\r<31></31> </1>\n\n<20></20> '
case('not cut off', WHOLE, yes(512, 11))
for length in range(len(WHOLE)):
    text = WHOLE[:length]
    said = yes(512, 11) if text.endswith(b'</20>') else yes(512, 9) if text.rstrip().endswith(b'</1>') else no(18, length)
    case(f'cut off at {length}', text, said)
# one byte removed, and one twice
for at in range(len(WHOLE)):
    case(f'byte {at} removed', WHOLE[:at] + WHOLE[at + 1:])
    case(f'byte {at} twice', WHOLE[:at + 1] + WHOLE[at:])
# texts that differ only in spaces
TAGS = re.findall(rb'<[^>]*>', WHOLE)
bare = case('no space', b''.join(TAGS), yes(512, 11))
for space in SPACES: case(f'space {space[0]} before, between and after tags', space + space.join(TAGS) + space, yes(512, 11), like=bare)
case('spaces: the text above', WHOLE, yes(512, 11), like=bare)
case('spaces of every kind', b' \t\r\n\n ' + b'\r\n  \t'.join(TAGS) + b'\n\n', yes(512, 11), like=bare)
SPARE = 32768 - len(b''.join(TAGS))
for what, at, space in ('spaces in front', 0, b' '), ('line ends in the middle', 5, b'\n'), ('tabs at the end', len(TAGS), b'\t'):
    front, back = (1, b''.join(TAGS[:at])), (1, b''.join(TAGS[at:]))
    case(f'32,768 bytes by {what}', [front, (SPARE, space), back], yes(512, 11), like=bare)
    case(f'32,769 bytes by {what}', [front, (SPARE + 1, space), back], no(18, 32768))
# too long: whatever stands in it
for length in 32769, 40000, 65535:
    case(f'{length} spaces', [(length, b' ')], no(18, 32768))
    case(f'{length} bytes, the first one wrong', [(length, b'x')], no(18, 32768))
    case(f'{length} bytes, symbol 0 a branch, no output', [(length, b'<')], no(18, 32768), 0, 3, 7)
case('32,768 bytes, the first one wrong', [(32768, b'x')], no(18, 0))
case('32,768 bytes, the last one wrong', [(1, b'<1></1>'), (32760, b' '), (1, b'x')], no(18, 32767))
case('32,768 bytes, ends early', [(1, b'<1>'), (32764, b' '), (1, b'<')], no(18, 32768))
# deep and long
case('10,922 opening tags 0', [(10922, b'<0>')], no(18, 32766))
case('10,922 opening tags 0 and two bytes', [(10922, b'<0>'), (1, b'<0')], no(18, 32768))
case('10,922 opening tags 0 and two spaces', [(10922, b'<0>'), (2, b' ')], no(18, 32768))
case('10,922 opening tags 0 and a wrong end', [(10922, b'<0>'), (1, b'</')], no(18, 32768))
case('10,921 opening tags 0, one more closed', [(10921, b'<0>'), (1, b'</0>')], no(18, 32767))
case('10,921 opening tags 0, one closed by 1', [(10921, b'<0>'), (1, b'</1>')], no(18, 32765))
case('8,192 opening tags 99', [(8192, b'<99>')], no(18, 32768))
case('8,190 opening tags 31, closed by 32', [(8190, b'<31>'), (1, b'</32>')], no(18, 32763))
case('4,681 side by side', [(4681, b'<1></1>')], no(4, 2, 1))
case('4,681 side by side and a space', [(4681, b'<1></1>'), (1, b' ')], no(4, 2, 1))
case('4,681 side by side, the last one 2', [(4680, b'<1></1>'), (1, b'<2></2>')], no(4, 2, 1))
case('4,681 side by side, the last one 0', [(4680, b'<1></1>'), (1, b'<0></0>')], no(19, 32760))
case('4,681 side by side and a wrong byte', [(4681, b'<1></1>'), (1, b'<')], no(18, 32768))
case('4,681 nested', [(4681, b'<1>'), (4681, b'</1>')], no(4, 2, 1))
case('4,681 nested, the last one 2', [(4681, b'<1>'), (4680, b'</1>'), (1, b'</2>')], no(18, 32765))
case('4,681 nested, one closing tag less', [(4681, b'<1>'), (4680, b'</1>')], no(18, 32763))
case('3,640 nested of two digits', [(3640, b'<31>'), (3640, b'</31>')], no(4, 2, 1))
case('3,640 nested of two digits, closed by others', [(3640, b'<31>'), (3639, b'</31>'), (1, b'</13>')], no(18, 32757))
case('1,820 nested 1 in 2 and 3 in 4, closed in turn', [(1820, b'<21><22>'), (1820, b'</22></21>')], no(4, 2, 1))
case('1,820 nested, two exchanged at the end', [(1820, b'<21><22>'), (1819, b'</22></21>'), (1, b'</21></22>')], no(18, 32753))
# 12: the first node 65 below the root
for count in 1, 2, 63, 64:
    case(f'{count} nested', [(count, b'<1>'), (count, b'</1>')], yes(512, 2 * count + 1))
    case(f'{count} side by side', [(count, b'<1></1>')], yes(512, 2 * count + 1))
case('65 nested', [(65, b'<1>'), (65, b'</1>')], no(12, 65, 1))
case('66 nested', [(66, b'<1>'), (66, b'</1>')], no(12, 65, 1))
case('65 side by side', [(65, b'<1></1>')], no(12, 129, 1))
case('66 side by side', [(66, b'<1></1>')], no(12, 129, 1))
case('32 side by side, 32 nested in the last', [(31, b'<1></1>'), (33, b'<2>'), (33, b'</2>')], yes(512, 129))
case('32 side by side, 33 nested in the last', [(31, b'<1></1>'), (34, b'<2>'), (34, b'</2>')], no(12, 96, 1))
case('32 nested, 32 side by side in the last', [(32, b'<1>'), (32, b'<2></2>'), (32, b'</1>')], yes(512, 129))
case('32 nested, 33 side by side in the last', [(32, b'<1>'), (33, b'<2></2>'), (32, b'</1>')], no(12, 97, 1))
case('two steps too low: the first', [(1, b'<9></9>'), (64, b'<1>'), (64, b'</1>'), (70, b'<2></2>')], no(12, 66, 1))
case('too low at the very end', [(1, b'<9>'), (10, b'<1></1>'), (1, b'</9>'), (64, b'<2></2>')], no(12, 149, 1))
case('64 below at the very end', [(1, b'<9>'), (10, b'<1></1>'), (1, b'</9>'), (63, b'<2></2>')], yes(512, 149))
case('2,047 nested', [(2047, b'<1>'), (2047, b'</1>')], no(12, 65, 1))
case('2,047 side by side', [(2047, b'<1></1>')], no(12, 129, 1))


# 4: many elements of height 64 at the most


def halved(count):
    """So many elements, half of them inside the first and half after it."""
    if count == 0: return b''
    return b'<1>' + halved((count - 1) // 2) + b'</1>' + halved(count // 2)


def stairs(count):
    """So many elements: the first of the run has up to 63 inside, each further one has one less, so that each ends 64 below the root."""
    pieces, inside = [], 63
    while count:
        now = min(inside, count - 1)
        pieces += [(1, b'<2>'), (now, b'<3></3>'), (1, b'</2>')]
        count, inside = count - now - 1, inside - 1
    return pieces


assert joined(stairs(2047)).count(b'</') == halved(2047).count(b'</') == 2047
case('2,047 elements, halved', halved(2047), yes(4608, 4095), 4700)
case('2,048 elements, halved', halved(2048), no(4, 2, 1), 4700)
case('2,047 elements, stairs', stairs(2047), yes(4608, 4095), 4608)
case('2,048 elements, stairs', stairs(2048), no(4, 2, 1), 4608)
case('2,080 elements, stairs', stairs(2080), no(4, 2, 1), 4608)
case('2,048 nested', [(2048, b'<1>'), (2048, b'</1>')], no(4, 2, 1))
case('2,048 side by side', [(2048, b'<1></1>')], no(4, 2, 1))
case('2,047 elements, one byte short', stairs(2047), no(13, 4608), 4607)
case('2,047 elements, no output', stairs(2047), no(13, 4608), 0)
case('2,047 elements, a long output', stairs(2047), yes(4608, 4095), 8192)
# 13: 251 elements fill one block, and so on
for number, most in enumerate((251, 505, 759, 1013, 1267, 1521, 1775, 2029), 1):
    length = 512 * number
    assert 4 + 2 * most + 1 <= 508 * number < 4 + 2 * most + 3
    case(f'{most} elements', stairs(most), yes(length, 2 * most + 1), length)
    case(f'{most} elements, longer by one', stairs(most), yes(length, 2 * most + 1), length + 1)
    case(f'{most} elements, one byte short', stairs(most), no(13, length), length - 1)
    case(f'{most + 1} elements, a block more', stairs(most + 1), yes(length + 512, 2 * most + 3), length + 600)
    case(f'{most + 1} elements, that block not lent', stairs(most + 1), no(13, length + 512), length)
for room in 0, 1, 511: case(f'one element, {room} bytes lent', b'<1></1>', no(13, 512), room)
for room in 512, 513, 700, 1024, 8192: case(f'one element, {room} bytes lent', b'<1></1>', yes(512, 3), room, like=one)
# 19
case('19: symbol 0', b'<1></1> <0></0>', no(19, 8))
case('19: symbol 0 inside', b'<1><2><0></0></2></1>', no(19, 6))
case('19: the first of two', b'<1><40></40></1><0></0>', no(19, 3))
case('19: the outer of two', b' <40><0></0></40>', no(19, 1))
case('19: the tag after spaces', b' \n<1>\t \r<0>  </0></1>', no(19, 8))
case('19: a leaf symbol', b'<2><1></1></2>', no(19, 3), 520, 3, 4)
case('19: m', b'<2><3></3></2>', no(19, 3), 520, 3, 4)
case('19: m - 1 is a branch', b'<2><2></2></2>', yes(512, 5), 520, 3, 4)
case('19: no branch symbol', b'<2></2>', no(19, 0), 520, 3, 0)
case('19: one symbol', b' <0></0>', no(19, 1), 520, 1, 0)
case('19: one symbol, number 1', b'<1></1>', no(19, 0), 520, 1, 0)
for branches in 1, 5, 7: case(f'19: symbol 0 is a branch, {branches}', b'  <2></2>', no(19, 0), 520, 3, branches)
case('19: symbol 0 is a branch and the tag is 0', b' <0></0>', no(19, 0), 520, 3, 7)
case('19: symbol 0 is a branch before a tag that is none', b' <2></2><9></9>', no(19, 0), 520, 3, 7)
case('19: symbol 0 is the only one, a branch', b' <0></0>', no(19, 0), 520, 1, 1)
case('19: every symbol is a branch', b' <31></31>', no(19, 0), 520, 32, 2 ** 32 - 1)
case('19: 31 is the only branch', b'<31><31></31></31>', yes(512, 5), 520, 32, 2 ** 31)
case('19: 30 beside it', b'<31><30></30></31>', no(19, 4), 520, 32, 2 ** 31)
case('19: 63, 31 being a branch', b'<63></63>', no(19, 0), 520, 32, 2 ** 31)
case('19: 33, 1 being a branch', b'<33></33>', no(19, 0), 520, 32, 2)
case('19: 32, 0 being a leaf', b'<32></32>', no(19, 0), 520, 32, 2 ** 32 - 2)
case('19: 64, 0 being a leaf', b'<64></64>', no(19, 0), 520, 32, 2 ** 32 - 2)
case('19: in the last tag of a long text', [(1, b'<1></1>'), (32754, b' '), (1, b'<0></0>')], no(19, 32761))
# the order
case('18 before 19: tag 0', b'<0>', no(18, 3))
case('18 before 19: a number above m', b'<99></98>', no(18, 7))
case('18 before 19: symbol 0 is a branch', b'<2></2', no(18, 6), 520, 3, 7)
case('18 before 19: too long, symbol 0 is a branch', [(32769, b' ')], no(18, 32768), 520, 3, 7)
case('18 before 4', [(4681, b'<1></1>'), (1, b'x')], no(18, 32767))
case('18 before 12', [(65, b'<1>'), (64, b'</1>')], no(18, 451))
case('18 before 13', b'<1></1', no(18, 6), 0)
case('19 before 4', [(2047, b'<1></1>'), (1, b'<0></0>')], no(19, 14329))
case('19 before 4: symbol 0 is a branch', [(2048, b'<1></1>')], no(19, 0), 520, 3, 7)
case('19 before 12', [(65, b'<1>'), (1, b'<0></0>'), (65, b'</1>')], no(19, 195))
case('19 before 12: symbol 0 is a branch', [(65, b'<1>'), (65, b'</1>')], no(19, 0), 520, 3, 7)
case('19 before 13', b'<0></0>', no(19, 0), 0)
case('4 before 12', [(2048, b'<1>'), (2048, b'</1>')], no(4, 2, 1), 4608)
case('4 before 13', stairs(2048), no(4, 2, 1), 0)
case('12 before 13: nested', [(65, b'<1>'), (65, b'</1>')], no(12, 65, 1), 0)
case('12 before 13: side by side', [(65, b'<1></1>')], no(12, 129, 1), 511)
# the walker's own, before all
RULE = [(2, 0, 0, 3, 0), (2, 0, 2, 3, 0), (1, 0, 2, 1, 1), (2, 1, 2, 1, 1)]
GOOD = walker_payload(2, 3, 1, 2, 4, RULE)


def changed(payload, at, value): return payload[:at] + bytes([value]) + payload[at + 1:]


add('the walker of document 01', blocks(GOOD), [(1, b'<2></2>')], 512, with_mix(yes(512, 3), 512, letter_file([2, 0, 0])))
OWN = [
    ('1', blocks(GOOD)[:-1], 1, 0),
    ('1: no bytes', b'', 1, 0),
    ('1: seven blocks', blocks(GOOD, 7), 1, 0),
    ('2', changed(blocks(GOOD), 300, 77), 2, 0),
    ('3', blocks(changed(GOOD, 0, 84)), 3, 0),
    ('3: a letter', letter_file([2, 0, 0]), 3, 0),
    ('4: states', blocks(changed(GOOD, 1, 25)), 4, 1),
    ('4: symbols', blocks(changed(GOOD, 2, 0)), 4, 2),
    ('4: rules', blocks(walker_payload(2, 3, 1, 2, 4, RULE, count=513)), 4, 4),
    ('5', blocks(GOOD, 2), 5, 1),
    ('6: byte 3', blocks(changed(GOOD, 3, 1)), 6, 3),
    ('6: filler', blocks(GOOD + b'\1'), 6, 40),
    ('7: branches', walker_file(2, 3, 1, 2, 12, RULE), 7, 16),
    ('8', walker_file(2, 3, 1, 2, 4, RULE + [(3, 0, 0, 0, 0)]), 8, 4),
    ('9', walker_file(2, 3, 1, 2, 4, RULE + [(1, 0, 0, 1, 1)]), 9, 4),
]
for fault, file, number, place in OWN:
    for what, text, room in ('a good text', b'<2></2>', 512), ('a bad text', b'<2', 0): add(
        f'the walker first, {fault}, {what}', file, [(1, text)], room, with_mix(no(number, place, 0), room))
add('the walker first, 2, a text that is too long', OWN[3][1], [(40000, b'<')], 512, with_mix(no(2, 0, 0), 512))


# by chance
def by_chance(numbers, count, deep):
    """The tags of so many elements."""
    tags = []
    while count:
        inside = min(count - 1, int(random.expovariate(1 / deep)))
        number = random.choice(numbers)
        tags += [b'<%d>' % number] + by_chance(numbers, inside, deep) + [b'</%d>' % number]
        count -= inside + 1
    return tags


def spaced(tags, likely):
    """Spaces by chance before, between and after the tags."""
    gap = lambda: b''.join(random.choices(SPACES, k=random.randint(1, 3))) if random.random() < likely else b''
    return gap() + b''.join(tag + gap() for tag in tags)


def damaged(text):
    """A byte changed, removed, put in or twice, two exchanged, a part left out, or the end cut off."""
    at, other = sorted((random.randrange(len(text)), random.randrange(len(text))))
    byte = bytes([random.choice(b'<>/0123456789 \t\n\r\x0b\x0c.-a\0\xff')])
    return random.choice((
        text[:at] + byte + text[at + 1:], text[:at] + byte + text[at:], text[:at] + text[at + 1:], text[:at] + text[at:at + 1] + text[at:],
        text[:at] + text[other:other + 1] + text[at + 1:other] + text[at:at + 1] + text[other + 1:], text[:at] + text[other:], text[:other]))


for symbols, branches in (32, 2 ** 32 - 2), (3, 4), (3, 6), (12, 0xffe), (20, 0xf0f0e), (32, 2 ** 31 + 2):
    numbers = [number for number in range(symbols) if branches >> number & 1]
    for k in range(60):
        tags = by_chance(numbers, random.choice((1, 2, 3, 6, 12, 30)), random.choice((1, 2, 6)))
        text = spaced(tags, random.choice((0, 0.1, 0.5)))
        title = f'by chance, {symbols} symbols, branches {branches}, {k}'
        file = case(title, text, None, random.choice((512, 512, 513, 600, 511)), symbols, branches)
        if k % 3 == 0 and file: case(f'{title}: other spaces', spaced(tags, 0.5), None, 512, symbols, branches, file)
        if k % 3 == 1:
            other = text.replace(b'%d>' % random.choice(numbers), b'%d>' % random.randrange(100))
            case(f'{title}: another number', other, None, 512, symbols, branches)
        case(f'{title}: damaged', damaged(text), None, 512, symbols, branches)
        case(f'{title}: damaged twice', damaged(damaged(text) or b' '), None, 512, symbols, branches)

seen = {number: sum(told.count(f' refused={number} ') for *_, told in cases) for number in (*range(1, 10), 12, 13, 18, 19)}
assert all(n >= 2 for n in seen.values()), seen
with open(os.path.join(HERE, 'stdin'), 'wb') as f:
    before = None
    for label, file, pieces, room, value_at, told in cases:
        again = file == before
        f.write(struct.pack('<BHBHH', len(label), 65535 if again else len(file), len(pieces), room, value_at) + label.encode())
        if not again: f.write(file)
        for count, piece in pieces: f.write(struct.pack('<HH', count, len(piece)) + piece)
        before = file
with open(os.path.join(HERE, 'stdout'), 'w') as f:
    for label, file, pieces, room, value_at, told in cases: f.write(f'{label}:{told}\n')
print(f'{texts} short texts, {tried} beginnings;', len(cases), 'cases;', 'refusals by number:', ' '.join('%d:%d' % kv for kv in seen.items()))
