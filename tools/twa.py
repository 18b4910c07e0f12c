#!/usr/bin/env python3
"""Turns a readable text form into walker and letter files, and back.

    tools/twa.py walker TEXT FILE          writes the walker file of a text
    tools/twa.py letters TEXT TREES FILE   writes the letters of a list of trees, end to end, by a walker's text
    tools/twa.py show FILE                 prints what a walker or letter file, or letters end to end, hold
    tools/twa.py plan TEXT PLAN            prints the tree that a plan's bytes build, by a walker's text
    tools/twa.py trees WALKER FILE         prints the tree of each letter, end to end, by a walker's text or file

A walker's text has a line for each part; '#' starts a comment. States and symbols are names or numbers; they are numbered
from 0 in the order in which they are listed. A symbol with '*' behind it is a branch symbol.

    states look need done
    symbols text transfer annex then*
    start look
    final done
    rule then look any left look       symbol, state, place (root, left, right, any), move (stay, up, left, right), next

A list of trees has a tree a line: a leaf is its symbol, a branch is written then(transfer, then(annex, text)).

A file is written when its whole text is in order by document 01's table, and otherwise left as it was. The status is 0 where the output
was written, 1 where it was not, with the line and the reason, and 2 where the command is not understood.

This program is for people and for tests. It is not part of what is proved, and the engine shares nothing with it."""
import os, re, stat, struct, sys
from files import blocks_for, check_of, contents, letter_file, walker_file

PLACES = ['root', 'left', 'right', 'any']
MOVES = ['stay', 'up', 'left', 'right']

STATES, SYMBOLS, RULES, NODES, HEIGHT = 24, 32, 512, 4096, 64
WALKER_BYTES, PLAN_BYTES = 3072, 195
TEXT_BYTES, MESSAGE = 1 << 28, 4000


class Bad(Exception):
    """What is wrong with the input, in words."""


class Lost(Exception):
    """Why standard output did not take what was written."""


def bad_line(number, reason):
    return Bad(f'line {number}: {reason}')


# ---- names

def listed(number, words, most):
    """The names of a line, each by its number: 1 to `most` of them, none twice. A name that is a number is its own number."""
    if not 1 <= len(words) <= most:
        raise bad_line(number, f'{len(words)} names, where 1 to {most} may be')
    names = {}
    for place, word in enumerate(words):
        if re.search(r'[*(),]', word) or not word:
            raise bad_line(number, f'"{word}" is no name: it has one of * ( ) , in it or is empty')
        if word in names:
            raise bad_line(number, f'the name {word} is there twice')
        if re.fullmatch('[0-9]+', word) and word != str(place):
            raise bad_line(number, f'the name {word} is a number, and stands where number {place} stands')
        names[word] = place
    return names


def named(number, kind, names, word):
    """The number of a name, or of a number."""
    if word in names:
        return names[word]
    if re.fullmatch('0|[1-9][0-9]{0,3}', word) and int(word) < len(names):
        return int(word)
    raise bad_line(number, f'no {kind} is called {word}; there are {" ".join(names)}')


def numbered(words):
    return {word: number for number, word in enumerate(words)}


# ---- walkers

class Walker:
    """A walker's text, read and checked: the limits of document 01, and its lines 8 and 9 rule by rule."""
    LINES = 'states, symbols, start, final or rule'

    def __init__(self, text):
        lines, rules = {}, []
        for number, words in text_lines(text):
            kind = words[0]
            if kind == 'rule':
                rules.append((number, words[1:]))
            elif kind not in ('states', 'symbols', 'start', 'final'):
                raise bad_line(number, f'a line begins with {self.LINES}, and not with {kind}')
            elif kind in lines:
                raise bad_line(number, f'a second line of {kind}; the first is line {lines[kind][0]}')
            else:
                lines[kind] = number, words[1:]
        for kind in ('states', 'symbols', 'start', 'final'):
            if kind not in lines:
                raise Bad(f'no line begins with {kind}')
        self.read_names(*lines['states'], *lines['symbols'])
        self.start = self.states_of(*lines['start'])
        self.final = self.states_of(*lines['final'])
        self.rules = [self.rule(place, *rule) for place, rule in enumerate(rules)]

    def read_names(self, states_line, states, symbols_line, symbols):
        self.states = listed(states_line, states, STATES)
        self.branches = {i for i, word in enumerate(symbols) if word.endswith('*')}
        self.symbols = listed(symbols_line, [word[:-1] if word.endswith('*') else word for word in symbols], SYMBOLS)
        self.names = list(self.symbols)

    def states_of(self, number, words):
        members = [named(number, 'state', self.states, word) for word in words]
        if len(set(members)) < len(members):
            raise bad_line(number, 'a state is there twice')
        return members

    def rule(self, place, number, words):
        if place >= RULES:
            raise bad_line(number, f'more than {RULES} rules')
        if len(words) != 5:
            raise bad_line(number, f'a rule has symbol, state, place, move and next state; here are {len(words)} words')
        kinds = [('symbol', self.symbols), ('state', self.states), ('place', numbered(PLACES)), ('move', numbered(MOVES)), ('state', self.states)]
        rule = [named(number, kind, names, word) for (kind, names), word in zip(kinds, words)]
        reason = misplaced(rule, self.branches)
        if reason:
            raise bad_line(number, reason)
        return rule

    def file(self):
        sets = [sum(1 << i for i in numbers) for numbers in (self.start, self.final, self.branches)]
        return walker_file(len(self.states), len(self.symbols), *sets, self.rules)


def misplaced(rule, branches):
    """Line 9: why a rule may not stand, if so."""
    symbol, _, place, move, _ = rule
    if move > 1 and symbol not in branches:
        return 'the rule moves down at a leaf symbol'
    if move == 1 and place in (0, 3):
        return f'the rule moves up, and its place is {PLACES[place]}: up is for the places left and right'
    return None


def text_lines(text):
    """The lines that have words, with their numbers."""
    for number, line in enumerate(re.split('\r\n|\n|\r', text), 1):
        words = line.split('#')[0].split()
        if words:
            yield number, words


# ---- letters

class Tree:
    """A tree that is read word by word: its symbols in preorder, and for each branch that is open what has to come next."""

    def __init__(self, walker, number):
        self.walker, self.number = walker, number
        self.symbols, self.open = [], []

    def error(self, reason):
        return bad_line(self.number, reason)

    def node(self, word):
        if word in ('(', ',', ')'):
            raise self.error(f'a symbol should stand where "{word}" does')
        symbol = named(self.number, 'symbol', self.walker.symbols, word)
        if len(self.open) > HEIGHT:
            raise self.error(f'the tree is higher than {HEIGHT}')
        if len(self.symbols) >= NODES:
            raise self.error(f'the tree has more than {NODES:,} nodes')
        self.symbols.append(symbol)
        return symbol

    def read(self, words):
        words = iter(words + [''])
        word = next(words)
        while True:
            if word == '':
                raise self.error('the line ends inside the tree')
            branch = self.node(word) in self.walker.branches
            name, word = word, next(words)
            if branch != (word == '('):
                raise self.error(f'{name} has two parts: {name}(.., ..)' if branch else f'{name} is a leaf symbol and has no parts')
            if branch:
                self.open.append(',')
            else:
                word = self.close(word, words)
                if not self.open:
                    return self.end(word)
            word = next(words)

    def close(self, word, words):
        """After a part: a comma, or the ends of the branches that end here. The word after them."""
        while self.open:
            mark = self.open.pop()
            if word != mark:
                raise self.error(f'"{mark}" should stand {"at the end" if word == "" else "before " + word}')
            if mark == ',':
                self.open.append(')')
                return word
            word = next(words)
        return word

    def end(self, word):
        if word != '':
            raise self.error(f'the tree has ended before {word}')
        return self.symbols


def letters(walker, text):
    file = []
    for number, words in text_lines(text):
        file.append(letter_file(Tree(walker, number).read(re.findall(r'[^\s(),]+|[(),]', ' '.join(words)))))
    if not file:
        raise Bad('no tree is in it')
    return b''.join(file)


# ---- back: files

def refused(number, place, reason):
    return Bad(f'refused={number} place={place}: {reason}')


def prefixed(prefix, work):
    """The work; what is wrong is said with a prefix."""
    try:
        return work()
    except Bad as reason:
        raise Bad(prefix + str(reason))


def check_blocks(file, first=0):
    for at in range(0, len(file), 512):
        block = first + at // 512
        if check_of(file[at:at + 508], block) != file[at + 508:at + 512]:
            raise refused(2, block, f'the check of block {block} is wrong')


def check_zeros(payload, offsets):
    for offset in offsets:
        if payload[offset]:
            raise refused(6, offset, f'the byte at offset {offset} is {payload[offset]} and should be zero')


def walker_counts(file):
    """Lines 1 to 5 of a walker file: its contents and the number of its rules."""
    if not file or len(file) % 512 or len(file) > WALKER_BYTES:
        raise refused(1, 0, f'the length is no multiple of 512, or not from 512 to {WALKER_BYTES:,}')
    check_blocks(file)
    payload = contents(file)
    if payload[0] != 87:
        raise refused(3, 0, f'the kind is {payload[0]}: 87 is a walker, 84 a letter')
    rules = struct.unpack('<H', payload[4:6])[0]
    for offset, what, count, least, most in [(1, 'states', payload[1], 1, STATES), (2, 'symbols', payload[2], 1, SYMBOLS), (4, 'rules', rules, 0, RULES)]:
        if not least <= count <= most:
            raise refused(4, offset, f'{count} {what}, where {least} to {most} may be')
    need = blocks_for(20 + 5 * rules)
    if len(file) != 512 * need:
        raise refused(5, need, f'{len(file) // 512} blocks, where {rules} rules need {need}')
    return payload, rules


def check_walker(payload, rules):
    """Lines 6 to 9, of a walker that can be shown."""
    check_zeros(payload, [3, 6, 7, *range(20 + 5 * rules, len(payload))])
    states, symbols = payload[1], payload[2]
    for offset, limit in [(8, states), (12, states), (16, symbols)]:
        if struct.unpack('<I', payload[offset:offset + 4])[0] >> limit:
            raise refused(7, offset, f'the set at offset {offset} has a bit at or above {limit}')
    branches = {i for i in range(32) if struct.unpack('<I', payload[16:20])[0] >> i & 1}
    for i in range(rules):
        rule = payload[20 + 5 * i:25 + 5 * i]
        for what, value, limit in zip(('symbol', 'state', 'place', 'move', 'next state'), rule, (symbols, states, 4, 4, states)):
            if value >= limit:
                raise refused(8, i, f'rule {i} has the {what} {value}; {limit - 1} is the last')
        if misplaced(rule, branches):
            raise refused(9, i, f'rule {i}: {misplaced(rule, branches)}')


def walker_lines(payload, rules):
    start, final, branches = struct.unpack('<III', payload[8:20])
    members = lambda x: [str(i) for i in range(32) if x >> i & 1]
    yield ['states', *map(str, range(payload[1]))]
    yield ['symbols', *(f'{i}*' if branches >> i & 1 else str(i) for i in range(payload[2]))]
    yield ['start', *members(start)]
    yield ['final', *members(final)]
    for i in range(rules):
        symbol, state, place, move, following = payload[20 + 5 * i:25 + 5 * i]
        yield ['rule', str(symbol), str(state), name(PLACES, place), name(MOVES, move), str(following)]


def name(names, number):
    return names[number] if number < len(names) else str(number)


def show_walker(file, out):
    """Prints a walker whose rules can be found, and says then what else is wrong."""
    payload, rules = prefixed('walker ', lambda: walker_counts(file))
    for words in walker_lines(payload, rules):
        out.line(' '.join(words))
    prefixed('walker ', lambda: check_walker(payload, rules))


def letter(block, source):
    """The contents of the letter that begins with a block, the rest read from its source, and the number of its nodes."""
    if len(block) < 512:
        raise Bad(f'the file stops inside a letter, {len(block)} bytes after its beginning')
    check_blocks(block)
    if block[0] != 84:
        raise refused(3, 0, f'the kind is {block[0]}: 84 is a letter')
    nodes = struct.unpack('<H', block[2:4])[0]
    if not 1 <= nodes <= NODES:
        raise refused(4, 2, f'{nodes} nodes, where 1 to {NODES:,} may be')
    size = 512 * blocks_for(4 + nodes)
    rest = source.read(size - 512)
    if len(rest) < size - 512:
        raise Bad(f'the file stops inside a letter of {size} bytes, {512 + len(rest)} bytes after its beginning')
    check_blocks(rest, 1)
    return contents(block + rest), nodes


def check_tree(walker, nodes):
    """Lines 10 to 12, of the nodes of a letter."""
    for node, symbol in enumerate(nodes):
        if symbol >= len(walker.names):
            raise refused(10, node, f'node {node} has the symbol {symbol}; {len(walker.names) - 1} is the last')
    depths, deep = [0], None
    for node, symbol in enumerate(nodes):
        if not depths:
            raise refused(11, node, f'the tree has ended before node {node}')
        depth = depths.pop()
        if depth > HEIGHT and deep is None:
            deep = node
        if symbol in walker.branches:
            depths += [depth + 1] * 2
    if depths:
        raise refused(11, len(nodes), 'the tree has not ended by the last node')
    if deep is not None:
        raise refused(12, deep, f'node {deep} is {HEIGHT + 1} steps below the root')


def tree_text(walker, nodes):
    """The tree of a letter's nodes, as a list of trees has it."""
    check_tree(walker, nodes)
    trees = []
    for symbol in reversed(nodes):
        name = walker.names[symbol]
        trees.append(f'{name}({trees.pop()}, {trees.pop()})' if symbol in walker.branches else name)
    return trees.pop()


def numbers(nodes):
    return ' '.join(map(str, nodes))


def show_letters(block, source, out, text=numbers):
    """Prints the nodes of each letter, as numbers or as `text` has them; the table's lines from 10 on need a walker."""
    number = 0
    while block:
        prefix = f'letter {number}, from 0: '
        payload, nodes = prefixed(prefix, lambda: letter(block, source))
        out.line(prefixed(prefix, lambda: text(payload[4:4 + nodes])))
        prefixed(prefix, lambda: check_zeros(payload, [1, *range(4 + nodes, len(payload))]))
        block, number = source.read(512), number + 1


def show(path, out):
    with open(path, 'rb') as source:
        block = source.read(512)
        if len(block) == 512 and block[0] == 84:
            show_letters(block, source, out)
        else:
            show_walker(block + source.read(WALKER_BYTES), out)


# ---- back: plans

class Plan:
    """A plan's rows, checked by a walker: for each row its symbol and parts, how many nodes its tree has, and its height."""

    def __init__(self, walker, plan):
        if not plan or len(plan) % 3 or len(plan) > PLAN_BYTES:
            raise Bad(f'a plan has 3 bytes a row, 1 to 65 rows; here are {"more than 195" if len(plan) > PLAN_BYTES else len(plan)} bytes')
        self.walker, self.rows, self.nodes, self.heights = walker, [], [], []
        for at in range(0, len(plan), 3):
            self.add(*plan[at:at + 3])

    def add(self, symbol, left, right):
        row = len(self.rows)
        if symbol >= len(self.walker.symbols):
            raise Bad(f'row {row}: no symbol {symbol}; {len(self.walker.symbols) - 1} is the last')
        if (symbol not in self.walker.branches) != ((left, right) == (255, 255)):
            raise Bad(f'row {row}: a leaf symbol has the parts 255 255, and no other symbol has')
        if (left, right) == (255, 255):
            parts, nodes, height = (), 1, 0
        elif left < row and right < row:
            parts, nodes, height = (left, right), 1 + self.nodes[left] + self.nodes[right], 1 + max(self.heights[left], self.heights[right])
        else:
            raise Bad(f'row {row}: its parts {left} and {right} are not both earlier rows')
        self.rows.append((self.walker.names[symbol], parts))
        self.nodes.append(nodes)
        self.heights.append(height)

    def text(self, row):
        name, parts = self.rows[row]
        return f'{name}({", ".join(map(self.text, parts))})' if parts else name

    def tree(self):
        if self.nodes[-1] > NODES:
            raise Bad(f'the plan builds a tree of {self.nodes[-1]:,} nodes, of height {self.heights[-1]}; over {NODES:,} nodes none is printed')
        return self.text(len(self.rows) - 1)


# ---- doors

class Output:
    """Standard output in UTF-8; that a line was lost is an error."""

    def __init__(self):
        if sys.stdout is None:
            raise Lost('standard output is closed')
        self.stream = sys.stdout.buffer

    def attempt(self, work, *arguments):
        try:
            work(*arguments)
        except OSError as reason:
            raise Lost(f'standard output: {reason.strerror}')

    def line(self, text):
        self.attempt(self.stream.write, text.encode() + b'\n')

    def end(self):
        self.attempt(self.stream.flush)


def read_text(path):
    with open(path, 'rb') as file:
        text = file.read(TEXT_BYTES + 1)
    if len(text) > TEXT_BYTES:
        raise Bad(f'over {TEXT_BYTES:,} bytes')
    try:
        return text.decode('utf-8-sig')
    except UnicodeDecodeError as reason:
        raise bad_line(text[:reason.start].count(b'\n') + 1, 'not UTF-8')


def read_plan(path):
    with open(path, 'rb') as file:
        return file.read(PLAN_BYTES + 1)


def write_file(path, data):
    """Puts the data in the place of a file: first beside it, then by its name, so that no part of it is ever there. What is no plain file,
    as a device, is written to where it is."""
    if os.path.exists(path) and not os.path.isfile(path):
        with open(path, 'wb') as file:
            file.write(data)
    else:
        replace_file(os.path.realpath(path), data)


def replace_file(path, data):
    beside = os.path.join(os.path.dirname(path), f'.twa-{os.getpid()}')
    handle = os.open(beside, os.O_WRONLY | os.O_CREAT | os.O_EXCL, 0o666)
    try:
        with open(handle, 'wb') as file:
            if os.path.exists(path):
                os.fchmod(handle, stat.S_IMODE(os.stat(path).st_mode))
            file.write(data)
        os.replace(beside, path)
    except BaseException:
        os.unlink(beside)
        raise


def of(path, work):
    """The work on a file; what is wrong with it is said with its name."""
    try:
        return prefixed(f'{path}: ', work)
    except OSError as reason:
        raise Bad(f'{path}: {reason.strerror}')


def read_walker(path):
    return of(path, lambda: Walker(read_text(path)))


def walker_of(file):
    """The walker of a file, with numbers for names."""
    payload, rules = prefixed('walker ', lambda: walker_counts(file))
    prefixed('walker ', lambda: check_walker(payload, rules))
    return Walker('\n'.join(map(' '.join, walker_lines(payload, rules))))


def read_either(path):
    """The walker of a text or of a file, which begins with its kind, W."""
    with open(path, 'rb') as file:
        start = file.read(WALKER_BYTES + 1)
    return walker_of(start) if start[:1] == b'W' else Walker(read_text(path))


def distinct(target, *sources):
    for source in sources:
        if os.path.isfile(target) and os.path.isfile(source) and os.path.samefile(target, source):
            raise Bad(f'{target}: the file to write is a text to be read')


def write_walker(text, target):
    distinct(target, text)
    file = read_walker(text).file()
    of(target, lambda: write_file(target, file))


def write_letters(text, trees, target):
    distinct(target, text, trees)
    walker = read_walker(text)
    file = of(trees, lambda: letters(walker, read_text(trees)))
    of(target, lambda: write_file(target, file))


def show_file(path):
    out = Output()
    try:
        of(path, lambda: show(path, out))
    finally:
        out.end()


def show_trees(walker, path):
    out = Output()
    read = of(walker, lambda: read_either(walker))

    def show_all():
        with open(path, 'rb') as source:
            show_letters(source.read(512), source, out, lambda nodes: tree_text(read, nodes))
    try:
        of(path, show_all)
    finally:
        out.end()


def show_plan(text, path):
    out = Output()
    walker = read_walker(text)
    out.line(of(path, lambda: Plan(walker, read_plan(path)).tree()))
    out.end()


def show_help():
    out = Output()
    out.line(__doc__)
    out.end()


COMMANDS = {('walker', 2): write_walker, ('letters', 3): write_letters, ('show', 1): show_file, ('plan', 2): show_plan, ('trees', 2): show_trees, ('--help', 0): show_help}


def fail(status, message):
    """Ends by a status and a message, of which a long end is cut. Python's own end would tell of lost output again."""
    if len(message) > MESSAGE:
        message = message[:MESSAGE] + ' ..'
    try:
        os.write(2, f'{message}\n'.encode(errors='backslashreplace'))
    finally:
        os._exit(status)


def main(arguments):
    command = COMMANDS.get((arguments[0] if arguments else '', len(arguments) - 1))
    if command is None:
        fail(2, __doc__)
    try:
        command(*arguments[1:])
    except (Bad, Lost) as reason:
        fail(1, f'twa.py: {reason}')


if __name__ == '__main__':
    main(sys.argv[1:])
