"""A plain reader of expression files: the algebra that a file means, or its first fault and the place of that."""

import re

SKIPPED = re.compile(rb'(?:[ \t\n\r]+|#[^\n]*)*')
TOKEN = re.compile(rb'([A-Za-z_][A-Za-z0-9_]*)|([0-9]+)|(\.\.|->|[(){},;:=<])')
GREATEST = {1: 4294967295, 2: 18446744073709551615}
MOST_NODES, MOST_NAMES = 256, 16

RANGES = ('add',)
TOP_RANGES = ('cap', 'worst', 'width')
SINGLE = ('lp', 'op', 'seq', 'simseq', 'tags', 'guard')
PAIRS = ('lex', 'scoped', 'union', 'sum', 'plus')
WRAPPED = ('left', 'right')
OPERATORS = (*RANGES, *TOP_RANGES, *SINGLE, 'gate', 'table', *PAIRS, *WRAPPED)
RESERVED = ('let', 'main', *OPERATORS)
# The least and the greatest N where there is a rule for it.
BOUNDS = {'seq': (1, None), 'simseq': (1, 1024), 'tags': (1, 64), 'guard': (1, 64)}


class Fault(Exception):
    """The number of a fault and the byte at which it stands."""

    def __init__(self, number, at):
        super().__init__(number)
        self.number, self.at = number, at


class Tree:
    """An expression: its operator, its numbers or names, its parts, how many nodes it has, and its carrier."""

    def __init__(self, kind, numbers=(), parts=(), rows=None):
        self.kind, self.numbers, self.parts, self.rows = kind, numbers, parts, rows
        self.nodes = 1 + sum(part.nodes for part in parts)
        self.carrier = carrier_of(self)


class Table:
    """What stands in the braces of a table: the names of its values, the rank of each, and the names of its rows."""

    def __init__(self):
        self.names, self.ranks, self.rows = [], [], []


def carrier_of(tree):
    """The values and their order, as data that is equal exactly where the carriers are the same."""
    kind, numbers = tree.kind, tree.numbers
    if kind == 'add':
        return ('from',)
    if kind in ('cap', 'worst', 'op'):
        return ('up to', numbers[0])
    if kind in ('width', 'lp'):
        return ('down from', numbers[0])
    if kind in ('seq', 'simseq'):
        return (kind, numbers[0])
    if kind in ('tags', 'guard'):
        return ('sets', numbers[0])
    if kind == 'gate':
        return ('one',)
    if kind == 'table':
        return ('table', tuple(tree.rows.names), tuple(tree.rows.ranks))
    if kind in ('plus', 'left', 'right'):
        return tree.parts[0].carrier
    return ('pair' if kind in ('lex', 'scoped') else 'sides', tree.parts[0].carrier, tree.parts[1].carrier)


class Tokens:
    """The tokens of a text, taken one after another. `kind` is the next one's: word, number, mark, end or bad."""

    def __init__(self, data):
        self.data, self.next_at, self.profile = data, 0, 1
        self.take()

    def take(self):
        """Goes on to the next token."""
        self.at = SKIPPED.match(self.data, self.next_at).end()
        found = TOKEN.match(self.data, self.at)
        if found:
            self.kind = ('word', 'number', 'mark')[found.lastindex - 1]
            self.text, self.next_at = found.group(), found.end()
        else:
            self.kind, self.text = ('bad' if self.at < len(self.data) else 'end'), b''

    def fault(self, number):
        """That fault at this token, but for what has a lower number there."""
        if self.kind == 'bad':
            return Fault('X1', self.at)
        if number == 'X2' and self.kind == 'end':
            return Fault('X3', self.at)
        return Fault(number, self.at)

    def mark(self, *due):
        """Takes the next token, which is one of these marks."""
        if self.kind != 'mark' or self.text not in due:
            raise self.fault('X2')
        text = self.text
        self.take()
        return text

    def word(self):
        """The next token, which is a word. It is not taken."""
        if self.kind != 'word':
            raise self.fault('X2')
        return self.text.decode('ascii')

    def is_too_large(self):
        return self.kind == 'number' and value_of(self.text) > GREATEST[self.profile]

    def number(self):
        """The next token, which is a number. It is not taken."""
        if self.kind != 'number':
            raise self.fault('X2')
        if self.is_too_large():
            raise self.fault('X4')
        return value_of(self.text)


def value_of(digits):
    """The value of digits; where there are very many, some number that is above every bound."""
    digits = digits.lstrip(b'0') or b'0'
    return int(digits) if len(digits) < 60 else 10 ** 60


def read_table(tokens):
    """`{`, the values, the rows and `}`."""
    table, rank = Table(), 0
    tokens.mark(b'{')
    while True:
        name = tokens.word()
        if name == 'none' or name in table.names or len(table.names) == MOST_NAMES:
            raise tokens.fault('X10')
        table.names.append(name)
        table.ranks.append(rank)
        tokens.take()
        mark = tokens.mark(b'<', b'=', b';')
        if mark == b';':
            break
        rank += mark == b'<'
    while mark == b';':
        mark = read_row(tokens, table)
    return Tree('table', rows=table)


def read_row(tokens, table):
    """A row, and the mark after it: `;` or `}`."""
    name = tokens.word()
    if name == 'none' or name in table.rows or len(table.rows) == MOST_NAMES:
        raise tokens.fault('X10')
    table.rows.append(name)
    tokens.take()
    tokens.mark(b':')
    if tokens.word() == 'none':
        tokens.take()
        return tokens.mark(b';', b'}')
    mapped, mark = [], b','
    while mark == b',':
        name = tokens.word()
        if name not in table.names or name in mapped:
            raise tokens.fault('X10')
        mapped.append(name)
        tokens.take()
        tokens.mark(b'->')
        if tokens.word() not in ('none', *table.names):
            raise tokens.fault('X10')
        tokens.take()
        mark = tokens.mark(b',', b';', b'}')
    return mark


def is_formed(kind, numbers):
    """Whether the numbers of a base algebra keep its rule."""
    if kind in RANGES + TOP_RANGES and numbers[-2] > numbers[-1]:
        return False
    if kind in ('worst', 'width') and numbers[2] > numbers[0]:
        return False
    least, most = BOUNDS.get(kind, (0, None))
    return numbers[0] >= least and (most is None or numbers[0] <= most)


def read_base(tokens, kind):
    """`(`, the numbers of a base algebra and `)`."""
    marks = [b'(', b'..', b')'] if kind in RANGES else [b'(', b')']
    if kind in TOP_RANGES:
        marks = [b'(', b';', b'..', b')']
    numbers = []
    for mark in marks[:-1]:
        tokens.mark(mark)
        numbers.append(tokens.number())
        if len(numbers) == len(marks) - 1 and not is_formed(kind, numbers):
            raise tokens.fault('X7')
        tokens.take()
    tokens.mark(marks[-1])
    return Tree(kind, tuple(numbers))


def read_parts(tokens, kind, names, count):
    """`(`, one expression or two, and `)`."""
    parts = []
    for mark in (b'(', b',') if kind in PAIRS else (b'(',):
        tokens.mark(mark)
        parts.append(read_expression(tokens, names, count))
    if kind == 'plus' and tokens.text == b')' and parts[0].carrier != parts[1].carrier:
        raise tokens.fault('X8')
    tokens.mark(b')')
    return Tree(kind, parts=tuple(parts))


def read_expression(tokens, names, count):
    """An expression; `count` is a list of how many nodes there are so far in this `let` or `main`."""
    kind = tokens.word()
    if kind not in OPERATORS and kind not in names:
        raise tokens.fault('X5')
    count[0] += 1 if kind in OPERATORS else names[kind].nodes
    if count[0] > MOST_NODES:
        raise tokens.fault('X9')
    tokens.take()
    if kind not in OPERATORS:
        return names[kind]
    if kind == 'gate':
        return Tree('gate')
    if kind == 'table':
        return read_table(tokens)
    if kind in PAIRS + WRAPPED:
        return read_parts(tokens, kind, names, count)
    return read_base(tokens, kind)


def read_header(tokens):
    """`raml`, the number of a profile and `;`, where the file has that."""
    if tokens.kind != 'word' or tokens.text != b'raml':
        return
    tokens.take()
    profile = tokens.number()
    if profile not in GREATEST:
        raise tokens.fault('X12')
    tokens.take()
    if tokens.kind != 'mark' or tokens.text != b';':
        raise tokens.fault('X2')
    tokens.profile = profile
    tokens.take()


def read_let(tokens, names):
    """What stands after the word `let`."""
    name = tokens.word()
    if name in RESERVED or name in names:
        raise tokens.fault('X6')
    tokens.take()
    tokens.mark(b'=')
    names[name] = read_expression(tokens, names, [0])
    tokens.mark(b';')


def read_file(data):
    """The tree of `main` and the file's profile; raises the first fault."""
    tokens, names = Tokens(data), {}
    read_header(tokens)
    while True:
        word = tokens.word()
        if word not in ('let', 'main'):
            raise tokens.fault('X2')
        tokens.take()
        if word == 'main':
            break
        read_let(tokens, names)
    tree = read_expression(tokens, names, [0])
    tokens.mark(b';')
    if tokens.is_too_large():
        raise tokens.fault('X4')
    if tokens.kind != 'end':
        raise tokens.fault('X11')
    return tree, tokens.profile


def place_of(data, at):
    """The line and the column of a byte, both from 1."""
    return data.count(b'\n', 0, at) + 1, at - (data.rfind(b'\n', 0, at) + 1) + 1


def judge(data):
    """The tree, the profile and '', or nothing, no profile and the line that refuses the file."""
    try:
        return (*read_file(data), '')
    except Fault as fault:
        line, column = place_of(data, fault.at)
        return None, 0, f'expression refused: {fault.number} at {line}:{column}'
