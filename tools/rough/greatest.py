"""Files of the greatest size: one kind of token, one word, nested parentheses, lets, one line, empty lines, and the like.
Each has the answer that the formats ask for, worked out by hand."""

MOST_BYTES = 4_194_304
SIZES = (MOST_BYTES // 4, MOST_BYTES // 2, MOST_BYTES)
# How much more than in proportion to its bytes a file may take, and seconds that don't count.
FACTOR, SLACK = 1.5, 0.1

SUMS = b'main add(1..10);\n'
PAIR = b'node a b\nlink a b : 1\norigin x at b : 0\n'
ROWS = b'a x 1 a b\nb x 0 b\n'
MARKS = (b'(', b')', b'{', b'}', b',', b';', b':', b'..', b'=', b'<', b'->')
NAMES = {'expression': 'the expression', 'network': 'the network', 'report': 'the report'}


class Greatest:
    """A kind of text. `make` gives it with so many bytes; `line` is the line that refuses it, or '', where {end} stands
    for one more than its bytes."""

    def __init__(self, kind, name, line, make):
        self.kind, self.name, self.line, self.make = kind, name, line, make

    def text(self, size):
        text = self.make(size)
        if len(text) != size:
            raise ValueError(f'{self.name}: {len(text)} bytes, not {size}')
        return text

    def refusal(self, size):
        return self.line.format(end=size + 1)

    def files(self, text):
        """The contents of the files of a run, the last of which is the text."""
        return {'expression': [], 'network': [SUMS], 'report': [SUMS, PAIR]}[self.kind] + [text]

    def command(self):
        return 'verify' if self.kind == 'report' else 'check'

    def too_long(self):
        return f'too long: {NAMES[self.kind]}'


def filled(front, part, back=b'', pad=b' '):
    """Makes texts of a front, of as many parts as there is room for, of a back, and of blanks or other bytes after it."""
    def make(size):
        count = (size - len(front) - len(back)) // len(part)
        return padded(front + part * count + back, size, pad)
    return make


def padded(text, size, pad=b' '):
    return text + pad * (size - len(text))


def named_twice(size):
    """A name that takes half of the bytes, where it is given and where it is used."""
    name = b'a' * ((size - 16) // 2)
    return padded(b'let ' + name + b'=gate;main ' + name + b';', size)


def lets(body, front=b''):
    """Makes lets with names of their own, each of that body, in which {before} stands for the name before."""
    def make(size):
        made, room = [front], size - len(front) - 10
        for number in range(1, 1_000_000):
            text = f'let n{number:06}={body.format(before=f"n{number - 1:06}")};'.encode()
            room -= len(text)
            if room < 0:
                break
            made.append(text)
        return padded(b''.join(made) + b'main gate;', size)
    return make


def doubled(count):
    """A let of a gate, and lets that each have twice as many nodes as the one before, and one more."""
    yield b'let d0=gate;'
    for number in range(1, count):
        yield f'let d{number}=lex(d{number - 1},d{number - 1});'.encode()


def expression(name, line, make):
    return Greatest('expression', name, line and 'expression refused: ' + line, make)


def network(name, line, make):
    return Greatest('network', name, line and 'network refused: ' + line, make)


def report(name, line, make):
    return Greatest('report', name, line and 'report refused: ' + line, make)


def texts():
    """All of them."""
    for mark in MARKS:
        yield expression('the mark ' + mark.decode(), 'X2 at 1:1', filled(b'', mark))
        yield expression('the mark ' + mark.decode() + ' after a whole file', 'X11 at 1:11', filled(b'main gate;', mark))
    yield expression('words', 'X2 at 1:1', filled(b'', b'a '))
    yield expression('numbers', 'X2 at 1:1', filled(b'', b'1 '))
    yield expression('bytes that begin no token', 'X1 at 1:1', filled(b'', b'\xff'))
    yield expression('one word', 'X2 at 1:1', filled(b'', b'a'))
    yield expression('one name, twice', '', named_twice)
    yield expression('one number, of ones', 'X4 at 1:10', filled(b'main add(', b'1', b'..2);'))
    yield expression('one number, of noughts', '', filled(b'main add(', b'0', b'1..2);'))
    yield expression('open parentheses', 'X2 at 1:6', filled(b'main ', b'('))
    # The 257th node is refused.
    yield expression('nested left', 'X9 at 1:1286', filled(b'main ', b'left('))
    yield expression('nested lex', 'X9 at 1:1030', filled(b'main ', b'lex('))
    yield expression('lets', '', lets('gate'))
    yield expression('lets of the one before', '', lets('{before}', b'let n000000=gate;'))
    yield expression('lets of 200 nodes', '', lets('left(' * 199 + 'gate' + ')' * 199))
    # A gate with seven doublings has 255 nodes.
    yield expression('lets of a name of 255 nodes', '', lets('d7', b''.join(doubled(8))))
    yield expression('one line', '', filled(b'main gate;', b' '))
    yield expression('one comment', 'X3 at 1:{end}', filled(b'#', b'x', pad=b'x'))
    yield expression('empty lines', 'X3 at {end}:1', filled(b'', b'\n'))
    yield expression('empty lines after a whole file', '', filled(b'main gate;', b'\n'))

    yield network('empty lines', '', filled(b'', b'\n'))
    yield network('one line', 'N1 at line 1', filled(b'', b' '))
    yield network('one name', 'N1 at line 1', filled(b'node ', b'a'))
    yield network('lines of 4,096 blanks', '', filled(b'', b' ' * 4096 + b'\n'))
    yield network('lines of 4,096 bytes of a comment', '', filled(b'', b'#' * 4096 + b'\n'))
    yield network('nodes', 'N9 at line 513', lambda size: padded(node_lines(size), size, b'\n'))
    yield network('the same node', 'N3 at line 2', filled(b'', b'node a\n', pad=b'\n'))
    yield network('the same arc', 'N4 at line 3', filled(b'node a b\n', b'link a b : 1\n', pad=b'\n'))
    yield network('the same change', 'N9 at line 18', filled(b'node a b\n', b'then link a b : 1\n', pad=b'\n'))
    yield network('the same origin', 'N8 at line 3', filled(b'node a\n', b'origin x at a : 1\n', pad=b'\n'))

    yield report('empty lines', 'V5 at line {end}', filled(b'', b'\n'))
    yield report('empty lines after the rows', '', filled(ROWS, b'\n'))
    yield report('one word', 'V1 at line 1', filled(b'', b'a'))
    yield report('one value', '', lambda size: b'a x ' + b'0' * (size - 17) + b'1 a b\nb x 0 b')
    yield report('one path', '', filled(b'a x 1 a', b' b', b'\nb x 0 b', pad=b'\n'))
    yield report('the same row', 'V3 at line 3', filled(ROWS, b'b x 0 b\n', pad=b'\n'))


def node_lines(size):
    return b''.join(f'node n{number:06}\n'.encode() for number in range(size // 13))
