"""Reads a policy that the program has accepted, so no fault is looked for here."""

import re

# How each operator is written.
OPERATORS = {
    'add': 'add(LOW..HIGH)',
    'cap': 'cap(TOP; LOW..HIGH)',
    'gate': 'gate',
    'guard': 'guard(N)',
    'left': 'left(A)',
    'lex': 'lex(A,B)',
    'lp': 'lp(TOP)',
    'op': 'op(TOP)',
    'plus': 'plus(A,B)',
    'right': 'right(A)',
    'scoped': 'scoped(A,B)',
    'seq': 'seq(N)',
    'simseq': 'simseq(N)',
    'sum': 'sum(A,B)',
    'table': 'table { a < b; ROW: a -> b }',
    'tags': 'tags(N)',
    'union': 'union(A,B)',
    'width': 'width(TOP; LOW..HIGH)',
    'worst': 'worst(TOP; LOW..HIGH)',
}
GREATEST = {1: 4294967295, 2: 18446744073709551615}
TOKEN = re.compile(rb'#[^\n]*|[ \t\r\n]+|\.\.|->|[A-Za-z_]\w*|\d+|.', re.S | re.A)


def tokens_of(data):
    """The tokens of an expression file with their places in the bytes; each other byte is a token of its own."""
    return [(it.group(), it.start()) for it in TOKEN.finditer(data) if it.group()[:1] not in b'# \t\r\n']


class Tree:
    """An expression: its operator, its numbers in order, its parts and, of a table, its values and its rows."""

    def __init__(self, operator, numbers=(), parts=(), values=(), rows=()):
        self.operator, self.numbers, self.parts, self.values, self.rows = operator, numbers, parts, values, rows


class Reading:
    """The tokens of a policy, read from the front."""

    def __init__(self, data):
        self.tokens = [text.decode('ascii') for text, _ in tokens_of(data)]
        self.at, self.names = 0, {}

    def take(self):
        self.at += 1
        return self.tokens[self.at - 1]

    def take_if(self, text):
        """Whether that token comes next; then it is taken."""
        found = self.tokens[self.at] == text
        self.at += found
        return found

    def policy(self):
        """The profile and the expression of `main`."""
        profile = 1
        if self.tokens[0] == 'raml' and self.tokens[1].isdigit():
            profile = int(self.tokens[1])
            self.at = 3
        while self.take_if('let'):
            name, _ = self.take(), self.take()
            self.names[name] = self.expression()
            self.take()
        self.take()
        return profile, self.expression()

    def expression(self):
        word = self.take()
        if word in self.names:
            return self.names[word]
        if word == 'gate':
            return Tree(word)
        self.take()
        if word == 'table':
            return self.table()
        numbers, parts = [], []
        while not self.take_if(')'):
            if self.tokens[self.at].isdigit():
                numbers.append(int(self.take()))
            elif not (self.take_if(',') or self.take_if(';') or self.take_if('..')):
                parts.append(self.expression())
        return Tree(word, numbers, parts)

    def table(self):
        values, rows = [self.take()], []
        while self.take_if('<') or self.take_if('='):
            values.append(self.take())
        while self.take_if(';'):
            rows.append(self.take())
            while self.tokens[self.at] not in (';', '}'):
                self.take()
        self.take()
        return Tree('table', values=values, rows=rows)


def policy_of(data):
    """The profile and the expression of an accepted policy."""
    return Reading(data).policy()
