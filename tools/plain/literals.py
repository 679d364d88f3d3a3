"""A plain reader of labels and values: whether a text is one of an algebra."""

import re

from plain.expressions import value_of

PART = re.compile(rb'([A-Za-z_][A-Za-z0-9_]*)|([0-9]+)|[^ \t]', re.S)
BLANKS = re.compile(rb'[ \t]*')


class Unread(Exception):
    """A text that is no label, or no value, of the algebra."""


class Parts:
    """The parts of a text: words, runs of digits and single marks. Numbers in it are at most `greatest`."""

    def __init__(self, text, greatest):
        self.parts, at = [], BLANKS.match(text).end()
        while at < len(text):
            found = PART.match(text, at)
            self.parts.append(found.group())
            at = BLANKS.match(text, found.end()).end()
        self.at, self.greatest = 0, greatest

    def next(self):
        return self.parts[self.at] if self.at < len(self.parts) else b''

    def take(self, *due):
        """The next part, which is one of these."""
        text = self.next()
        if text not in due or not text:
            raise Unread
        self.at += 1
        return text

    def number(self):
        text = self.next()
        if not text.isdigit() or value_of(text) > self.greatest:
            raise Unread
        self.at += 1
        return value_of(text)

    def number_below(self, bound):
        found = self.number()
        if found >= bound:
            raise Unread
        return found

    def number_among(self, low, high):
        found = self.number()
        if not low <= found <= high:
            raise Unread


def take_list(parts, marks, bound):
    """Numbers below a bound with commas between two marks."""
    found = []
    parts.take(marks[:1])
    while parts.next() != marks[1:]:
        if found:
            parts.take(b',')
        found.append(parts.number_below(bound))
    parts.take(marks[1:])
    return found


def take_value(parts, carrier):
    kind = carrier[0]
    if kind == 'from':
        parts.number()
    elif kind in ('up to', 'down from'):
        parts.number_among(0, carrier[1])
    elif kind in ('seq', 'simseq', 'sets'):
        found = take_list(parts, b'{}' if kind == 'sets' else b'[]', carrier[1])
        if kind != 'seq' and len(set(found)) < len(found):
            raise Unread
    elif kind == 'one':
        parts.take(b'unit')
    elif kind == 'table':
        parts.take(*(name.encode('ascii') for name in carrier[1]))
    elif kind == 'pair':
        parts.take(b'(')
        take_value(parts, carrier[1])
        parts.take(b',')
        take_value(parts, carrier[2])
        parts.take(b')')
    else:
        side = parts.take(b'l', b'r')
        parts.take(b':')
        take_value(parts, carrier[1] if side == b'l' else carrier[2])


def take_base_label(parts, tree):
    kind, numbers = tree.kind, tree.numbers
    if kind in ('add', 'cap', 'worst', 'width'):
        parts.number_among(*numbers[-2:])
    elif kind == 'lp':
        parts.number_among(0, numbers[0])
    elif kind in ('seq', 'simseq'):
        parts.number_below(numbers[0])
    elif kind == 'op':
        parts.take(b'keep')
    elif kind == 'gate':
        parts.take(b'allow', b'deny')
    elif kind == 'table':
        parts.take(*(name.encode('ascii') for name in tree.rows.rows))
    elif parts.take(*((b'keep', b'+', b'-') if kind == 'tags' else (b'?', b'!'))) != b'keep':
        parts.number_below(numbers[0])


def take_scoped_label(parts, tree):
    if parts.take(b'out', b'in') == b'out':
        parts.take(b'(')
        take_label(parts, tree.parts[0])
        parts.take(b',')
        take_value(parts, tree.parts[1].carrier)
    else:
        parts.take(b'(')
        take_label(parts, tree.parts[1])
    parts.take(b')')


def take_label(parts, tree):
    kind = tree.kind
    if kind in ('lex', 'sum'):
        parts.take(b'(')
        take_label(parts, tree.parts[0])
        parts.take(b',' if kind == 'lex' else b'|')
        take_label(parts, tree.parts[1])
        parts.take(b')')
    elif kind == 'scoped':
        take_scoped_label(parts, tree)
    elif kind in ('union', 'plus'):
        side = parts.take(b'l', b'r')
        parts.take(b':')
        take_label(parts, tree.parts[0] if side == b'l' else tree.parts[1])
    elif kind == 'left':
        take_value(parts, tree.carrier)
    elif kind == 'right':
        parts.take(b'keep')
    else:
        take_base_label(parts, tree)


def is_read(text, greatest, take, of):
    parts = Parts(text, greatest)
    try:
        take(parts, of)
    except Unread:
        return False
    return parts.at == len(parts.parts)


def is_value(text, tree, greatest):
    return is_read(text, greatest, take_value, tree.carrier)


def is_label(text, tree, greatest):
    return is_read(text, greatest, take_label, tree)
