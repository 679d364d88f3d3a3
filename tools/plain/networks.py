"""A plain reader of network files: the network that a file means, or its first fault and the line of that."""

import re

from plain.expressions import GREATEST
from plain.literals import is_label, is_value

NAME = re.compile(rb'[A-Za-z0-9_.-]{1,32}')
WORD = re.compile(rb'[^ \t]+')
MOST_BYTES = 4096
# Nodes, arcs, destinations and changes of each profile.
LIMITS = {1: (512, 8192, 64, 16), 2: (4096, 8192, 8, 4)}


class BadLine(Exception):
    """The number of the fault of a line."""


class Network:
    """What the lines so far give: nodes, arcs with their labels in order, destinations, origins and changes."""

    def __init__(self, tree, profile):
        self.tree, self.profile = tree, profile
        self.nodes, self.arcs, self.dests, self.origins, self.changes = {}, {}, {}, set(), 0
        # The arcs and their labels before the first change.
        self.first_arcs = None

    def is_label(self, text):
        return is_label(text, self.tree, GREATEST[self.profile])

    def is_value(self, text):
        return is_value(text, self.tree, GREATEST[self.profile])

    def check_limits(self):
        counts = len(self.nodes), len(self.arcs), len(self.dests), self.changes
        if any(count > limit for count, limit in zip(counts, LIMITS[self.profile])):
            raise BadLine('N9')


def names_in(words):
    if any(not NAME.fullmatch(word) for word in words):
        raise BadLine('N1')
    return words


def is_form(words, form):
    """Whether words are those of a form, in which None stands for a name."""
    if len(words) != len(form) or any(due not in (None, word) for word, due in zip(words, form)):
        return False
    names_in([word for word, due in zip(words, form) if due is None])
    return True


class Line:
    """A line without its end and its comment: the words before its colon, and what follows the colon, or None."""

    def __init__(self, line):
        if len(line) > MOST_BYTES:
            raise BadLine('N1')
        line = line[:-1] if line.endswith(b'\r') else line
        front, colon, text = line.partition(b'#')[0].partition(b':')
        self.words, self.text = WORD.findall(front), (text if colon else None)

    def is_empty(self):
        return not self.words and self.text is None

    def reader(self):
        """What adds the line to a network, and the words that are names; N1 where it has no form."""
        words, has_text = self.words, self.text is not None
        if not has_text and words[:1] == [b'node'] and len(words) > 1:
            return add_nodes, names_in(words[1:])
        if not has_text and is_form(words, (b'then', b'drop', None, None)):
            return drop_arc, words[2:]
        if has_text and is_form(words, (b'link', None, None)):
            return add_link, words[1:]
        if has_text and is_form(words, (b'both', None, None)):
            return add_both, words[1:]
        if has_text and is_form(words, (b'origin', None, b'at', None)):
            return add_origin, [words[1], words[3]]
        if has_text and is_form(words, (b'then', b'link', None, None)):
            return change_arc, words[2:]
        raise BadLine('N1')


def add_nodes(net, names, _):
    before_changes(net)
    for name in names:
        if name in net.nodes:
            raise BadLine('N3')
        net.nodes[name] = len(net.nodes)


def before_changes(net):
    if net.changes:
        raise BadLine('N10')


def check_ends(net, ends):
    if any(end not in net.nodes for end in ends):
        raise BadLine('N2')
    if ends[0] == ends[1]:
        raise BadLine('N5')


def add_arcs(net, pairs, text):
    before_changes(net)
    check_ends(net, pairs[0])
    if any(pair in net.arcs for pair in pairs):
        raise BadLine('N4')
    if not net.is_label(text):
        raise BadLine('N6')
    for pair in pairs:
        net.arcs[pair] = text


def add_link(net, names, text):
    add_arcs(net, [tuple(names)], text)


def add_both(net, names, text):
    add_arcs(net, [tuple(names), tuple(names[::-1])], text)


def add_origin(net, names, text):
    dest, node = names
    before_changes(net)
    if node not in net.nodes:
        raise BadLine('N2')
    if (dest, node) in net.origins:
        raise BadLine('N8')
    if not net.is_value(text):
        raise BadLine('N7')
    net.dests.setdefault(dest, len(net.dests))
    net.origins.add((dest, node))


def begin_change(net, names):
    check_ends(net, names)
    net.first_arcs = dict(net.arcs) if net.first_arcs is None else net.first_arcs
    net.changes += 1


def change_arc(net, names, text):
    begin_change(net, names)
    if not net.is_label(text):
        raise BadLine('N6')
    net.arcs[tuple(names)] = text


def drop_arc(net, names, _):
    begin_change(net, names)
    if tuple(names) not in net.arcs:
        raise BadLine('N11')
    del net.arcs[tuple(names)]


def lines_of(data):
    """The lines of a file; what stands after the last line feed is one if it isn't empty."""
    lines = data.split(b'\n')
    return lines if lines[-1] else lines[:-1]


def judge(data, tree, profile):
    """The network and '', or None and the line that refuses the file."""
    net = Network(tree, profile)
    for number, line in enumerate(lines_of(data), 1):
        try:
            line = Line(line)
            if not line.is_empty():
                add, names = line.reader()
                add(net, names, line.text)
                net.check_limits()
        except BadLine as fault:
            return None, f'network refused: {fault} at line {number}'
    return net, ''
