"""Reads network files, and the rows that `meta` prints, for drawing."""

import re

NAME = re.compile(r'[A-Za-z0-9_.-]{1,32}')
POLICY = re.compile(r'(?m)^[ \t]*(raml[ \t]+\d+[ \t]*;|let[ \t]+\w+[ \t]*=|main\b)')


class BadInput(Exception):
    """Why nothing is drawn, and the line where."""

    def __init__(self, message, line=None):
        super().__init__(message)
        self.message, self.line = message, line


class Network:
    """What is drawn: the nodes in order, the label of each arc, and the origins as (destination, node, value)."""

    def __init__(self):
        self.nodes, self.arcs, self.origins, self.changes = [], {}, [], 0

    def destinations(self):
        return list(dict.fromkeys(dest for dest, *_ in self.origins))

    def add_nodes(self, names, line):
        for name in names:
            if name in self.nodes:
                raise BadInput(f'the node {name} is there already', line)
            self.nodes.append(name)

    def add_arc(self, tail, head, label, line):
        if (tail, head) in self.arcs:
            raise BadInput(f'there is an arc from {tail} to {head} already', line)
        self.arcs[tail, head] = label

    def add_origin(self, dest, node, value, line):
        if any(it[:2] == (dest, node) for it in self.origins):
            raise BadInput(f'{dest} has an origin at {node} already', line)
        self.origins.append((dest, node, value))

    def drop(self, tail, head, line):
        if (tail, head) not in self.arcs:
            raise BadInput(f'there is no arc from {tail} to {head} to drop', line)
        del self.arcs[tail, head]


class Reader:
    """Reads the lines of a network file, with the first so many of its changes (all where that is None)."""

    def __init__(self, at_most):
        self.network, self.at_most = Network(), at_most

    def read_line(self, text, line):
        front, colon, literal = text.split('#')[0].partition(':')
        words, literal = front.split(), literal.strip()
        if not words and not colon:
            return
        if words[:1] == ['node'] and len(words) > 1 and not colon:
            self.before_changes(line)
            self.network.add_nodes([self.named(it, line) for it in words[1:]], line)
        elif words[:1] in (['link'], ['both']) and len(words) == 3 and literal:
            self.before_changes(line)
            self.join(words[0], *self.ends(words[1:], line), literal, line)
        elif words[:1] == ['origin'] and words[2:3] == ['at'] and len(words) == 4 and literal:
            self.before_changes(line)
            self.network.add_origin(self.named(words[1], line), self.known(words[3], line), literal, line)
        elif words[:2] == ['then', 'link'] and len(words) == 4 and literal:
            self.change(self.ends(words[2:], line), literal, line)
        elif words[:2] == ['then', 'drop'] and len(words) == 4 and not colon:
            self.change(self.ends(words[2:], line), None, line)
        else:
            raise BadInput(f'no line of a network: {text.strip()[:60]}', line)

    def before_changes(self, line):
        if self.network.changes:
            raise BadInput('a change comes before this line, and changes come last', line)

    def named(self, name, line):
        if not NAME.fullmatch(name):
            raise BadInput(f'no name (1 to 32 letters, digits, _, - and .): {name[:60]}', line)
        return name

    def known(self, name, line):
        if self.named(name, line) not in self.network.nodes:
            raise BadInput(f'there is no node {name} before this line', line)
        return name

    def ends(self, names, line):
        tail, head = (self.known(it, line) for it in names)
        if tail == head:
            raise BadInput(f'an arc joins two nodes, and not {tail} and itself', line)
        return tail, head

    def join(self, word, tail, head, label, line):
        self.network.add_arc(tail, head, label, line)
        if word == 'both':
            self.network.add_arc(head, tail, label, line)

    def change(self, ends, label, line):
        self.network.changes += 1
        if self.at_most is not None and self.network.changes > self.at_most:
            return
        if label is None:
            self.network.drop(*ends, line)
        else:
            self.network.arcs[ends] = label


def read_network(text, at_most):
    """The network after its first so many changes."""
    reader = Reader(at_most)
    try:
        for number, line in enumerate(text.split('\n'), 1):
            reader.read_line(line, number)
    except BadInput as error:
        if POLICY.search(text):
            error.message = 'this is a policy, and not a network file'
        raise
    if not reader.network.nodes:
        raise BadInput('there is no node in it')
    if (at_most or 0) > reader.network.changes:
        raise BadInput(f'--changes asks for {at_most} changes, and it has {reader.network.changes}')
    return reader.network


class Rows:
    """The rows of each phase as (destination, node, value, path), without a path where there is no route."""

    def __init__(self):
        self.phases, self.is_run = {0: []}, False

    def last(self):
        return max(self.phases)

    def add_line(self, words, nodes, dests, line):
        phase = self.phases[self.last()]
        is_row = len(words) > 2 and words[0] in nodes and words[1] in dests
        if is_row and words[2:] == ['none']:
            phase.append((words[1], words[0], 'none', []))
        elif is_row and words[3:4] == words[:1] and set(words[3:]) <= nodes:
            phase.append((words[1], words[0], words[2], words[3:]))
        elif len(words) == 2 and words[0] in ('phase', 'quiet', 'spent') and words[1].isdigit():
            self.is_run = True
            if words[0] == 'phase':
                self.phases[int(words[1])] = []
        elif not is_passed_over(words, nodes, dests):
            raise BadInput(f'no row of this network: {" ".join(words)[:60]}', line)


def is_passed_over(words, nodes, dests):
    """Whether a line is a delivery, or stands above the rows of the one stable table of a destination."""
    is_delivery = len(words) == 3 and words[0].isdigit() and set(words[1:]) <= nodes
    return is_delivery or words == ['table', '1'] or (words[0] in dests and words[1:] == ['1', 'stable'])


def read_rows(text, network):
    """The rows of an output of route, flood, stable, settle, run or trace."""
    rows, nodes, dests = Rows(), set(network.nodes), set(network.destinations())
    for number, line in enumerate(text.split('\n'), 1):
        if line.strip():
            rows.add_line(line.split(), nodes, dests, number)
    if not any(rows.phases.values()):
        raise BadInput('there is no row in it')
    return rows
