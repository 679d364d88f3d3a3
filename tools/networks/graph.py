"""What every reader makes: a graph, the names of its nodes, and why there is none."""

import re
import unicodedata
from typing import NamedTuple

NAME_LENGTH = 32


class BadInput(Exception):
    """Why no network can be made of the input. The place is a line's number or an entry's name, or None."""

    def __init__(self, message, place=None):
        super().__init__(message)
        self.message, self.place = message, place


class Edge(NamedTuple):
    """An edge by the keys of its nodes. Of a kind 'provider' or 'peer', the labels depend on what the tail is."""
    tail: object
    head: object
    data: dict
    place: object
    is_directed: bool
    kind: str = ''


class Graph:
    """The attributes of each node by its key, in order, the edges in order, and what the reader left out."""

    def __init__(self):
        self.nodes, self.edges, self.notes = {}, [], []

    def add_node(self, key, data, place):
        if key in self.nodes:
            raise BadInput(f'the node {key} is there already', place)
        self.nodes[key] = data

    def add_edge(self, edge, makes_nodes=False):
        """Adds an edge; where no part of the file lists the nodes, its ends are added too."""
        if makes_nodes:
            self.nodes.setdefault(edge.tail, {})
            self.nodes.setdefault(edge.head, {})
        self.edges.append(edge)

    def check(self):
        """Refuses an edge of which an end isn't there, and a graph without nodes."""
        for edge in self.edges:
            for end in (edge.tail, edge.head):
                if end not in self.nodes:
                    raise BadInput(f'the edge from {edge.tail} to {edge.head} has no end: there is no node {end}',
                                   edge.place)
        if not self.nodes:
            raise BadInput('there is no node in it')


def as_text(value):
    """An attribute as it stands in a label: a number that is whole without its point."""
    if isinstance(value, float) and value.is_integer():
        return str(int(value))
    text = str(value).strip()
    return re.sub(r'\.0*\Z', '', text) if re.fullmatch(r'-?\d+\.0*', text) else text


def cleaned(text):
    """The name of a network file that is nearest to a text, or '' where no letter or digit would be left."""
    plain = ''.join(it for it in unicodedata.normalize('NFKD', text) if not unicodedata.combining(it))
    inner = re.sub(r'\A[^A-Za-z0-9_.-]+|[^A-Za-z0-9_.-]+\Z', '', plain)
    name = re.sub(r'[^A-Za-z0-9_.-]+', '_', inner)[:NAME_LENGTH]
    return name if re.search('[A-Za-z0-9]', name) else ''


def wanted_names(nodes, attribute):
    """The name that each node wants, by its key: that attribute, else `label`, and the key where it has none."""
    wanted = {}
    for key, data in nodes.items():
        name = cleaned(str(data.get(attribute or 'label', '')))
        if attribute and not name:
            raise BadInput(f'the node {key} has no name in its attribute {attribute}; it has: {listed(data)}')
        wanted[key] = name or cleaned(str(key)) or 'node'
    return wanted


def told_apart(wanted):
    """The same names, where one that an earlier node has ends with a number of its own, within 32 characters."""
    taken, used, numbers, found = set(wanted.values()), set(), {}, {}
    for key, name in wanted.items():
        new = name
        while new in used or (new != name and new in taken):
            numbers[name] = numbers.get(name, 1) + 1
            suffix = f'_{numbers[name]}'
            new = name[:NAME_LENGTH - len(suffix)] + suffix
        used.add(new)
        found[key] = new
    return found


def listed(words):
    """Some words as a list that fits on a line."""
    words = [str(it) for it in words]
    return ', '.join(words[:20]) + (f' and {len(words) - 20} more' if len(words) > 20 else '') or 'none'
