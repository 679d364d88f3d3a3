"""Makes the lines of a network file of a graph: names, labels, arcs, origins, and the limits of the profile."""

import decimal
import difflib
import re
from typing import NamedTuple

from .graph import BadInput, Edge, cleaned, listed, told_apart, wanted_names

LINE_BYTES = 4096
FILE_BYTES = 4194304
# What no label and no value of a network file has; # would open a comment.
NO_LITERAL = r'[^\t -~]|#'


class Limits(NamedTuple):
    """What a network of a profile has at most."""
    nodes: int
    arcs: int
    destinations: int


PROFILES = {1: Limits(512, 8192, 64), 2: Limits(4096, 8192, 8)}


class Arc(NamedTuple):
    """An arc by the names of its nodes, and the edge that it is of."""
    label: str
    edge: Edge


class Template:
    """A label with attributes: {NAME} stands for one, and {{ and }} for braces."""

    def __init__(self, text, option):
        self.parts = re.findall(r'\{\{|\}\}|\{[^{}]+\}|[^{}]+|[{}]', text)
        if '{' in self.parts or '}' in self.parts:
            raise BadInput(f'{option} {text}: a brace is alone; {{NAME}} stands for an attribute, and {{{{ or }}}} for '
                           'a brace')

    def label(self, edge, missing):
        """The label of an edge; `missing` stands for an attribute that it doesn't have."""
        found = ''.join(self.part(it, edge, missing) for it in self.parts)
        if not found.strip() or re.search(NO_LITERAL, found):
            raise BadInput(f'a label is of printable ASCII without #, and not {found!r}', edge.place)
        return found

    @staticmethod
    def part(part, edge, missing):
        if part in ('{{', '}}'):
            return part[0]
        if not part.startswith('{'):
            return part
        found = edge.data.get(part[1:-1], missing)
        if found is None:
            raise BadInput(f'the edge from {edge.tail} to {edge.head} has no attribute {part[1:-1]} (it has: '
                           f'{listed(edge.data)}); --missing TEXT stands for it', edge.place)
        return found


class Rule:
    """Which of two edges that make one arc with two labels is taken."""

    def __init__(self, text):
        self.text = text
        self.word, _, self.attribute = text.partition(':')
        if self.word in ('least', 'greatest') and self.attribute:
            return
        if text not in ('first', 'last', 'refuse'):
            raise BadInput(f'--parallel is first, last, least:ATTRIBUTE, greatest:ATTRIBUTE or refuse, and not {text}')

    def takes_new(self, old, new, pair):
        """Whether the new one of two arcs with different labels is taken."""
        if self.word == 'refuse':
            raise BadInput(f'an arc from {pair[0]} to {pair[1]} is there, with the label {old.label} of '
                           f'{said_place(old.edge.place)}, and not {new.label}; --parallel says which is taken',
                           new.edge.place)
        if self.word in ('first', 'last'):
            return self.word == 'last'
        before, after = self.number(old.edge), self.number(new.edge)
        return after < before if self.word == 'least' else after > before

    def number(self, edge):
        """The attribute as a number."""
        try:
            found = decimal.Decimal(edge.data.get(self.attribute, ''))
            if not found.is_nan():
                return found
        except decimal.InvalidOperation:
            pass
        raise BadInput(f'--parallel {self.text} needs a number there, and the edge has '
                       f'{edge.data.get(self.attribute, "none")}', edge.place)


class Labels:
    """The labels of an edge's arcs: from its tail to its head, and back, where it makes an arc back."""

    def __init__(self, options):
        given = [it for it in ('label', 'reverse_label', 'customer', 'peer', 'provider')
                 if getattr(options, it) is not None]
        made = {it: Template(getattr(options, it), '--' + it.replace('_', '-')) for it in given}
        self.missing = options.missing
        self.there, self.back = made.get('label'), made.get('reverse_label')
        self.of_kind = {'provider': (made.get('customer'), made.get('provider')), 'peer': (made.get('peer'),) * 2}

    def of(self, edge):
        """The arcs of an edge as (pair of nodes, label)."""
        there, back = self.of_kind.get(edge.kind, (self.there, self.back))
        yield (edge.tail, edge.head), there.label(edge, self.missing)
        if back or not edge.is_directed:
            yield (edge.head, edge.tail), (back or there).label(edge, self.missing)


def said_place(place):
    """A place inside of a message."""
    return f'line {place}' if isinstance(place, int) else str(place)


def around(names, edges, start, hops):
    """The names that are at most so many edges away from a node."""
    near = {}
    for edge in edges:
        near.setdefault(edge.tail, []).append(edge.head)
        near.setdefault(edge.head, []).append(edge.tail)
    found = last = {checked_node(start, names, '--around')}
    for _ in range(hops):
        last = {other for name in last for other in near.get(name, [])} - found
        found = found | last
    return found


def checked_node(text, names, option):
    """A node by its name, also as the source spells it."""
    for name in (text, cleaned(text), text[2:] if re.fullmatch(r'AS\d+', text) else text):
        if name in names:
            return name
    close = difflib.get_close_matches(cleaned(text), names, 5) or list(names)[:5]
    raise BadInput(f'{option}: there is no node {text}; there are {len(names)}, as {", ".join(close)}')


def arcs_of(edges, labels, rule, notes):
    """The arcs by their two names, in order of first sight."""
    found, made = {}, []
    for edge in edges:
        if edge.tail == edge.head:
            notes.append((edge.place, f'a loop at {edge.tail} is left out'))
            continue
        made.append(edge)
        for pair, label in labels.of(edge):
            new, old = Arc(label, edge), found.get(pair)
            if old is None or (old.label != label and rule.takes_new(old, new, pair)):
                found[pair] = new
    used = {id(arc.edge) for arc in found.values()}
    taken = {(pair, arc.label) for pair, arc in found.items()}
    notes += [(it.place, f'an edge from {it.tail} to {it.head} is left out: another is taken (--parallel {rule.text})')
              for it in made if id(it) not in used and not set(labels.of(it)) <= taken]
    return found


def arc_lines(arcs):
    """A line for each arc, or one for both of an edge whose labels are the same."""
    written = set()
    for (tail, head), arc in arcs.items():
        back = arcs.get((head, tail))
        if (tail, head) in written:
            continue
        is_one = back is not None and back.edge is arc.edge and back.label == arc.label
        written |= {(head, tail)} if is_one else set()
        yield f'{"both" if is_one else "link"} {tail} {head} : {arc.label}'


def origin_of(text, names):
    """An origin as (destination, node, value)."""
    found = re.fullmatch(r'([^@]*)@([^=]+)=(.+)', text)
    if not found or re.search(NO_LITERAL, found[3]):
        raise BadInput(f'--origin is DEST@NODE=VALUE, and not {text}')
    if not re.fullmatch(r'[A-Za-z0-9_.-]{1,32}', found[1]):
        raise BadInput(f'--origin: a destination is named by 1 to 32 letters, digits, _, - and ., as '
                       f'{cleaned(found[1]) or "x"}, and not by {found[1]}')
    return found[1], checked_node(found[2], names, '--origin'), found[3]


def origins_of(options, names):
    found = [origin_of(it, names) for it in options.origin]
    pairs = [it[:2] for it in found]
    for dest, node in pairs:
        if pairs.count((dest, node)) > 1:
            raise BadInput(f'--origin: {dest} has two origins at {node}')
    return found


def check_limits(names, arcs, origins, profile):
    """Refuses what a network of the profile may not have."""
    counts = Limits(len(names), len(arcs), len({it[0] for it in origins}))
    for what, count, limit, other in zip(Limits._fields, counts, PROFILES[profile], PROFILES[3 - profile]):
        if count > limit:
            advice = f'profile {3 - profile} has at most {other}' if count <= other else \
                '--around NODE --hops K takes a part of it'
            raise BadInput(f'it has {count} {what}, and a network of profile {profile} has at most {limit}; {advice}')


def check_lines(lines):
    """Refuses a line or a file of more bytes than a network file may have."""
    for line in lines:
        if len(line.encode()) > LINE_BYTES:
            raise BadInput(f'a line would have more than {LINE_BYTES} bytes: {line[:60]} ..')
    if sum(len(line.encode()) + 1 for line in lines) > FILE_BYTES:
        raise BadInput(f'the network file would have more than {FILE_BYTES} bytes')


def comment_lines(source, form, names, wanted, shown):
    """Lines that say what the network is made of, and which node a name stands for that the source hasn't."""
    def plain(text):
        return re.sub('[^ -~]', '?', str(text))[:200]
    return [f'# Made by tools/network_from of {plain(source)} ({form}).',
            *(f'# {name} is the node {plain(key)} of it.' for key, name in names.items()
              if name != wanted[key] and name in shown)]


def network_of(graph, form, source, options, notes):
    """The lines of the network file."""
    labels, rule = Labels(options), Rule(options.parallel)
    wanted = wanted_names(graph.nodes, options.name)
    names = told_apart(wanted)
    edges = [it._replace(tail=names[it.tail], head=names[it.head]) for it in graph.edges]
    shown = list(names.values())
    if options.around is not None:
        kept = around(shown, edges, options.around, options.hops)
        shown = [it for it in shown if it in kept]
        edges = [it for it in edges if it.tail in kept and it.head in kept]
    arcs = arcs_of(edges, labels, rule, notes)
    origins = origins_of(options, shown)
    check_limits(shown, arcs, origins, options.profile)
    lines = comment_lines(source, form, names, wanted, set(shown))
    lines += [f'node {" ".join(shown[at:at + 8])}' for at in range(0, len(shown), 8)]
    lines += [*arc_lines(arcs), *(f'origin {dest} at {node} : {value}' for dest, node, value in origins)]
    check_lines(lines)
    return lines
