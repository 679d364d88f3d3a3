"""The lines of a picture: which arcs are one line, and in which colour each is drawn."""

from typing import NamedTuple, Optional

COLOURS = ('#1b6ca8', '#c0392b', '#1e8449', '#8e44ad', '#b9770e', '#117a65', '#884ea0', '#5d6d7e')


class Strand(NamedTuple):
    """A line from a tail to a head. Of several lines of one arc only the first has the label."""
    tail: str
    head: str
    label: str
    is_both: bool
    colour: Optional[str]


def colour_of(dest, network):
    return COLOURS[network.destinations().index(dest) % len(COLOURS)]


def used_arcs(rows):
    """The destinations whose rows' paths go along each arc."""
    found = {}
    for dest, _, _, path in rows:
        for arc in zip(path, path[1:]):
            found.setdefault(arc, {})[dest] = None
    return found


def strands_of(network, rows):
    """A line for each arc, or for each destination whose routes go along it; arcs of one label in both directions are
    one line, unless a route goes along either."""
    used, drawn = used_arcs(rows), set()
    for (tail, head), label in network.arcs.items():
        if (tail, head) in drawn:
            continue
        back = (head, tail)
        is_both = network.arcs.get(back) == label and not ({(tail, head), back} & set(used))
        drawn |= {back} if is_both else set()
        colours = [colour_of(dest, network) for dest in used.get((tail, head), [])] or [None]
        for at, colour in enumerate(colours):
            yield Strand(tail, head, '' if at else label, is_both, colour)


def node_texts(node, network, rows):
    """What stands below the name of a node, as (text, destination), and whether it is an origin. A route that an origin
    has of itself says nothing new."""
    origins = [(f'{dest} = {value}', dest) for dest, at, value in network.origins if at == node]
    several = len({dest for dest, *_ in rows}) > 1
    values = [(f'{dest}: {value}' if several else value, dest) for dest, at, value, path in rows
              if at == node and path != [node]]
    return values + origins, bool(origins)
