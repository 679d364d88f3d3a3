"""Reads CAIDA's AS relationships, serial 1 (`PROVIDER|CUSTOMER|-1`, `PEER|PEER|0`) and 2 (the same, and `|SOURCE`)."""

import re

from .graph import BadInput, Edge, Graph

KINDS = {'-1': 'provider', '0': 'peer'}


def read(source, _):
    """The graph of AS relationships."""
    graph = Graph()
    for number, line in enumerate(source.text.split('\n'), 1):
        line = line.split('#')[0].strip()
        if not line:
            continue
        found = re.fullmatch(r'(\d{1,10})\|(\d{1,10})\|(-1|0)(?:\|([\w,.-]*))?', line)
        if not found:
            raise BadInput(f'no relation: PROVIDER|CUSTOMER|-1 or PEER|PEER|0 is due, and not {line[:60]}', number)
        data = {'source': found[4]} if found[4] else {}
        graph.add_edge(Edge(found[1], found[2], data, number, False, KINDS[found[3]]), makes_nodes=True)
    if not graph.edges:
        raise BadInput('there is no relation in it')
    return graph
