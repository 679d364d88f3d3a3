"""Reads GML (the Graph Modelling Language), as networkx and the Topology Zoo write it."""

import bisect
import html
import re

from .graph import BadInput, Edge, Graph, as_text

TOKEN = re.compile(r'\s*(?:(?P<comment>#[^\n]*)|"(?P<text>[^"]*)"|(?P<mark>[\[\]])|(?P<word>[^\s\[\]"]+))')


def tokens_of(text):
    """The tokens as (kind, text, line)."""
    text, at = text.rstrip(), 0
    ends = [it.start() for it in re.finditer('\n', text)]
    while at < len(text):
        found = TOKEN.match(text, at)
        if not found:
            raise BadInput('a " opens a text that does not end', bisect.bisect_left(ends, at) + 1)
        at, kind = found.end(), found.lastgroup
        if kind != 'comment':
            yield kind, found[kind], bisect.bisect_left(ends, found.start(kind)) + 1


def lists_of(text):
    """The pairs of the outermost list as (key, value, line); the value of an inner list is such a list."""
    open_lists, key, line = [[]], None, 1
    for kind, token, line in tokens_of(text):
        if token == ']' and kind == 'mark' and key is None and len(open_lists) > 1:
            open_lists.pop()
        elif token == '[' and kind == 'mark' and key is not None:
            open_lists.append([])
            open_lists[-2].append((key[0], open_lists[-1], key[1]))
            key = None
        elif kind == 'mark':
            raise BadInput(f'a {token} stands where none is due', line)
        elif key is None:
            if kind == 'text' or not re.fullmatch(r'[A-Za-z_]\w*', token):
                raise BadInput(f'a key is due, and not {token[:40]}', line)
            key = (token, line)
        else:
            value = html.unescape(token) if kind == 'text' else token
            open_lists[-1].append((key[0], value, key[1]))
            key = None
    if key is not None or len(open_lists) > 1:
        raise BadInput('it ends inside a list', line)
    return open_lists[0]


def data_of(pairs, but):
    """The attributes of a node or an edge, without inner lists."""
    return {key: as_text(value) for key, value, _ in pairs if key not in but and isinstance(value, str)}


def needed(pairs, name, what, place):
    found = next((value for key, value, _ in pairs if key == name and isinstance(value, str)), None)
    if found is None:
        raise BadInput(f'the {what} has no {name}', place)
    return found


def read(source, _):
    """The graph of a GML file."""
    found = [(pairs, line) for key, pairs, line in lists_of(source.text) if key == 'graph' and isinstance(pairs, list)]
    if not found:
        raise BadInput('there is no graph in it')
    if len(found) > 1:
        raise BadInput('a second graph opens here; a network is made of one', found[1][1])
    pairs, graph = found[0][0], Graph()
    is_directed = data_of(pairs, []).get('directed') == '1'
    for key, inner, line in pairs:
        if key == 'node' and isinstance(inner, list):
            graph.add_node(needed(inner, 'id', 'node', line), data_of(inner, ['id']), line)
        elif key == 'edge' and isinstance(inner, list):
            ends = [needed(inner, it, 'edge', line) for it in ('source', 'target')]
            graph.add_edge(Edge(*ends, data_of(inner, ['source', 'target']), line, is_directed))
    return graph
