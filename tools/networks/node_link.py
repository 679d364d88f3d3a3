"""Reads node-link JSON, as networkx's node_link_data makes it: its edges stand under `links` or, later, `edges`."""

import bisect
import json
import re

from .graph import BadInput, Edge, Graph, as_text, listed


def loaded(source):
    """The JSON of a text."""
    def without_repeats(pairs):
        found = dict(pairs)
        if len(found) < len(pairs):
            raise BadInput(f'no JSON: an object has a key twice, of {listed(key for key, _ in pairs)}')
        return found
    try:
        return json.loads(source.text, object_pairs_hook=without_repeats)
    except json.JSONDecodeError as error:
        raise BadInput(f'no JSON: {error.msg}', error.lineno) from None
    except (ValueError, RecursionError):
        raise BadInput('no JSON: it nests too deep, or has a number of thousands of digits') from None


def lines_of(text, name):
    """The line on which each entry of a list of the outermost object opens; the text is JSON of such an object."""
    read, skip = json.JSONDecoder().raw_decode, re.compile(r'[\s,:]*')
    ends = [it.start() for it in re.finditer('\n', text)]
    key, at = None, skip.match(text, text.index('{') + 1).end()
    while key != name or text[at] != '[':
        # Keys and values of the object take turns.
        found, after = read(text, at)
        key, at = (found if key is None else None), skip.match(text, after).end()
    at, lines = skip.match(text, at + 1).end(), []
    while text[at] != ']':
        lines.append(bisect.bisect_left(ends, at) + 1)
        at = skip.match(text, read(text, at)[1]).end()
    return lines


def key_of(value, place):
    """A node's key: a tuple of Python is a list in JSON."""
    if value is None or isinstance(value, dict):
        raise BadInput('a number or a text is needed to name a node', place)
    return json.dumps(value) if isinstance(value, list) else value


def data_of(entry, but):
    """The attributes of a node or an edge; null stands for none."""
    return {name: as_text(value) for name, value in entry.items() if name not in but and value is not None}


def entries_of(found, name, keys, text):
    """The entries of a list, objects with these keys, each with its line."""
    for at, (entry, line) in enumerate(zip(found[name], lines_of(text, name))):
        if not isinstance(entry, dict) or not all(it in entry for it in keys):
            raise BadInput(f'{name}[{at}] is no object with {" and ".join(keys)}', line)
        yield entry, line


def read(source, _):
    """The graph of node-link JSON."""
    found, graph = loaded(source), Graph()
    name = next((it for it in ('links', 'edges') if isinstance(found, dict) and isinstance(found.get(it), list)), None)
    if name is None or not isinstance(found.get('nodes'), list):
        raise BadInput('node-link JSON is an object with a list nodes and a list links or edges')
    for node, line in entries_of(found, 'nodes', ['id'], source.text):
        graph.add_node(key_of(node['id'], line), data_of(node, ['id']), line)
    is_directed = found.get('directed') is True
    for edge, line in entries_of(found, name, ['source', 'target'], source.text):
        ends = [key_of(edge[it], line) for it in ('source', 'target')]
        graph.add_edge(Edge(*ends, data_of(edge, ['source', 'target']), line, is_directed))
    return graph
