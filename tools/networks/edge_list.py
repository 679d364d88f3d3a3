"""Reads edge lists, as networkx writes them: a line for each edge, its two ends and what it has."""

import ast
import re
import warnings

from .graph import BadInput, Edge, Graph, as_text

NUMBER = r'[+-]?(\d+\.?\d*|\.\d+)([eE][+-]?\d+)?'


def attributes_of(rest):
    """The attributes after the ends: {'length': 3}, or numbers, of which the first is also called weight."""
    if rest.startswith('{'):
        with warnings.catch_warnings():
            warnings.simplefilter('ignore')
            found = ast.literal_eval(rest)
        if not isinstance(found, dict):
            raise ValueError('the braces hold no attributes')
        return {str(key): as_text(value) for key, value in found.items() if value is not None}
    columns = rest.split()
    for word in columns:
        if not re.fullmatch(NUMBER, word):
            raise ValueError(f'two names come first, and then numbers or {{..}}, and not {word}')
    data = {str(place): as_text(word) for place, word in enumerate(columns, 1)}
    return {**data, **({'weight': data['1']} if columns else {})}


def read(source, options):
    """The graph of an edge list."""
    graph = Graph()
    for number, line in enumerate(source.text.split('\n'), 1):
        line = line.split('#')[0].strip()
        words = line.split(None, 2)
        if not words:
            continue
        try:
            if len(words) < 2:
                raise ValueError('it has one word alone')
            if '{' in words[0] + words[1]:
                raise ValueError('two names without braces come first')
            data = attributes_of(words[2] if len(words) > 2 else '')
        except (ValueError, SyntaxError, TypeError, MemoryError, RecursionError) as error:
            why = str(error) if isinstance(error, ValueError) and '<' not in str(error) else 'the braces do not close'
            raise BadInput(f'no edge, {why}: {line[:60]}', number) from None
        graph.add_edge(Edge(words[0], words[1], data, number, options.directed), makes_nodes=True)
    if not graph.edges:
        raise BadInput('there is no edge in it')
    return graph
