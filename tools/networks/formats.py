"""The formats that tools/network_from reads: their names, and which of them a text is in."""

import re

from . import as_rel, edge_list, gml, graphml, node_link, ospf, table
from .graph import BadInput

READERS = {'graphml': graphml, 'gml': gml, 'json': node_link, 'csv': table, 'edges': edge_list, 'as-rel': as_rel,
           'ospf': ospf}


class Source:
    """The bytes of a file, and its text."""

    def __init__(self, raw):
        self.raw = raw

    @property
    def text(self):
        try:
            return self.raw.decode('utf-8-sig')
        except UnicodeDecodeError as error:
            raise BadInput('it is no text in UTF-8', self.raw[:error.start].count(b'\n') + 1) from None


def guessed(source):
    """The format of a source, by its first characters."""
    if re.match(rb'(\xef\xbb\xbf|\xff\xfe|\xfe\xff)?[\s\0]*<', source.raw):
        return 'graphml'
    text = source.text
    if text.lstrip()[:1] in ('{', '['):
        return guessed_json(source)
    if re.search(r'(?m)^\s*graph\s*\[', text):
        return 'gml'
    if 'OSPF Router with ID' in text:
        raise BadInput(f'this is the text form of an OSPF database; `{ospf.COMMAND}` prints the form that is read')
    lines = [it.strip() for it in text.splitlines() if it.strip() and not it.lstrip().startswith('#')]
    first = lines[0] if lines else ''
    if re.match(r'\d+\|\d+\|', first):
        return 'as-rel'
    if (re.match(r'[^{]*[,;]', first) and not first.endswith('}')) or table.known_ends(first.split('\t')):
        return 'csv'
    return 'edges'


def guessed_json(source):
    found = node_link.loaded(source)
    if isinstance(found, dict) and isinstance(found.get('nodes'), list):
        return 'json'
    if re.search('"(routerLinks|routerLinkStates|routerId)"', source.text):
        return 'ospf'
    raise BadInput('this JSON has neither nodes nor the router links of an OSPF database; '
                   f'formats: {", ".join(READERS)}')


def read(source, options):
    """The name of the format and the graph of a source."""
    if not source.raw.strip():
        raise BadInput('it is empty')
    name = options.format or guessed(source)
    try:
        graph = READERS[name].read(source, options)
        graph.check()
    except BadInput as error:
        if name == 'edges' and not options.format:
            error.message += f' (read as an edge list; --from says another format: {", ".join(READERS)})'
        raise
    except RecursionError:
        raise BadInput('it nests too deep') from None
    return name, graph
