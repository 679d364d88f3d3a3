"""Reads GraphML, as networkx and the Topology Zoo write it."""

from xml.parsers import expat

from .graph import BadInput, Edge, Graph, as_text


class Reader:
    """What was read so far. `owners` has the attributes of the open nodes and edges, and None for an open graph."""

    def __init__(self, parser):
        self.parser, self.graph, self.owners = parser, Graph(), []
        self.names, self.defaults, self.key, self.text = {}, {'node': {}, 'edge': {}}, None, None
        self.graphs, self.depth, self.is_directed, self.pending = 0, 0, False, []

    def start(self, tag, attributes):
        place = self.parser.CurrentLineNumber
        handle = {'key': self.start_key, 'graph': self.start_graph, 'node': self.start_node, 'edge': self.start_edge,
                  'data': self.start_data, 'default': self.start_default, 'hyperedge': self.refuse_hyperedge}
        handle.get(local(tag), lambda *_: None)({local(name): value for name, value in attributes.items()}, place)

    def start_key(self, attributes, place):
        name = attributes.get('attr.name', needed(attributes, 'id', 'key', place))
        self.names[attributes['id']] = name
        self.key = (attributes.get('for', 'all'), name)

    def start_default(self, _, __):
        self.text = []

    def start_graph(self, attributes, place):
        self.graphs += not self.depth
        if self.graphs > 1:
            raise BadInput('a second graph opens here; a network is made of one', place)
        if not self.depth:
            self.is_directed = attributes.get('edgedefault') == 'directed'
        self.depth += 1
        self.owners.append(None)

    def start_node(self, attributes, place):
        self.owners.append({})
        self.graph.add_node(needed(attributes, 'id', 'node', place), self.owners[-1], place)

    def start_edge(self, attributes, place):
        self.owners.append({})
        ends = [needed(attributes, it, 'edge', place) for it in ('source', 'target')]
        is_directed = {'true': True, 'false': False}.get(attributes.get('directed'), self.is_directed)
        self.graph.add_edge(Edge(*ends, self.owners[-1], place, is_directed))

    def start_data(self, attributes, place):
        self.key, self.text = needed(attributes, 'key', 'data element', place), []

    def refuse_hyperedge(self, _, place):
        raise BadInput('a hyperedge joins any number of nodes, and an arc of a network two', place)

    def end(self, tag):
        tag = local(tag)
        if tag in ('graph', 'node', 'edge'):
            self.owners.pop()
            self.depth -= tag == 'graph'
        elif tag == 'data':
            if self.owners and self.owners[-1] is not None:
                self.owners[-1][self.names.get(self.key, self.key)] = self.taken_text()
            self.text = None
        elif tag == 'default' and self.key:
            kind, name = self.key
            for it in ('node', 'edge') if kind == 'all' else (kind,):
                self.defaults.setdefault(it, {})[name] = self.taken_text()
            self.text = None

    def characters(self, text):
        if self.text is not None:
            self.text.append(text)

    def taken_text(self):
        return as_text(''.join(self.text or []))

    def filled(self):
        """The graph, in which each attribute that isn't there has its default."""
        if not self.graphs:
            raise BadInput('there is no graph in it')
        for kind, owners in (('node', self.graph.nodes.values()), ('edge', [it.data for it in self.graph.edges])):
            for owner in owners:
                owner.update({name: value for name, value in self.defaults[kind].items() if name not in owner})
        return self.graph


def local(tag):
    """A tag or an attribute without its namespace."""
    return tag.rsplit(' ', 1)[-1]


def needed(attributes, name, what, place):
    if name not in attributes:
        raise BadInput(f'the {what} has no {name}', place)
    return attributes[name]


def refuse_entity(*_):
    raise BadInput('it declares entities, which GraphML does without')


def read(source, _):
    """The graph of a GraphML file."""
    parser = expat.ParserCreate(namespace_separator=' ')
    reader = Reader(parser)
    parser.StartElementHandler, parser.EndElementHandler = reader.start, reader.end
    parser.CharacterDataHandler, parser.EntityDeclHandler = reader.characters, refuse_entity
    try:
        parser.Parse(source.raw, True)
    except expat.ExpatError as error:
        raise BadInput(f'no XML: {expat.ErrorString(error.code)}', error.lineno) from None
    except (LookupError, ValueError):
        raise BadInput('it is in an encoding that is not read; UTF-8 is') from None
    return reader.filled()
