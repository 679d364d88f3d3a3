"""The network of a network file after all its changes, and the same network without some of its arcs."""


class LastNetwork:
    """The lines of nodes and origins as they stand in the file, and the label of each arc in order."""

    def __init__(self, content):
        self.nodes, self.arcs, self.origins = [], {}, []
        for line in content.split(b'\n'):
            line = line.split(b'#')[0].rstrip(b'\r')
            front, _, label = line.partition(b':')
            if front.split():
                self.add(front.split(), label.strip(), line)

    def add(self, words, label, line):
        kind = words[0]
        if kind == b'node':
            self.nodes.append(line)
        elif kind == b'origin':
            self.origins.append(line)
        elif words[:2] == [b'then', b'drop']:
            del self.arcs[words[2], words[3]]
        else:
            # An arc that is there keeps its place, also where a change gives it another label.
            ends = tuple(words[-2:])
            self.arcs[ends] = label
            if kind == b'both':
                self.arcs[ends[::-1]] = label

    def node_names(self):
        return [name for line in self.nodes for name in line.split()[1:]]

    def links(self):
        """Each pair of nodes that an arc joins in either direction, in the order of its first arc."""
        found = {}
        for ends in self.arcs:
            if ends[::-1] not in found:
                found[ends] = None
        return list(found)

    def without(self, removed):
        """The text of the network file without these arcs."""
        arcs = [b'link %s %s : %s' % (*ends, label) for ends, label in self.arcs.items() if ends not in removed]
        return b''.join(line + b'\n' for line in [*self.nodes, *arcs, *self.origins])
