"""Reads the router links of an OSPF database, as FRR's `show ip ospf database router json` prints them.

An LSA (link-state advertisement) of a router lists its links: to another router, with the cost of the way there; to a
transit network, which several routers share and which is named by an address of its designated router; to a stub
network, which leads to no router. As in RFC 2328, part 16.1, a link counts where the router that it leads to has a link
back.
"""

from .graph import BadInput, Edge, Graph, as_text
from .node_link import loaded

COMMAND = 'show ip ospf database router json'


class Link:
    """A link of a router's LSA; `to` is a router's id or a transit network's address."""

    def __init__(self, router, area, to, kind, data, place):
        self.router, self.area, self.to, self.kind, self.data, self.place = router, area, to, kind, data, place


def found_lsas(tree, area=''):
    """The objects that list links or attached routers, each with its area, wherever they stand."""
    if isinstance(tree, list):
        for it in tree:
            yield from found_lsas(it, area)
    elif isinstance(tree, dict):
        if attached_of(tree) is not None or 'routerLinks' in tree:
            yield area, tree
            return
        for key, it in tree.items():
            yield from found_lsas(it, key if is_area(key) else area)


def is_area(key):
    return key.count('.') == 3 and key.replace('.', '').isdigit()


def first_of(entry, *names):
    """The first of these fields that is there: their names differ between versions."""
    return next((entry[it] for it in names if it in entry), None)


def attached_of(lsa):
    """The routers that a network's LSA lists; FRR spells the field's name in two ways."""
    found = first_of(lsa, 'attchedRouters', 'attachedRouters')
    if isinstance(found, list):
        return {first_of(it, 'attachedRouterId', 'routerId') if isinstance(it, dict) else it for it in found}
    return set(found) if isinstance(found, dict) else None


def id_of(lsa, area):
    """The id of the router or the network that an LSA speaks of."""
    found = first_of(lsa, 'linkStateId', 'lsId', 'advertisingRouter', 'advertisedRouter')
    if not isinstance(found, str):
        raise BadInput('an LSA has neither linkStateId nor advertisingRouter', f'area {area}')
    return found


def links_of(lsa, area):
    """The links of a router's LSA that lead to routers or transit networks."""
    router, links = id_of(lsa, area), lsa['routerLinks']
    for name, link in links.items() if isinstance(links, dict) else enumerate(links if isinstance(links, list) else []):
        place = f'area {area}, router {router}, {name if isinstance(links, dict) else f"link{name}"}'
        if not isinstance(link, dict):
            raise BadInput('a link is an object', place)
        words = str(first_of(link, 'linkType', 'type')).lower()
        if 'stub' in words:
            continue
        kind = 'transit' if 'transit' in words else 'virtual' if 'virtual' in words else 'router'
        to = first_of(link, 'neighborRouterId', 'designatedRouterAddress', 'linkId', 'linkStateId')
        cost = first_of(link, 'tos0Metric', 'metric', 'cost')
        if not isinstance(to, str) or not isinstance(cost, int) or (kind == 'router' and 'point' not in words):
            raise BadInput('a link needs a linkType (point-to-point, transit, stub or virtual), the id that it '
                           'leads to and tos0Metric', place)
        data = {'cost': as_text(cost), 'area': area, 'kind': kind,
                'interface': str(first_of(link, 'routerInterfaceAddress', 'linkData') or '')}
        yield Link(router, area, to, kind, data, place)


def pairs_of(links, networks):
    """Each link with the router that it leads to: all others that have a link to the same transit network."""
    members = {}
    for link in links:
        if link.kind == 'transit':
            members.setdefault((link.area, link.to), {})[link.router] = None
    for link in links:
        if link.kind != 'transit':
            yield link, link.to
            continue
        listed = networks.get((link.area, link.to))
        for other in members[link.area, link.to]:
            if other != link.router and (listed is None or {other, link.router} <= listed):
                yield link, other


def read(source, _):
    """The graph of an OSPF database."""
    links, networks, graph = [], {}, Graph()
    for area, lsa in found_lsas(loaded(source)):
        attached = attached_of(lsa)
        if attached is None:
            graph.nodes.setdefault(id_of(lsa, area), {})
            links += links_of(lsa, area)
        else:
            networks[area, id_of(lsa, area)] = attached
    if not graph.nodes:
        raise BadInput(f'no LSA in it lists the links of a router; `{COMMAND}` prints them')
    graph.notes += [(it.place, f'the link to the network {it.to} is left out: its LSA does not list {it.router}')
                    for it in links
                    if it.kind == 'transit' and it.router not in networks.get((it.area, it.to), {it.router})]
    pairs = list(pairs_of(links, networks))
    both_ways = {(link.router, other, link.area, link.kind) for link, other in pairs}
    for link, other in pairs:
        if (other, link.router, link.area, link.kind) in both_ways:
            graph.add_edge(Edge(link.router, other, link.data, link.place, True))
        else:
            graph.notes.append((link.place, f'the link to {other} is left out: {other} has no link back'))
    return graph
