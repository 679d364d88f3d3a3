"""Tests of tools/network_from. Where the inputs in tools/tests/data come from is said there."""

import os
import subprocess
import sys

from support import TOP, Folder, built, needs_program, run, tool

DATA = os.path.join(TOP, 'tools/tests/data')
AS_LABELS = ('--customer', '(C,1)', '--peer', '(R,1)', '--provider', '(P,1)')


def data(name):
    return os.path.join(DATA, name)


def body(text):
    """A network without its comments."""
    return ''.join(line + '\n' for line in text.splitlines() if not line.startswith('#'))


class Case(Folder):
    """Tests that make networks and look at refusals."""

    def network(self, *words):
        """The network that is made, without comments, and what is said on standard error."""
        status, out, err = tool('network_from', *words)
        self.assertEqual((status, out[:31]), (0, '# Made by tools/network_from of'), err)
        return body(out), err

    def refused(self, name, *words, says=()):
        """One line on standard error, with the file and what is given, and nothing on standard output."""
        status, out, err = tool('network_from', name, *words)
        self.assertEqual((status, out, err.count('\n')), (2, '', 1), err)
        for it in says:
            self.assertIn(it, err)

    def piped(self, text, *words):
        """The network of a text on standard input."""
        ran = subprocess.run([sys.executable, os.path.join(TOP, 'tools/network_from'), '-', *words],
                             input=text.encode(), stdout=subprocess.PIPE, stderr=subprocess.PIPE, timeout=60)
        return ran.returncode, ran.stdout.decode(), ran.stderr.decode()


class Formats(Case):
    """What is made of each format."""

    def test_graphml_as_the_topology_zoo_writes_it(self):
        out, _ = self.network(os.path.join(TOP, 'examples/abilene.graphml'),
                              '--label', '({metric},7)', '--origin', 'x@New_York=(0,7)')
        self.assertEqual(out.count('both '), 14)
        self.assertIn('both Los_Angeles Houston : (44,7)\n', out)
        self.assertTrue(out.endswith('origin x at New_York : (0,7)\n'))

    def test_what_networkx_writes_of_one_graph(self):
        wanted = 'node a b c d\nboth a b : (3,fibre)\nboth a c : (4,radio)\nboth b d : (2.5,fibre)\n' \
                 'both c d : (1,fibre)\n'
        for name in ('networkx.graphml', 'networkx.edges', 'networkx_links.json', 'networkx_edges.json'):
            self.assertEqual(self.network(data(name), '--label', '({length},{kind})'), (wanted, ''), name)

    def test_graphml_of_directed_edges_and_defaults(self):
        name = self.file('g', '<graphml><key id="k" for="edge" attr.name="cost"><default>9</default></key>'
                              '<graph edgedefault="directed"><node id="a"/><node id="b"/>'
                              '<edge source="a" target="b"/><edge source="b" target="a"><data key="k">2</data></edge>'
                              '<node id="c"/><edge source="c" target="a" directed="false"/></graph></graphml>')
        self.assertEqual(self.network(name, '--label', '{cost}')[0],
                         'node a b c\nlink a b : 9\nlink b a : 2\nboth c a : 9\n')

    def test_gml_as_the_topology_zoo_writes_it(self):
        out, err = self.network(data('zoo.gml'), '--label', '{LinkSpeedRaw}', '--parallel', 'greatest:LinkSpeedRaw')
        self.assertEqual(out, 'node Springfield Sao_Paulo Springfield_2 New_York\n'
                              'both Springfield Sao_Paulo : 10000000000\nboth Springfield Springfield_2 : 1000000000\n'
                              'both Springfield_2 New_York : 2500000000\n')
        self.assertEqual(err.count('left out'), 1)

    def test_a_gml_of_directed_edges(self):
        out, _ = self.network(data('networkx_multi.gml'), '--label', '{metric}', '--parallel', 'least:metric')
        self.assertEqual(out, 'node 0 1 2\nlink 0 1 : 5\nlink 1 0 : 9\nlink 1 2 : 1\n')

    def test_edge_lists(self):
        name = self.file('e.txt', "# so\na b {'length': 3.0}\nb c {'length': 4}\nc c {'length': 1}\n")
        out, err = self.network(name, '--label', '{length}')
        self.assertEqual(out, 'node a b c\nboth a b : 3\nboth b c : 4\n')
        self.assertIn('e.txt:4: a loop at c is left out', err)
        name = self.file('w.txt', 'a b 5 6\nb a 7 8\n')
        self.assertEqual(self.network(name, '--label', '{weight}-{2}', '--directed')[0],
                         'node a b\nlink a b : 5-6\nlink b a : 7-8\n')

    def test_tables(self):
        wanted = 'node New_York Boston Albany\nboth New_York Boston : (4,100)\nboth Boston Albany : (3,25)\n'
        words = ('--label', '({length},{capacity})', '--missing', '25')
        self.assertEqual(self.network(data('links.csv'), *words)[0], wanted)
        name = self.file('t', 'A;B;length\nx;y;2\n')
        self.refused(name, '--label', '1', says=['t:1: ', '--ends', 'A, B, length'])
        self.assertEqual(self.network(name, '--label', '{length}', '--ends', 'B,A', '--directed')[0],
                         'node y x\nlink y x : 2\n')
        self.assertEqual(self.network(self.file('u', 'cost\tFrom\tTo\n3\ta\tb\n'), '--label', '{cost}')[0],
                         'node a b\nboth a b : 3\n')

    def test_as_relationships(self):
        out, _ = self.network(data('as_rel_2.txt'), *AS_LABELS)
        # 64510 is a customer of 64500: a provider has C of its customer, a customer P of its provider.
        self.assertEqual(out, 'node 64500 64501 64510 64511\nboth 64500 64501 : (R,1)\n'
                              'link 64500 64510 : (C,1)\nlink 64510 64500 : (P,1)\n'
                              'link 64501 64511 : (C,1)\nlink 64511 64501 : (P,1)\nboth 64510 64511 : (R,1)\n')
        out, _ = self.network(data('as_rel_1.txt'), *AS_LABELS, '--around', 'AS64510', '--hops', '1')
        self.assertEqual(out, 'node 64500 64510 64511 64520\nlink 64500 64510 : (C,1)\nlink 64510 64500 : (P,1)\n'
                              'both 64510 64511 : (R,1)\nlink 64510 64520 : (C,1)\nlink 64520 64510 : (P,1)\n')
        self.assertEqual(self.network(data('as_rel_1.txt'), *AS_LABELS, '--around', '64510', '--hops', '0')[0],
                         'node 64510\n')

    def test_router_links_of_an_ospf_database(self):
        out, err = self.network(data('frr_router.json'), '--label', '{cost}', '--origin', 'x@10.0.0.3=0')
        # Two links join 10.0.0.1 and 10.0.0.2, of which the cheaper counts; 10.0.0.9 has no LSA, and so no link back;
        # 10.0.0.1 and 10.0.0.3 share a network.
        self.assertEqual(out, 'node 10.0.0.1 10.0.0.2 10.0.0.3\nlink 10.0.0.1 10.0.0.2 : 4\n'
                              'link 10.0.0.1 10.0.0.3 : 7\nlink 10.0.0.2 10.0.0.1 : 4\nlink 10.0.0.3 10.0.0.1 : 5\n'
                              'origin x at 10.0.0.3 : 0\n')
        self.assertIn('router 10.0.0.2, link1: the link to 10.0.0.9 is left out', err)
        out, err = self.network(data('frr_detail.json'), '--label', '({cost},{area})')
        self.assertEqual(out, 'node 10.0.0.1 10.0.0.2 10.0.0.3\nlink 10.0.0.1 10.0.0.3 : (7,0.0.0.1)\n'
                              'link 10.0.0.3 10.0.0.1 : (5,0.0.0.1)\n')
        self.assertIn('its LSA does not list 10.0.0.2', err)

    def test_ospf_without_links_is_refused(self):
        for name in ('frr_summary.json', 'frr_database.txt'):
            self.refused(data(name), '--label', '1', says=[name, 'show ip ospf database router json'])
        self.refused(data('frr_database.txt'), '--label', '1', '--from', 'edges', says=['frr_database.txt:2: '])

    def test_standard_input(self):
        status, out, err = self.piped('a b 3\n', '--label', '{weight}')
        self.assertEqual((status, body(out), err), (0, 'node a b\nboth a b : 3\n', ''))
        self.assertIn('of standard input (edges)', out)
        status, out, err = self.piped('a b 3\na\n', '--label', '{weight}')
        self.assertEqual((status, out, err[:32]), (2, '', 'network_from: standard input:2: '))


class Labels(Case):
    """Labels, and which of two edges is taken."""

    def test_labels_for_both_directions(self):
        name = self.file('e.txt', 'p c 3\n')
        self.assertEqual(self.network(name, '--label', '(C,{1})', '--reverse-label', '(P,{1})')[0],
                         'node p c\nlink p c : (C,3)\nlink c p : (P,3)\n')
        self.assertEqual(self.network(name, '--label', 'C', '--reverse-label', 'P', '--directed')[0],
                         'node p c\nlink p c : C\nlink c p : P\n')

    def test_attributes_and_braces(self):
        name = self.file('e.txt', "a b {'w': 3}\n")
        self.assertEqual(self.network(name, '--label', '{{{w},4}}')[0], 'node a b\nboth a b : {3,4}\n')
        self.assertEqual(self.network(name, '--label', '{x}', '--missing', '-1')[0], 'node a b\nboth a b : -1\n')
        for label in ('{w', 'w}', '{{w}', '{w}}', '{', '{a{w}}', '{}'):
            self.refused(name, '--label', label, says=['--label', 'brace'])
        self.refused(name, '--label', '1', '--reverse-label', '{w', says=['--reverse-label'])
        self.refused(name, '--label', '{x}', says=['e.txt:1: ', 'attribute x', 'it has: w', '--missing'])
        for label in ('', '1#2', '1\n2', 'ä'):
            self.refused(name, '--label', label, says=['e.txt:1: ', 'printable'])

    def test_parallel_edges(self):
        name = self.file('e.txt', 'a b 5\nb c 1\nb a 3\na b 4\na b 4\n')
        self.refused(name, '--label', '{1}', says=['e.txt:3: ', 'line 1', '--parallel'])
        for rule, label, count in (('first', 5, 3), ('last', 4, 2), ('least:weight', 3, 3), ('greatest:1', 5, 3)):
            out, err = self.network(name, '--label', '{1}', '--parallel', rule)
            self.assertEqual(out, f'node a b c\nboth a b : {label}\nboth b c : 1\n', rule)
            self.assertEqual((err.count('left out'), rule in err), (count, True), rule)
        self.assertEqual(self.network(name, '--label', '7'), ('node a b c\nboth a b : 7\nboth b c : 7\n', ''))
        self.refused(name, '--label', '{1}', '--parallel', 'least:x', says=['e.txt:1: ', 'number'])
        self.refused(name, '--label', '{1}', '--parallel', 'best', says=['first, last, least:ATTRIBUTE'])


class Names(Case):
    """Names of nodes, of at most 32 characters, and each once."""

    def test_names_are_cleaned_and_told_apart(self):
        name = self.file('e.txt', 'a/b c\na:b c\n')
        out = tool('network_from', name, '--label', '1')[1]
        self.assertEqual(body(out), 'node a_b c a_b_2\nboth a_b c : 1\nboth a_b_2 c : 1\n')
        self.assertIn('# a_b_2 is the node a:b of it.\n', out)

    def test_one_repeated_label_leaves_the_others(self):
        nodes = [(0, 'Ulm'), (1, 'Bonn'), (2, 'Ulm'), (3, 'Ulm_2'), (4, 'Köln'), (5, '?'), (6, None)]
        labels = {key: '' if name is None else f'label "{name}"' for key, name in nodes}
        lines = ''.join(f'node [ id {key} {labels[key]} ]\n' for key, _ in nodes)
        out, _ = self.network(self.file('g', f'graph [\n{lines}]\n'), '--label', '1')
        self.assertEqual(out, 'node Ulm Bonn Ulm_3 Ulm_2 Koln 5 6\n')

    def test_names_told_apart_stay_within_32_characters(self):
        long = 'x' * 40
        edges = ''.join(f'{long}{number} hub\n' for number in range(1, 1102))
        out, _ = self.network(self.file('e', edges), '--label', '1', '--profile', '2')
        names = [name for line in out.splitlines() if line.startswith('node') for name in line.split()[1:]]
        self.assertEqual((len(names), len(set(names)), max(map(len, names))), (1102, 1102, 32))
        self.assertIn('x' * 27 + '_1000', names)

    def test_an_attribute_as_the_name(self):
        nodes = '{"nodes": [{"id": 1, "site": "a b"}, {"id": 2, "site": "c"}], "links": [{"source": 1, "target": 2}]}'
        self.assertEqual(self.network(self.file('j', nodes), '--label', '1', '--name', 'site')[0],
                         'node a_b c\nboth a_b c : 1\n')
        self.refused(self.file('k', nodes), '--label', '1', '--name', 'town', says=['town', 'it has: site'])


class Refusals(Case):
    """What no network can be made of."""

    def test_texts_that_are_no_graph(self):
        for text, place in (('', ': it is empty'), ('\n \n', ': it is empty'), ('# a\n', 'no edge'), ('a\n', ':1: '),
                            ('a b\nNew York Boston {}\n', ':2: '), ('a b {\n', ':1: '), ('a b {3}\n', ':1: '),
                            ('One two three four.\n', ':1: '), ('<a/>', 'no graph'), ('<a>', ':1: '),
                            ('{"a": 1}', 'JSON'), ('{"nodes": [}', ':1: '), ('graph [ node [ id 1 ]', ':1: '),
                            ('1|2|3\n', ':1: '),
                            ('graph [\n]\n', 'no node'), (b'a \xff\n', ':1: '), ('[1, 2]', 'JSON'),
                            ('a,b,3\n', '--ends'), ('source,target\na,b,c\n', ':2: '), ('source,target\na,"b\n', ': ')):
            self.refused(self.file('f', text), '--label', '1', says=[place])
        self.refused(self.file('f', 'one two three\n'), '--label', '1', says=['graphml, gml, json, csv, edges, as-rel'])
        self.refused(os.path.join(self.folder, 'none'), '--label', '1', says=['No such file'])
        self.refused(self.folder, '--label', '1', says=['directory'])

    def test_dangling_edges_are_named_with_their_place(self):
        graphml = '<graphml><graph>\n<node id="a"/>\n<edge source="a" target="z"/></graph></graphml>'
        for text, place in ((graphml, ':3: '),
                            ('graph [\nnode [ id 7 ]\nedge [ source 7\ntarget 8 ]\n]', ':3: '),
                            ('{"nodes": [{"id": 1}],\n"edges": [{"source": 1, "target": 2}]}', ':2: ')):
            self.refused(self.file('f', text), '--label', '1', says=[place, 'there is no node'])

    def test_limits_of_the_profiles(self):
        path = ''.join(f'n{at} n{at + 1}\n' for at in range(512))
        name = self.file('e', path)
        self.refused(name, '--label', '1', says=['513 nodes', 'profile 1', '512', 'profile 2', '4096'])
        self.assertEqual(self.network(name, '--label', '1', '--profile', '2')[0].count('both'), 512)
        self.assertEqual(self.network(name, '--label', '1', '--around', 'n0', '--hops', '2')[0],
                         'node n0 n1 n2\nboth n0 n1 : 1\nboth n1 n2 : 1\n')
        full = ''.join(f'{a} {b}\n' for a in range(91) for b in range(91) if a != b)
        self.refused(self.file('f', full + '0 91\n1 91\n2 91\n'), '--label', '1', '--directed',
                     says=['8193 arcs', '8192', '--around'])
        self.assertEqual(self.network(self.file('f', full + '0 91\n1 91\n'), '--label', '1', '--directed')[0]
                         .count('link'), 8192)
        origins = [word for at in range(9) for word in ('--origin', f'd{at}@n0=0')]
        self.refused(name, '--label', '1', '--profile', '2', *origins, says=['9 destinations', 'at most 8'])

    def test_origins(self):
        name = self.file('e', 'New-York a\n')
        self.assertTrue(self.network(name, '--label', '1', '--origin', 'x@a=(0,1)')[0].endswith('x at a : (0,1)\n'))
        for origin, said in (('x@c=0', 'no node c'), ('x@a', 'DEST@NODE=VALUE'), ('x@a=1#2', 'DEST@NODE=VALUE'),
                             ('192.0.2.0/24@a=0', '192.0.2.0_24'), ('@a=0', 'letters')):
            self.refused(name, '--label', '1', '--origin', origin, says=[said])
        self.refused(name, '--label', '1', '--origin', 'x@a=0', '--origin', 'x@a=1', says=['two origins'])

    def test_words(self):
        name = self.file('e', 'a b\n')
        for words, said in (((), '--label'), (('--label',), '--label'), (('--label', '1', '--from', 'dot'), 'graphml'),
                            (('--label', '1', '--peer', '1'), 'as-rel'), (('--label', '1', '--name', 'x'), '--name'),
                            (('--label', '1', '--hops', '1'), '--around'), (('--lab', '1'), '--lab'),
                            (('--label', '1', '--around', 'a', '--hops', 'x'), '--hops'),
                            (('--label', '1', '--profile', '3'), '--profile')):
            self.refused(name, *words, says=[said, 'network_from: '])
        self.refused(data('as_rel_1.txt'), '--label', '1', says=['--label'])
        self.refused(data('as_rel_1.txt'), *AS_LABELS[:4], says=['--provider TEXT is needed'])
        self.refused(data('links.csv'), '--label', '1', '--from', 'as-rel', says=['links.csv:1: '])
        status, out, err = tool('network_from')
        self.assertEqual((status, out, err.count('\n')), (2, '', 1))


@needs_program
class Routes(Case):
    """The program takes what is made."""

    def test_the_program_takes_each_network(self):
        for policy, words in (('customer_provider', (data('as_rel_1.txt'), *AS_LABELS, '--origin', 'x@64521=(c,0)')),
                              ('free_links', (data('frr_router.json'), '--label', '{cost}',
                                              '--origin', 'x@10.0.0.3=0'))):
            name = self.file('n.net', tool('network_from', *words)[1])
            status, out, err = run([built, 'run', os.path.join(TOP, f'examples/{policy}.raml'), name])
            self.assertEqual((status, err), (0, ''), policy)
        # 10.0.0.2 reaches 10.0.0.3 over 10.0.0.1, at the cost of the cheaper link and of the network: 4 + 7.
        self.assertIn('10.0.0.2 x 11 10.0.0.2 10.0.0.1 10.0.0.3\n', out)
