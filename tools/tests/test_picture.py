"""Tests of tools/picture."""

import glob
import os
import re
import shutil
import subprocess
import sys
import unittest
import xml.etree.ElementTree as xml

from support import TOP, Folder, tool

SPACE = '{http://www.w3.org/2000/svg}'
RUN = 'a x 2 a b d\nb x 1 b d\nc x 1 c d\nd x 0 d\nquiet 4\n' \
      'phase 1\n1 b d\na x 2 a c d\nb x none\nc x 1 c d\nd x 0 d\nquiet 1\n'


def example(name):
    return os.path.join(TOP, 'examples', name)


class Case(Folder):
    """Tests that draw, and look at refusals."""

    def drawn(self, *words):
        status, out, err = tool('picture', *words)
        self.assertEqual((status, err), (0, ''))
        return out

    def refused(self, *words, says):
        """One line on standard error, and nothing on standard output."""
        status, out, err = tool('picture', *words)
        self.assertEqual((status, out, err.count('\n')), (2, '', 1), err)
        self.assertIn(says, err)


class Graphviz(Case):
    """Networks and rows as Graphviz text."""

    def test_arcs_of_routes_are_coloured(self):
        out = self.drawn(example('cut.net'), self.file('rows', RUN), '--changes', '1')
        self.assertIn('"a" -> "c" [label="1", color=', out)
        self.assertIn('"a" -> "b" [label="1"];', out)
        self.assertNotIn('"b" -> "d"', out)
        self.assertIn('"a" [label="a\\n2"]', out)
        self.assertIn('"d" [label="d\\nx = 0", peripheries=2]', out)
        self.assertIn('"b" -> "d" [label="5"]', self.drawn(example('cut.net')))

    def test_the_rows_are_those_of_the_phase_that_is_drawn(self):
        rows = self.file('rows', RUN)
        self.assertIn('"b" -> "d" [label="1", color=', self.drawn(example('cut.net'), rows, '--changes', '0'))
        last = self.drawn(example('cut.net'), rows)
        self.assertEqual(last, self.drawn(example('cut.net'), rows, '--changes', '1'))
        self.refused(example('cut.net'), rows, '--changes', '2', says='no rows after 2 changes')
        # The rows of route are those of the network after all changes.
        rows = self.file('route', 'a x 2 a c d\nb x 5 b d\nc x 1 c d\nd x 0 d\n')
        self.assertIn('"b" -> "d" [label="5", color=', self.drawn(example('cut.net'), rows))

    def test_stable_tables(self):
        """Their rows are drawn as those of route are. A second table of a destination is refused."""
        net = self.file('n', 'node a b\nlink a b : 1\norigin x at b : 0\norigin y at a : 0\n')
        first, second = 'a x 1 a b\nb x 0 b\n', 'a y 0 a\nb y none\n'
        stable = self.file('stable', f'x 1 stable\ntable 1\n{first}y 1 stable\ntable 1\n{second}')
        self.assertEqual(self.drawn(net, stable), self.drawn(net, self.file('route', first + second)))
        for text, line in ((f'x 2 stable\ntable 1\n{first}', 1), (f'x 1 stable\ntable 2\n{first}', 2),
                           (f'z 1 stable\ntable 1\n{first}', 1)):
            self.refused(net, self.file('r', text), says=f'r:{line}: no row of this network')

    def test_standard_input(self):
        for words, text in ((['-'], 'node a b\nlink a b : 7\n'),
                            ([example('diamond.net'), '-'], 'a x 2 a b d\n')):
            ran = subprocess.run([sys.executable, os.path.join(TOP, 'tools/picture'), *words], input=text.encode(),
                                 stdout=subprocess.PIPE, timeout=60)
            self.assertEqual((ran.returncode, b'"a" -> "b" [label=' in ran.stdout), (0, True))

    @unittest.skipUnless(shutil.which('dot'), 'there is no Graphviz')
    def test_pictures_render(self):
        for name in ('diamond', 'bad_gadget', 'abilene', 'as_graph', 'abilene_cut'):
            text = tool('picture', example(f'{name}.net'))[1]
            ran = subprocess.run(['dot', '-Tsvg'], input=text.encode(), stdout=subprocess.PIPE, timeout=60)
            self.assertEqual((ran.returncode, b'</svg>' in ran.stdout), (0, True))


class Box:
    """The box of a node, and its name."""

    def __init__(self, group):
        rect = group.find(f'{SPACE}rect')
        self.name = group.find(f'{SPACE}title').text
        self.left, self.top, width, height = (float(rect.get(it)) for it in ('x', 'y', 'width', 'height'))
        self.right, self.bottom = self.left + width, self.top + height

    def has(self, x, y):
        return self.left < x < self.right and self.top < y < self.bottom

    def meets(self, other):
        return self.left < other.right and other.left < self.right \
            and self.top < other.bottom and other.top < self.bottom


class Svg(Case):
    """Networks and rows as SVG."""

    def parts(self, *words):
        """The SVG of the words, its nodes' boxes by name, the titles of its lines and its labels."""
        root = xml.fromstring(self.drawn(*words, '--svg').encode())
        self.assertEqual(root.tag, f'{SPACE}svg')
        groups = root.findall(f'{SPACE}g')
        boxes = [Box(it) for it in groups if it.find(f'{SPACE}rect') is not None]
        lines = [it for it in groups if it.find(f'{SPACE}path') is not None]
        return root, {it.name: it for it in boxes}, lines, root.findall(f'{SPACE}text')

    def test_no_node_is_on_another_and_no_label_on_a_node(self):
        names = sorted(glob.glob(example('*.net')))
        self.assertGreater(len(names), 8)
        for name in names:
            root, boxes, _, labels = self.parts(name)
            frame = [float(it) for it in root.get('viewBox').split()]
            nodes = list(boxes.values())
            for at, box in enumerate(nodes):
                self.assertFalse([it.name for it in nodes[:at] if it.meets(box)], (name, box.name))
                self.assertTrue(frame[0] <= box.left and box.right <= frame[0] + frame[2], (name, box.name))
                self.assertTrue(frame[1] <= box.top and box.bottom <= frame[1] + frame[3], (name, box.name))
                self.assertFalse([it.text for it in labels if box.has(float(it.get('x')), float(it.get('y')) - 4)],
                                 (name, box.name))

    def test_lines_arrows_and_labels(self):
        _, boxes, lines, labels = self.parts(example('disagree.net'))
        self.assertEqual(sorted(boxes), ['p', 'q', 'z'])
        # p and q have one label for each other, so that one line with two heads stands for both arcs.
        found = {it.find(f'{SPACE}title').text: len(it.findall(f'{SPACE}polygon')) for it in lines}
        self.assertEqual(found, {'p to z : D': 1, 'q to z : D': 1, 'p to q and back : N': 2})
        self.assertEqual(sorted(it.text for it in labels), ['D', 'D', 'N'])

    def test_an_arrow_ends_at_its_head(self):
        _, boxes, lines, _ = self.parts(self.file('n', 'node a b\nlink a b : 1\n'))
        tip = [float(it) for it in re.split('[ ,]', lines[0].find(f'{SPACE}polygon').get('points'))[:2]]
        far = {name: abs(tip[0] - (it.left + it.right) / 2) for name, it in boxes.items()}
        self.assertLess(far['b'], far['a'])

    def test_each_destination_has_a_colour(self):
        net = self.file('n', 'node a b\nboth a b : 1\norigin x at b : 0\norigin y at a : 0\n')
        rows = self.file('r', 'a x 1 a b\nb x 0 b\na y 0 a\nb y 1 b a\n')
        _, _, lines, labels = self.parts(net, rows)
        colours = {it.find(f'{SPACE}title').text: it.find(f'{SPACE}path').get('stroke') for it in lines}
        dot = self.drawn(net, rows)
        for title, arc in (('a to b : 1', '"a" -> "b"'), ('b to a : 1', '"b" -> "a"')):
            self.assertIn(f'{arc} [label="1", color="{colours[title]}"', dot)
        self.assertEqual(len(set(colours.values())), 2)
        self.assertLessEqual({'routes to x', 'routes to y'}, {it.text for it in labels})

    def test_what_xml_marks_is_escaped(self):
        _, boxes, lines, labels = self.parts(self.file('n', 'node a b\nlink a b : <"&\'>\n'))
        self.assertEqual([it.text for it in labels], ['<"&\'>'])
        self.assertEqual(lines[0].find(f'{SPACE}title').text, 'a to b : <"&\'>')
        _, _, lines, labels = self.parts(self.file('n', 'node a b\nlink a b : 1\x012\n'))
        self.assertEqual(([it.text for it in labels], lines[0].find(f'{SPACE}title').text), (['1?2'], 'a to b : 1?2'))
        _, _, lines, labels = self.parts(self.file('n', f'node a b\nlink a b : {"x" * 99}\n'))
        self.assertEqual([it.text for it in labels], ['x' * 34 + '..'])
        self.assertIn('x' * 99, lines[0].find(f'{SPACE}title').text)

    def test_a_picture_is_the_same_each_time(self):
        first = self.drawn(example('as_graph.net'), '--svg')
        self.assertEqual(first, self.drawn('--svg', example('as_graph.net')))

    def test_sixty_nodes_are_drawn_and_no_more(self):
        names = [f'n{at}' for at in range(61)]
        star = [f'node {name}\n' for name in names]
        arcs = [f'both n0 {name} : 1\n' for name in names[1:]]
        _, boxes, _, _ = self.parts(self.file('n', ''.join(star[:60] + arcs[:59])))
        nodes = list(boxes.values())
        self.assertEqual(len(nodes), 60)
        self.assertFalse([it.name for at, it in enumerate(nodes) for other in nodes[:at] if it.meets(other)])
        name = self.file('m', ''.join(star + arcs))
        self.refused(name, '--svg', says='it has 61 nodes, and --svg draws at most 60')
        self.assertEqual(self.drawn(name).count('->'), 60)


class Refusals(Case):
    """What isn't drawn, and why."""

    def test_files_that_are_no_networks(self):
        for name in ('shortest_path', 'customer_provider', 'ospf_areas', 'operators/table'):
            for more in ([], ['--svg']):
                self.refused(example(f'{name}.raml'), *more, says='this is a policy')
        for text, says in (('', 'no node'), ('# a\n', 'no node'), ('link a\n', 'n:1: no line'),
                           ('node a\nnode a\n', 'n:2: '), ('node a b\nlink a c : 1\n', 'n:2: there is no node c'),
                           ('node a b\nlink a b :\n', 'n:2: '), ('node a b\nlink a a : 1\n', 'n:2: '),
                           ('node a b\nboth a b : 1\nlink b a : 2\n', 'n:3: '), ('node a!\n', 'n:1: no name'),
                           ('node a\norigin x at a : 0\norigin x at a : 1\n', 'n:3: '),
                           ('node a b\nthen drop a b\n', 'n:2: '), ('node a b\nthen link a b : 1\nnode c\n', 'n:3: '),
                           ('node a b\nlink a b 1\n', 'n:2: '), (b'node \xff\n', 'UTF-8')):
            self.refused(self.file('n', text), says=says)
        self.refused(os.path.join(self.folder, 'none.net'), says='none.net: No such file')

    def test_words(self):
        net = example('cut.net')
        for words, says in (((net, '--changes', 'two'), '--changes takes a number of changes, as 0 or 1, and not two'),
                            ((net, '--changes'), '--changes takes'), ((net, '--changes', '-1'), 'not -1'),
                            ((net, '--changes', '3'), 'asks for 3 changes, and it has 2'), ((), 'network file'),
                            ((net, net, net), 'not 3 files'), ((net, '--png'), 'no option --png'),
                            (('-', '-'), 'standard input')):
            self.refused(*words, says=says)

    def test_rows_of_another_network(self):
        for text, says in (('', 'no row'), ('network refused: N6 at line 2\n', 'r:1: '), ('a x 2 a z d\n', 'r:1: '),
                           ('a x none\na y none\n', 'r:2: '), ('a x 2 b d\n', 'r:1: '), ('monotone yes\n', 'r:1: ')):
            self.refused(example('diamond.net'), self.file('r', text), says=says)
