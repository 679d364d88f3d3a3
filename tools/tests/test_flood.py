"""Tests of `flood` on drawn networks: it prints what `route` prints, and is spent exactly with fewer turns than cards
are sent, as docs/commands.md counts them."""

import itertools
import random

from support import Folder, built, needs_program, run


def drawn(source, least=0):
    """A small network: its nodes, its arcs, with labels of at least so much, and its text."""
    nodes = list('abcdef')[:source.randint(1, 6)]
    arcs = [it for it in itertools.permutations(nodes, 2) if source.random() < 0.4]
    lines = [*(f'node {it}' for it in nodes), *(f'link {a} {b} : {source.randint(least, 3)}' for a, b in arcs),
             *(f'origin {it} at {source.choice(nodes)} : 0' for it in 'xy')]
    return nodes, arcs, '\n'.join(lines) + '\n'


def reached(nodes, arcs, node):
    """The node, and those to which a chain of arcs leads from it."""
    found = {node}
    for _ in nodes:
        found |= {b for a, b in arcs if a in found}
    return found


def cards_sent(nodes, arcs):
    """How many cards a flood sends until nothing is on its way."""
    return sum(len(reached(nodes, arcs, it)) * sum(b == it for _, b in arcs) for it in nodes)


class Count(Folder):
    def test_cards_sent(self):
        """The example of docs/commands.md, and two nodes that send to each other."""
        self.assertEqual(cards_sent('abcd', [('b', 'd'), ('c', 'd'), ('b', 'c'), ('a', 'b')]), 7)
        self.assertEqual(cards_sent('ab', [('a', 'b'), ('b', 'a')]), 4)


@needs_program
class Drawn(Folder):
    """The program beside this count."""

    def test_drawn_floods(self):
        source, policy = random.Random(11), self.file('p.raml', 'main add(0..10);')
        for _ in range(20):
            nodes, arcs, text = drawn(source)
            name, sent = self.file('n.net', text), cards_sent(nodes, arcs)
            routed = run([built, 'route', policy, name])[1]
            words = [built, 'flood', policy, name]
            self.assertEqual(run(words)[:2], (0, f'{routed}quiet {sent}\n'), text)
            # Several workers share so few turns out again and again, which takes long on a busy machine.
            words += ['--workers', '1', '--turns']
            self.assertEqual(run([*words, str(sent)])[:2], (0, f'{routed}quiet {sent}\n'), text)
            if sent:
                status, out, _ = run([*words, str(sent - 1)])
                self.assertEqual((status, out.split('\n')[-2]), (4, f'spent {sent - 1}'), text)
