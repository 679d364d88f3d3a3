"""Tests of `distance` on drawn networks: its values are those of `route`, and its next hops lead to them."""

import random

from support import Folder, built, needs_program, run
from test_flood import drawn


def rows_of(text):
    """For each node and destination the words after them."""
    return {tuple(line.split()[:2]): line.split()[2:] for line in text.splitlines()}


@needs_program
class Drawn(Folder):
    def test_drawn_exchanges(self):
        source, policy = random.Random(12), self.file('p.raml', 'main add(1..10);')
        for _ in range(20):
            _, _, text = drawn(source, least=1)
            name = self.file('n.net', text)
            routed = rows_of(run([built, 'route', policy, name])[1])
            for workers in ('1', '4'):
                status, out, _ = run([built, 'distance', policy, name, '--workers', workers])
                *rows, end = out.splitlines()
                found = rows_of('\n'.join(rows))
                self.assertEqual((status, end.split()[0]), (0, 'quiet'), text)
                self.assertEqual({key: words[0] for key, words in found.items()},
                                 {key: words[0] for key, words in routed.items()}, text)
                self.assert_lead(found, text)

    def assert_lead(self, found, text):
        """Next hops lead from each row with a value to a row that ends here, and values get better on the way."""
        for (node, dest), words in found.items():
            while words[1:2] == ['via']:
                after = found[words[2], dest]
                self.assertLess(int(after[0]), int(words[0]), text)
                words = after
            self.assertIn(words[1:], ([], ['here']), text)
