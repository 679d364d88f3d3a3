"""Tests of the networks that gadget prints: what their runs come to."""

import glob
import os
import unittest

from support import TOP, Folder, built, needs_program, run

WORKERS = ('1', '2', '4', '16')
GREATEST = 18446744073709551615
LONG = '# monotone no: no network file holds this instance\n'


def phases_of(text):
    """The lines of each phase of a run, without its number."""
    found = [[]]
    for line in text.splitlines():
        if line.startswith('phase '):
            found.append([])
        else:
            found[-1].append(line)
    return found


@needs_program
class Gadgets(Folder):
    """Policies, and what the network that shows one not to be monotone does."""

    def verdict(self, policy):
        """Whether `check` says that the policy is monotone."""
        status, out, _ = run([built, 'check', policy])
        self.assertEqual(status, 0)
        return out.startswith('monotone yes\n')

    def check_wedge(self, policy, text):
        """The network has a memory: its second and its fourth phase have the same arcs and other rows."""
        lines = text.splitlines()
        self.assertEqual(len(lines), 8, policy)
        label, value = lines[2].split(' : ')[1], lines[3].split(' : ')[1]
        self.assertTrue(lines[0].startswith(f'# monotone no: {label} on {value} gives '), policy)
        self.assertEqual(lines[1:], ['node p q', f'link p q : {label}', f'origin x at p : {value}',
                                     f'origin x at q : {value}', f'then link q p : {label}', 'then drop p q',
                                     f'then link p q : {label}'])
        image = lines[0].split(' gives ')[1]
        first, second = [f'p x {image} p q', f'q x {value} q'], [f'p x {value} p', f'q x {image} q p']
        net = self.file('n.net', text)
        for workers in WORKERS:
            status, out, _ = run([built, 'run', policy, net, '--workers', workers])
            self.assertEqual(status, 0, policy)
            self.assertEqual(phases_of(out), [rows + ['quiet 1'] for rows in (first, first, second, second)], policy)

    def test_examples(self):
        policies = glob.glob(os.path.join(TOP, 'examples', '**', '*.raml'), recursive=True)
        self.assertGreater(len(policies), 20)
        for policy in sorted(policies):
            status, out, _ = run([built, 'gadget', policy])
            self.assertEqual(status, 0, policy)
            if self.verdict(policy):
                self.assertEqual(out, '# monotone yes\n', policy)
            else:
                self.check_wedge(policy, out)

    def test_instances_that_no_network_file_holds(self):
        name = 'B' * 4090
        great = 'lp(1)'
        for _ in range(127):
            great = f'lex({great}, add({GREATEST}..{GREATEST}))'
        for text in (f'main table {{ a < {name}; N: {name} -> a }};', f'raml 2;\nmain {great};'):
            policy = self.file('p.raml', text)
            self.assertEqual(run([built, 'gadget', policy])[:2], (0, LONG))
            self.assertFalse(self.verdict(policy))

    def test_the_longest_line_that_a_network_file_holds(self):
        # `# monotone no: N on BB.. gives a` has 4,096 bytes
        name = 'B' * (4096 - len('# monotone no: N on ') - len(' gives a'))
        policy = self.file('p.raml', f'main table {{ a < {name}; N: {name} -> a }};')
        self.check_wedge(policy, run([built, 'gadget', policy])[1])


if __name__ == '__main__':
    unittest.main()
