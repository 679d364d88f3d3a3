"""Tests of tools/from_networkx. What is expected is worked out by hand; networkx is used where it is installed."""

import importlib.util
import json
import os
import subprocess
import sys
import unittest

from support import TOP, Folder, built, needs_program, run, tool

DIAMOND = os.path.join(TOP, 'examples/diamond.net')
SHORTEST = os.path.join(TOP, 'examples/shortest_path.raml')
# Two ways from a to d of lengths 7 and 9; c is an origin too, from which it is 1 more.
LENGTHS = ('node a b c d e\nlink a b : 3\nlink b d : 4\nlink a c : 8\nlink c d : 1\norigin x at d : 0\norigin x at c : 2\n'
           'origin y at a : 5\nlink d a : 6\n')
LENGTHS_REPORT = ('a x 7 a b d\nb x 4 b d\nc x 1 c d\nd x 0 d\ne x none\n'
                  'a y 5 a\nb y 15 b d a\nc y 12 c d a\nd y 11 d a\ne y none\n')
needs_networkx = unittest.skipUnless(importlib.util.find_spec('networkx'), 'networkx is not installed')


class Reports(Folder):
    """Reports of paths that a file has."""

    def report(self, net, paths, *words):
        """The report of a network's text and of paths as JSON, and what is said on standard error."""
        names = [self.file('n.net', net), self.file('p.json', paths if isinstance(paths, str) else json.dumps(paths))]
        return tool('from_networkx', *names, *words)

    def assert_refused(self, net, paths, says, *words):
        status, out, err = self.report(net, paths, *words)
        self.assertEqual((status, out, err.count('\n')), (2, '', 1), err)
        self.assertIn(says, err)

    def test_one_destination(self):
        net = 'node a b c\nboth a b : 3\nlink c b : 4\norigin x at b : 2\n'
        for paths, wanted in (
                ({'a': ['a', 'b'], 'b': ['b'], 'c': None}, 'a x 5 a b\nb x 2 b\nc x none\n'),
                ({'c': ['c', 'b']}, 'a x none\nb x none\nc x 6 c b\n'),
                ({'x': {'a': {'path': ['a', 'b']}}}, 'a x 5 a b\nb x none\nc x none\n'),
                ({}, 'a x none\nb x none\nc x none\n')):
            self.assertEqual(self.report(net, paths), (0, wanted, ''))
        self.assertEqual(self.report(net, {'a': ['b', 'a'], 'b': ['b']}, '--reversed')[1],
                         'a x 5 a b\nb x 2 b\nc x none\n')

    def test_several_destinations(self):
        paths = {'y': {'d': ['d', 'a'], 'a': ['a']}, 'x': {'c': ['c'], 'a': ['a', 'c']}}
        self.assertEqual(self.report(LENGTHS, paths)[1],
                         'a x 10 a c\nb x none\nc x 2 c\nd x none\ne x none\n'
                         'a y 5 a\nb y none\nc y none\nd y 11 d a\ne y none\n')
        self.assert_refused(LENGTHS, {'a': ['a', 'c']}, 'NET has 2 destinations')
        self.assert_refused(LENGTHS, {'x': {}, 'z': {}}, 'NET has 2 destinations')

    def test_values_that_are_given(self):
        net = 'node u v w\nlink u v : (P,1)\nlink v w : (C,1)\norigin x at w : (c,0)\n'
        paths = {'u': {'value': '(p,2)', 'path': ['u', 'v', 'w']}, 'v': {'value': 7, 'path': ['v', 'w']}}
        self.assertEqual(self.report(net, paths)[1], 'u x (p,2) u v w\nv x 7 v w\nw x none\n')
        self.assert_refused(net, {'v': ['v', 'w']}, 'n.net: the label on v w, (C,1), is no number')
        for value in ('', 'a b', True, ['1'], '\u00e9'):
            self.assert_refused(net, {'v': {'value': value, 'path': ['v', 'w']}}, 'a text without spaces')

    def test_the_network_after_its_changes(self):
        net = 'node a b\nlink a b : 3\norigin x at b : 0\nthen link a b : 8\n'
        self.assertEqual(self.report(net, {'a': ['a', 'b']})[1], 'a x 8 a b\nb x none\n')
        self.assert_refused(net + 'then drop a b\n', {'a': ['a', 'b']}, 'from a to b, and there is no such arc')

    def test_names_as_network_from_makes_them(self):
        net = 'node New_York 2\nlink 2 New_York : 5\norigin x at New_York : 0\n'
        self.assertEqual(self.report(net, '{"2": [2, "New York"]}')[1], 'New_York x none\n2 x 5 2 New_York\n')
        self.assert_refused(net, {'Paris': None}, 'NET has no node Paris')
        self.assert_refused(net, {'New York': None, 'New_York': None}, 'two paths are of the node New_York')

    def test_what_is_no_path(self):
        net = 'node a b c\nlink a b : 3\nlink c b : 4\norigin x at b : 2\n'
        for paths, says in (({'a': ['b', 'a']}, '--reversed turns it around'), ({'a': []}, 'starts with no node'),
                            ({'a': ['c', 'b']}, 'starts with c'), ({'a': ['a']}, 'ends at a, which has no origin of x'),
                            ({'b': ['b', 'a', 'b']}, 'from b to a, and there is no such arc'), ({'a': 3}, 'a list of'),
                            ({'a': {'value': 3}}, 'a list of'), ({'x': None}, 'NET has no node x'), ([], 'an object is'),
                            ('{"a": null, "a": null}', 'a key twice'),
                            ('{"a"', ':1: no JSON'), ('{"a":\n', ':2: no JSON'), ('', 'no JSON')):
            self.assert_refused(net, paths, says)

    def test_words(self):
        for words in ([], ['-', '-'], [DIAMOND, '--reversed'], ['a', 'b', 'c'], ['--from', 'a'], ['missing'],
                      [DIAMOND, 'missing'], [SHORTEST, DIAMOND]):
            status, out, err = tool('from_networkx', *words)
            self.assertEqual((status, out, err.count('\n')), (2, '', 1), words)
        self.assertEqual(tool('from_networkx', '--help')[::2], (0, ''))

    def test_without_networkx(self):
        self.file('networkx.py', 'raise ImportError\n')
        words = [sys.executable, os.path.join(TOP, 'tools/from_networkx'), DIAMOND]
        how = {'stdin': subprocess.DEVNULL, 'stdout': subprocess.PIPE, 'stderr': subprocess.PIPE, 'timeout': 60}
        ran = subprocess.run(words, env={**os.environ, 'PYTHONPATH': self.folder}, **how)
        self.assertEqual((ran.returncode, ran.stdout), (2, b''))
        self.assertIn(b'networkx is not installed here', ran.stderr)

    @needs_networkx
    def test_what_networkx_computes(self):
        self.assertEqual(tool('from_networkx', self.file('n.net', LENGTHS)), (0, LENGTHS_REPORT, ''))
        status, out, err = tool('from_networkx', os.path.join(TOP, 'examples/providers.net'))
        self.assertEqual((status, out, err.count('\n')), (2, '', 1))
        self.assertIn('is no number', err)
        self.assertEqual(tool('from_networkx', self.file('n.net', 'node a\n')), (0, '', ''))


@needs_program
class Judged(Folder):
    """What the program says of such reports."""

    def judgement(self, policy, net, report):
        return run([built, 'verify', policy, net, self.file('r.report', report)])[:2]

    def test_the_paths_of_a_file(self):
        """The way over c is as long as the one over b, which path-vector nodes take, as b comes before c in NET."""
        wanted = {'b': '', 'c': 'stable no: a x has the better offer 2 a b d\n'}
        for over, line in wanted.items():
            paths = {'a': ['a', over, 'd'], 'b': ['b', 'd'], 'c': ['c', 'd'], 'd': ['d']}
            report = tool('from_networkx', DIAMOND, self.file('p.json', json.dumps(paths)))[1]
            self.assertEqual(self.judgement(SHORTEST, DIAMOND, report),
                             (0, 'optimal yes\n' + (line or 'stable yes\n')))

    def test_a_path_that_is_too_long(self):
        policy = self.file('p.raml', 'main add(1..10);')
        paths = {'x': {'a': ['a', 'c', 'd'], 'b': ['b', 'd'], 'c': ['c', 'd'], 'd': ['d']},
                 'y': {'a': ['a'], 'b': ['b', 'd', 'a'], 'c': ['c', 'd', 'a'], 'd': ['d', 'a']}}
        net = self.file('n.net', LENGTHS)
        report = tool('from_networkx', net, self.file('p.json', json.dumps(paths)))[1]
        self.assertEqual(self.judgement(policy, net, report), (0, 'optimal no: a x is beaten by a b d\n'
                                                                  'stable no: a x has the better offer 7 a b d\n'))
        self.assertEqual(self.judgement(policy, net, LENGTHS_REPORT), (0, 'optimal yes\nstable yes\n'))
        self.assertEqual(run([built, 'route', policy, net])[1], LENGTHS_REPORT)

    @needs_networkx
    def test_what_networkx_computes(self):
        net = os.path.join(TOP, 'examples/abilene.net')
        policy = os.path.join(TOP, 'examples/ospf.raml')
        report = tool('from_networkx', net)[1]
        self.assertEqual(self.judgement(policy, net, report)[1].split('\n')[0], 'optimal yes')
