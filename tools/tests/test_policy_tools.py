"""Tests of tools/test_policy, tools/routes_diff and tools/what_if.

Rows are worked out by hand: over `add` the least sum, and of two equal ones the shorter path, then the one whose nodes
come first in the file.
"""

import os
import pty
import subprocess
import sys
import xml.etree.ElementTree as xml

from support import TOP, Folder, built, needs_program, tool

WAYS = ('route', 'stable', 'settle', 'run')
ADD = 'main add(1..10);'
# Two equally long ways from a to d.
DIAMOND = 'node a b c d\nlink a b : 1\nlink a c : 1\nlink b d : 1\nlink c d : 1\norigin x at d : 0\n'
# Three nodes on a line, each arc in both directions.
LINE = 'node a b c\nboth a b : 2\nboth b c : 3\norigin x at c : 0\n'
# Each of p, q and r prefers the route over the next one to its own direct one, and only a direct route is passed on.
# No table is stable.
GADGET = 'main table { o < a < d; D: o -> d; N: d -> a };'
BAD = ('node z p q r\nlink p z : D\nlink q z : D\nlink r z : D\nlink p q : N\nlink q r : N\nlink r p : N\n'
       'origin x at z : o\n')


class Over(Folder):
    """Tools over a policy and a network in files."""

    def setUp(self):
        super().setUp()
        self.add, self.diamond = self.file('add.raml', ADD), self.file('diamond.net', DIAMOND)

    def of(self, name, *words):
        return tool(name, *words, '--program', built)

    def assert_refused(self, name, words, *parts):
        """That a tool says what is wrong in one line, and prints nothing."""
        status, out, said = self.of(name, *words)
        self.assertEqual((status, out, said.count('\n')), (2, '', 1), said)
        for part in (f'{name}: ', *parts):
            self.assertIn(part, said)


class Words(Over):
    """Words that the tools refuse, without a program."""

    def test_bad_words(self):
        for name, files in (('test_policy', ['t']), ('routes_diff', ['p', 'n', 'p', 'n']), ('what_if', ['p', 'n'])):
            for words in ([], [*files, '--by', 'walk'], [*files, '--turns', '1,000'], [*files, '--turns', '1000001'],
                          [*files, '--by', 'route', '--turns', '5'], [*files, '--by', 'stable', '--turns', '5'],
                          [*files, '--unknown'], [*files, '--by']):
                status, out, said = tool(name, *words)
                self.assertEqual((status, out, said.count('\n')), (2, '', 1), (name, words, said))
        self.assertIn('--nodes', tool('what_if', 'p', 'n', '--nodes', '--pairs')[2])

    def test_no_program(self):
        policy, missing = self.file('t.test', f'policy {self.add}\nexpect verdict total yes\n'), f'{self.folder}/none'
        for words in (['test_policy', policy], ['what_if', self.add, self.diamond],
                      ['routes_diff', *[self.add, self.diamond] * 2]):
            for program in (missing, self.folder, self.add):
                status, out, said = tool(*words, '--program', program)
                self.assertEqual((status, out, said.count('\n')), (2, '', 1))
                self.assertIn(program, said)


    def test_what_the_program_says(self):
        """A line that the program says on standard error at each run is shown once."""
        program = self.file('program', '#!/bin/sh\necho a x none\necho quiet 0\necho said >&2\n')
        os.chmod(program, 0o755)
        self.assertEqual(tool('routes_diff', 'p', 'n', 'p', 'n', '--program', program), (0, '', 'said\n'))

    def test_tables_that_are_not_one(self):
        for text in ('x 2 stable\ntable 1\na x 1 a\ntable 2\na x 0 a\n', 'x 0 stable\n'):
            self.file('text', text)
            program = self.file('program', f'#!/bin/sh\ncat {self.folder}/text\n')
            os.chmod(program, 0o755)
            status, out, said = tool('routes_diff', 'p', 'n', 'p', 'n', '--by', 'stable', '--program', program)
            self.assertEqual((status, out), (2, ''))
            self.assertIn(f'routes_diff: n: x has {text[2]} stable tables', said)

    def test_standard_output_that_takes_no_more(self):
        program = self.file('program', '#!/bin/sh\nshift\necho a x 1 $1\necho quiet 0\n')
        os.chmod(program, 0o755)
        words = [sys.executable, os.path.join(TOP, 'tools/routes_diff'), 'a', 'n', 'p', 'n', '--program', program]
        with open('/dev/full', 'w') as full:
            ran = subprocess.run(words, stdout=full, stderr=subprocess.PIPE, timeout=60)
        self.assertEqual((ran.returncode, ran.stderr.count(b'\n')), (2, 1))


@needs_program
class TestPolicy(Over):
    """tools/test_policy"""

    def outcome(self, text, *words):
        return self.of('test_policy', self.file('a.test', text), *words)

    def test_all_pass(self):
        status, out, said = self.outcome(
            'policy add.raml # the sum\nexpect verdict strict yes\nexpect verdict total yes\r\n\nnetwork  diamond.net\n'
            'expect a x via b\nexpect a x value 2\nexpect a x value  02\n\texpect d x value 0')
        self.assertEqual((status, out, said), (0, '6 passed, 0 failed\n', ''))

    def test_each_way_to_the_rows(self):
        text = 'policy add.raml\nnetwork diamond.net\nexpect a x via b\n'
        for by in WAYS:
            self.assertEqual(self.outcome(text, '--by', by)[:2], (0, '1 passed, 0 failed\n'))
        self.assertEqual(self.outcome(text, '--turns', '4')[0], 0)

    def test_links_that_cost_nothing(self):
        """Around a circle of them all routes have one value, so the shortest path decides; no label is strict."""
        self.file('free.raml', 'main add(0..10);')
        self.file('circle.net', 'node a b c\nboth a b : 0\nboth b c : 0\nboth c a : 0\norigin x at a : 0\n'
                                'origin y at b : 0\norigin y at c : 0\n')
        text = ('policy free.raml\nnetwork circle.net\nexpect b x via a\nexpect c x via a\nexpect c x value 0\n'
                'expect a y via b\nexpect c y value 0\n')
        for by in ('stable', 'route', 'run'):
            self.assertEqual(self.outcome(text, '--by', by), (0, '5 passed, 0 failed\n', ''))
        path = self.file('a.test', text)
        self.assert_refused('test_policy', [path, '--by', 'settle'], 'circle.net: strict fails on a b')

    def test_failures(self):
        text = ('policy add.raml\nnetwork diamond.net\nexpect verdict strict no\nexpect a x via c\nexpect a x none\n'
                'expect a x value 3\nexpect d x via d\nexpect e x none\nexpect a y none\nexpect b x value 1\n')
        status, out, _ = self.outcome(text)
        at = os.path.join(self.folder, 'a.test')
        self.assertEqual((status, out.splitlines()), (1, [
            f'{at}:3: expect verdict strict no: found strict yes',
            f'{at}:4: expect a x via c: found 2 a b d',
            f'{at}:5: expect a x none: found 2 a b d',
            f'{at}:6: expect a x value 3: found 2 a b d',
            f'{at}:7: expect d x via d: found 0 d',
            f'{at}:8: expect e x none: found no node e in {self.diamond}',
            f'{at}:9: expect a y none: found no destination y in {self.diamond}',
            '1 passed, 7 failed']))

    def test_a_verdict_with_its_instance(self):
        self.file('table.raml', 'main table { o < d; Up: o -> d, d -> o };')
        self.file('one.net', 'node a b\nlink a b : Up\norigin x at b : o\n')
        status, out, _ = self.outcome('policy table.raml\nexpect verdict monotone yes\n')
        self.assertEqual((status, out.splitlines()[0].split(': found ')[1]), (1, 'monotone no: Up on d gives o'))

    def test_several_networks(self):
        """A verdict is of the network's labels, and of all labels where a new policy stands without a network."""
        self.file('free.raml', 'main add(0..10);')
        self.file('line.net', LINE)
        self.file('lone.net', 'node a b\norigin x at b : 0\n')
        self.assertEqual(self.outcome(
            'policy free.raml\nexpect verdict strict no\nnetwork diamond.net\nexpect verdict strict yes\n'
            'network line.net\nexpect a x value 5\nexpect a x via b\nnetwork lone.net\nexpect a x none\n'
            'policy free.raml\nexpect verdict strict no\npolicy add.raml\nexpect verdict strict yes\n'),
            (0, '7 passed, 0 failed\n', ''))

    def test_values(self):
        """Blanks, leading zeros and the order of a set say nothing."""
        self.file('tags.raml', 'main lex(add(1..1), tags(20));')
        self.file('tags.net', 'node a b\nlink a b : (1,+3)\norigin x at b : (0,{12})\n')
        self.assertEqual(self.outcome('policy tags.raml\nnetwork tags.net\nexpect a x value ( 1, {12, 03} )\n'
                                     'expect a x value (1,{3,12})\n')[:2], (0, '2 passed, 0 failed\n'))

    def test_long_numbers(self):
        """Sums of numbers of 20 digits: 2 and 3 times 18,446,744,073,709,551,615."""
        most = 2 ** 64 - 1
        self.file('two.raml', f'raml 2; main add(1..{most});')
        self.file('two.net', f'node a b c\nlink a b : {most}\nlink b c : {most}\norigin x at c : {most}\n')
        self.assertEqual(self.outcome('policy two.raml\nnetwork two.net\nexpect a x value 55340232221128654845\n'
                                      'expect b x value 00036893488147419103230\n')[:2], (0, '2 passed, 0 failed\n'))

    def test_names_that_are_words(self):
        """A node may be called as a word of the lines is."""
        self.file('names.net', 'node verdict none\nlink verdict none : 1\norigin strict at none : 0\n')
        self.assertEqual(self.outcome('policy add.raml\nnetwork names.net\nexpect verdict strict via none\n'
                                      'expect none strict value 0\nexpect verdict strict value 1\n')[0], 0)

    def test_the_last_phase(self):
        self.file('cut.net', DIAMOND + 'then drop b d\n')
        self.assertEqual(self.outcome('policy add.raml\nnetwork cut.net\nexpect b x none\nexpect a x via c\n')[0], 0)

    def test_several_files(self):
        one = self.file('one.test', 'policy add.raml\nnetwork diamond.net\nexpect a x via b\n')
        two = self.file('two.test', 'policy add.raml\nnetwork diamond.net\nexpect a x via c\n')
        status, out, _ = self.of('test_policy', one, two)
        self.assertEqual((status, out), (1, f'{two}:3: expect a x via c: found 2 a b d\n1 passed, 1 failed\n'))

    def test_junit(self):
        path = os.path.join(self.folder, 'a.xml')
        status, out, _ = self.outcome('policy add.raml\nnetwork diamond.net\nexpect a x via b\nexpect a x via c\n',
                                     '--junit', path)
        self.assertEqual((status, out.splitlines()[-1]), (1, '1 passed, 1 failed'))
        suite, = xml.parse(path).getroot()
        self.assertEqual([suite.get(it) for it in ('tests', 'failures', 'errors', 'skipped')], ['2', '1', '0', '0'])
        passed, failed = suite
        self.assertEqual((passed.get('name'), len(passed)), ('line 3: expect a x via b', 0))
        self.assertEqual((failed.get('line'), failed[0].tag), ('4', 'failure'))
        self.assertEqual(failed[0].get('message'), 'found 2 a b d')
        self.assertIn(':4: expect a x via c: found 2 a b d', failed[0].text)
        self.assert_refused('test_policy', [os.path.join(self.folder, 'a.test'), '--junit', self.folder], self.folder)

    def test_bad_files(self):
        head, row = 'policy add.raml\nnetwork diamond.net\n', 'expect a x via b\n'
        for text, line in (('network diamond.net\n', 1), (row, 1), ('policy add.raml\n' + row, 2),
                           ('policy add.raml\nnetwork diamond.net\npolicy add.raml\n' + row, 4), ('policy\n' + row, 1),
                           (head + 'network\n', 3), (head + 'network a\0\n', 3),
                           (head + row + 'expct a x none\n', 4), (head + 'expct verdict total yes\n', 3),
                           (head + 'expect a x\n', 3),
                           (head + 'expect a x via\n', 3), (head + 'expect a x value\n', 3),
                           (head + 'expect a x value none\n', 3), (head + 'expect a x value 1 2\n', 3),
                           (head + 'expect a x value -2\n', 3), (head + 'expect a x none b\n', 3),
                           (head + 'expect a x via b c\n', 3), (head + 'expect a:b x none\n', 3),
                           (head + 'expect verdict strict\n', 3), (head + 'expect verdict strong yes\n', 3),
                           (head + 'expect verdict strict maybe\n', 3)):
            self.assert_refused('test_policy', [self.file('a.test', text)], f'a.test:{line}: ')
        for content in (b'', b'# nothing\n', head.encode(), head.encode() + b'# \xff\n'):
            self.assert_refused('test_policy', [self.file('a.test', content)], 'a.test')
        self.assert_refused('test_policy', [os.path.join(self.folder, 'none.test')], 'none.test')
        self.assert_refused('test_policy', [self.folder], self.folder)

    def test_what_the_program_refuses(self):
        self.file('bad.raml', 'let a = gate;\nmain b;')
        self.file('bad.net', 'node a\nlink a b : 1\n')
        for text, *parts in (('policy bad.raml\nexpect verdict strict yes\n', 'bad.raml:2:6: ', 'X5', 'a.test:2'),
                             ('policy add.raml\nnetwork bad.net\nexpect a x none\n', 'bad.net:2: ', 'N2', 'a.test:3'),
                             ('policy none.raml\nexpect verdict strict yes\n', 'none.raml: ', 'read fault'),
                             ('policy add.raml\nnetwork none.net\nexpect a x none\n', 'none.net: ', 'read fault')):
            self.assert_refused('test_policy', [self.file('a.test', text)], *parts)

    def test_rows_that_are_none(self):
        self.file('gadget.raml', GADGET)
        self.file('bad.net', BAD)
        path = self.file('a.test', 'policy gadget.raml\nnetwork bad.net\nexpect z x value o\n')
        self.assert_refused('test_policy', [path, '--turns', '50'], 'bad.net: ', 'spent after 50 deliveries')
        self.assert_refused('test_policy', [path, '--by', 'settle'], 'bad.net: strict fails on p q: N on d gives a')
        self.assert_refused('test_policy', [path, '--by', 'stable'], 'bad.net: monotone fails on p q: N on d gives a')


@needs_program
class RoutesDiff(Over):
    """tools/routes_diff"""

    def test_no_difference(self):
        again = self.file('again.net', '# the same\n' + DIAMOND)
        for by in WAYS:
            self.assertEqual(self.of('routes_diff', self.add, self.diamond, self.add, again, '--by', by), (0, '', ''))

    def test_rows_that_differ(self):
        """The nodes b and c change places in the file, b d is cut, and a new node e takes the place of d."""
        other = self.file('other.net', 'node a c b e\nlink a b : 1\nlink a c : 4\nlink c e : 1\norigin x at e : 0\n')
        status, out, said = self.of('routes_diff', self.add, self.diamond, self.add, other)
        self.assertEqual((status, said, out.splitlines()), (1, '', [
            'changed a x: 2 a b d -> 5 a c e', 'changed b x: 1 b d -> none', 'changed c x: 1 c d -> 1 c e',
            'removed d x: 0 d', 'added e x: 0 e', 'added 1, removed 1, changed 3']))

    def test_the_last_phase(self):
        cut = self.file('cut.net', DIAMOND + 'then drop b d\nthen link b d : 5\n')
        for by in ('stable', 'settle'):
            status, out, _ = self.of('routes_diff', self.add, self.diamond, self.add, cut, '--by', by)
            self.assertEqual((status, out.splitlines()), (1, [
                'changed a x: 2 a b d -> 2 a c d', 'changed b x: 1 b d -> 5 b d', 'added 0, removed 0, changed 2']))

    def test_refusals(self):
        bad = self.file('bad.net', 'node a\nnode a\n')
        self.assert_refused('routes_diff', [self.add, self.diamond, self.add, bad], f'{bad}:2: ', 'N3')
        self.assert_refused('routes_diff', [self.diamond, self.add, self.add, self.diamond], f'{self.diamond}:1:1: ')
        self.assert_refused('routes_diff', [self.add, self.diamond, self.add, self.diamond, '--turns', '1'],
                            f'{self.diamond}: ', 'spent after 1 deliveries')


@needs_program
class WhatIf(Over):
    """tools/what_if"""

    def tried(self, network, *words):
        status, out, said = self.of('what_if', self.add, self.file('n.net', network), *words)
        self.assertEqual((status, said), (0, ''))
        return out.splitlines()

    def test_links(self):
        for by in WAYS:
            self.assertEqual(self.tried(DIAMOND, '--by', by), [
                'link a b down: lost 0, moved 1', '  moved a x: 2 a b d -> 2 a c d',
                'link a c down: lost 0, moved 0',
                'link b d down: lost 1, moved 1', '  moved a x: 2 a b d -> 2 a c d', '  lost b x: 1 b d',
                'link c d down: lost 1, moved 0', '  lost c x: 1 c d',
                'failures 4, harmless 1, lost 2, moved 2'])

    def test_both_directions(self):
        """A link is one failure, whichever of its arcs stands first."""
        network = 'node a b\nlink b a : 1\nlink a b : 4\norigin x at b : 0\norigin y at a : 0\n'
        self.assertEqual(self.tried(network), [
            'link b a down: lost 2, moved 0', '  lost a x: 4 a b', '  lost b y: 1 b a',
            'failures 1, harmless 0, lost 2, moved 0'])

    def test_nodes(self):
        self.assertEqual(self.tried(LINE, '--nodes'), [
            'node a down: lost 0, moved 0',
            'node b down: lost 1, moved 0', '  lost a x: 5 a b c',
            'node c down: lost 2, moved 0', '  lost a x: 5 a b c', '  lost b x: 3 b c',
            'failures 3, harmless 1, lost 3, moved 0'])

    def test_pairs(self):
        lines = self.tried(DIAMOND, '--pairs')
        self.assertEqual([it for it in lines if it[0] != ' '], [
            'links a b and a c down: lost 1, moved 0', 'links a b and b d down: lost 1, moved 1',
            'links a b and c d down: lost 2, moved 0', 'links a c and b d down: lost 2, moved 0',
            'links a c and c d down: lost 1, moved 0', 'links b d and c d down: lost 3, moved 0',
            'failures 6, harmless 0, lost 10, moved 1'])
        self.assertEqual(self.tried(LINE, '--pairs')[0], 'links a b and b c down: lost 2, moved 0')

    def test_changes(self):
        """Failures are of the network after all changes: without b d, and with a c at 3 and a new arc a d."""
        network = DIAMOND.replace('\n', '\r\n') + (
            'then drop b d # cut\nthen link a c : 3\nthen link a d : 9\nthen link b d : 1\nthen drop b d\n')
        self.assertEqual(self.tried(network), [
            'link a b down: lost 0, moved 0',
            'link a c down: lost 0, moved 1', '  moved a x: 4 a c d -> 9 a d',
            'link c d down: lost 1, moved 1', '  moved a x: 4 a c d -> 9 a d', '  lost c x: 1 c d',
            'link a d down: lost 0, moved 0',
            'failures 4, harmless 2, lost 1, moved 2'])

    def test_no_failures(self):
        self.assertEqual(self.tried(''), ['failures 0, harmless 0, lost 0, moved 0'])
        self.assertEqual(self.tried('node a\n', '--pairs'), ['failures 0, harmless 0, lost 0, moved 0'])

    def test_refusals(self):
        bad = self.file('bad.net', 'node a b\nlink a b : 1\nlink a b : 2\n')
        self.assert_refused('what_if', [self.add, bad], f'{bad}:3: network refused: N4')
        self.assert_refused('what_if', [bad, self.diamond], f'{bad}:1:1: expression refused: X2')
        self.assert_refused('what_if', [self.add, os.path.join(self.folder, 'none')], 'none: ')
        self.assert_refused('what_if', [self.add, self.diamond, '--turns', '3'], self.diamond, 'spent after 3')
        gadget, ring = self.file('gadget.raml', GADGET), self.file('ring.net', BAD)
        self.assert_refused('what_if', [gadget, ring, '--by', 'route'], f'{ring}: monotone fails on p q: ')

    def test_a_run_that_a_failure_spends(self):
        """With the arc q u the gadget comes to rest, since q then has a route that it prefers to that over r."""
        policy = self.file('best.raml', 'main table { o < b < a < d; D: o -> d; N: d -> a; B: o -> b };')
        network = self.file('best.net', BAD.replace('node z', 'node u z') + 'link q u : B\norigin x at u : o\n')
        self.assert_refused('what_if', [policy, network, '--turns', '5000'], 'with link q u down', 'spent after 5000')

    def test_progress_on_a_terminal(self):
        here, there = pty.openpty()
        words = [sys.executable, os.path.join(TOP, 'tools/what_if'), self.add, self.diamond, '--program', built]
        ran = subprocess.run(words, stdin=subprocess.DEVNULL, stdout=subprocess.PIPE, stderr=there, timeout=60)
        os.close(there)
        said = os.read(here, 65536).decode()
        os.close(here)
        self.assertEqual((ran.returncode, ran.stdout.count(b'\n')), (0, 9))
        self.assertIn('what_if: 4 of 4: link c d', said)


@needs_program
class Examples(Over):
    """The test files under examples/tests."""

    def test_they_pass(self):
        folder = os.path.join(TOP, 'examples/tests')
        for name in os.listdir(folder):
            for by in ('stable', 'settle', 'run'):
                status, out, said = self.of('test_policy', os.path.join(folder, name), '--by', by)
                self.assertEqual((status, out.endswith(' passed, 0 failed\n'), said), (0, True, ''), name)
