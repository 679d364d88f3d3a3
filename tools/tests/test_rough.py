"""Tests of the tools that use the program roughly: fuzz, refused_memory, rough_use and load."""

import os
import random
import shutil
import stat
import sys
import unittest

from support import TOP, Folder, built, loaded, needs_program, tool

sys.path.insert(0, os.path.join(TOP, 'tools'))

from plain import expressions
from rough import changes, drawn, greatest
from rough.cases import Case, judged, swept_literals

TOOLS = ('fuzz', 'refused_memory', 'rough_use', 'load')
POLICY = b'main lex(table { a < b; R: a -> b }, tags(3));\n'
VERDICTS = ''.join(f'{name} yes\n' for name in ('monotone', 'strict', 'isotone', 'cancellative', 'total'))


class Words(Folder):
    """Words that the tools refuse."""

    def test_each_refuses_in_a_line(self):
        for name in TOOLS:
            for words in (['--program', self.folder], ['--unknown'], ['--seed', 'x'], ['more']):
                status, out, err = tool(name, *words)
                self.assertEqual((status, out, err.count('\n')), (2, '', 1), (name, words))
                self.assertTrue(err.startswith(f'{name}: '), err)

    def test_what_is_refused(self):
        for words in (['fuzz', '--kind', 'all'], ['fuzz', '--examples', '/nowhere'], ['load', '--workers', '17'],
                      ['load', '--processors', '1-'], ['load', '--nodes', '1'], ['rough_use', '--only', 'sleep'],
                      ['refused_memory', '--only', 'walk2'], ['refused_memory', '--program', '/bin/true']):
            status, out, err = tool(*words)
            self.assertEqual((status, out, err.count('\n')), (2, '', 1), words)


class Texts(unittest.TestCase):
    """Changed and drawn texts."""

    def drawings(self):
        return [changes.changed(random.Random(seed), POLICY, [POLICY]) for seed in range(40)]

    def test_drawings_repeat(self):
        one, other = self.drawings(), self.drawings()
        self.assertEqual(one, other)
        self.assertGreater(len(set(one)), 30)

    def test_each_way_changes(self):
        for way in changes.WAYS:
            draw = random.Random(7)
            found = {way(draw, b'main add(1..2);\nmain gate;\n', [b'let x = gate;\nmain x;\n']) for _ in range(20)}
            self.assertGreater(len(found), 1, way)

    def test_sweeps(self):
        self.assertEqual(list(changes.fronts(b'ab')), [b'', b'a', b'ab'])
        self.assertEqual(list(changes.with_each_byte(b'ab', b'{')), [b'{b', b'a{'])

    def test_swept_literals(self):
        cases = list(swept_literals([b'main seq(3);', b'main', b'main table { a < B; L: none };']))
        self.assertEqual(len(cases), 2 * 512)
        good = {case.files[1] for case in cases if not case.line}
        # A line feed ends its line, and so does a comment, and the blank that is left is no literal.
        self.assertEqual(good, {b'node a b\nlink a b :' + it for it in (b'0', b'1', b'2', b'L')}
                         | {b'node a\norigin x at a :' + it for it in (b'a', b'B')})

    def test_greatest_texts(self):
        for text in greatest.texts():
            for size in (65_536, 100_000):
                case = judged(text.kind, (), text.files(text.text(size)))
                self.assertEqual(case.line, text.refusal(size), (text.kind, text.name, size))

    def test_drawn_networks_are_networks(self):
        from plain import networks
        for seed in range(60):
            draw = random.Random(seed)
            policy = drawn.expression_text(draw, draw.randint(1, 9)).encode()
            tree, profile, line = expressions.judge(policy)
            if not line:
                net = drawn.network_text(draw, tree, 5, 8, 2, 3).encode()
                self.assertEqual(networks.judge(net, tree, profile)[1], '', (policy, net))


class Fuzz(Folder):
    """What fuzz says of programs that are wrong, and of the built one."""

    def program(self, *lines):
        path = self.file('program', '\n'.join(('#!/bin/sh', *lines, '')))
        os.chmod(path, stat.S_IRWXU)
        return path

    def fault(self, line, status, text, said=b'', seconds=0.0, is_stopped=False, words=('check',)):
        """What fuzz says is wrong with such an answer on a policy that the plain reader refuses with this line."""
        class Ran:
            pass
        ran = Ran()
        ran.status, ran.text, ran.said, ran.seconds, ran.is_stopped = status, text.encode(), said, seconds, is_stopped
        kind = 'expression' if words == ('check',) else 'words'
        found = loaded('fuzz').fault_of(Case(kind, words, [b'main gate;'], line), ran)
        return found.split(':')[0]

    def test_what_is_wrong(self):
        self.assertEqual(self.fault('', 0, VERDICTS), '')
        for status, text in ((1, VERDICTS), (2, 'expression refused: X1 at 1:1\n'),
                             (5, 'read fault on the expression\n'), (8, 'too long: the expression\n')):
            self.assertEqual(self.fault('', status, text), 'refused', text)
        for status, text in ((3, VERDICTS), (0, ''), (0, VERDICTS * 2), (0, VERDICTS[:-1]), (0, 'yes\n'),
                             (4, 'quiet 1\n')):
            self.assertEqual(self.fault('', status, text), 'form', text)
        for status in (6, 7, 70, 134, 139):
            self.assertEqual(self.fault('', status, ''), f'status {status}')
        self.assertEqual(self.fault('', 0, VERDICTS, said=b'!'), 'standard error')
        self.assertEqual(self.fault('', 0, VERDICTS, seconds=3), 'slow')
        self.assertEqual(self.fault('', 0, VERDICTS, is_stopped=True), 'no answer in time')

    def test_what_is_wrong_with_a_refusal(self):
        line = 'expression refused: X2 at 1:6'
        self.assertEqual(self.fault(line, 2, line + '\n'), '')
        for status, text in ((0, VERDICTS), (2, line), (2, 'expression refused: X2 at 1:7\n'), (2, ''),
                             (3, line + '\n')):
            self.assertEqual(self.fault(line, status, text), 'refusal', text)
        self.assertEqual(self.fault('', 5, 'read fault on the expression\n', words=('check', b'nowhere')), '')
        self.assertEqual(self.fault('', 1, 'words refused: C3\n', words=('check', b'FILE')), 'refused')

    def test_the_smallest_case(self):
        keep = os.path.join(self.folder, 'kept')
        status, out, _ = tool('fuzz', '--count', '3', '--kind', 'expression', '--keep', keep, '--program',
                              self.program('exit 9'))
        self.assertEqual((status, ': status 9: plain' in out, '3 inputs, 3 wrong' in out), (1, True, True), out)
        sizes = [os.path.getsize(os.path.join(keep, name)) for name in os.listdir(keep)]
        self.assertLess(min(sizes), 20)

    @needs_program
    def test_the_built_program(self):
        for kind in ('expression', 'network', 'report', 'words'):
            status, out, err = tool('fuzz', '--count', '25', '--kind', kind, '--program', built)
            self.assertEqual((status, err), (0, ''), out)
            self.assertIn(f'{kind} 25: accepted', out)

    def test_what_is_wrong_with_a_great_file(self):
        fuzz = loaded('fuzz')
        self.assertFalse(fuzz.is_steep([0.1, 0.2, 0.4]))
        self.assertFalse(fuzz.is_steep([0.0, 0.0, 0.09]))
        self.assertTrue(fuzz.is_steep([0.1, 0.4, 1.6]))
        status, out, _ = tool('fuzz', '--greatest', '--kind', 'report', '--count', '1', '--program',
                              self.program('exit 9'))
        self.assertEqual((status, 'status 9' in out, '1 wrong' in out), (1, True, True), out)

    @needs_program
    def test_greatest(self):
        status, out, err = tool('fuzz', '--greatest', '--kind', 'report', '--count', '1', '--program', built)
        self.assertEqual((status, err), (0, ''), out)
        self.assertIn('report, empty lines: V5 at line 4194305; ', out)

    @needs_program
    def test_sweep(self):
        status, out, _ = tool('fuzz', '--sweep', '--count', '30', '--program', built)
        self.assertEqual((status, 'seed 1: 30 inputs, 0 wrong' in out), (0, True), out)


class Memory(unittest.TestCase):
    """What refused_memory makes of answers."""

    def setUp(self):
        self.tool = loaded('refused_memory')

    def outcome(self, status, text, is_fixed=True, usual=(0, b'a x 1 a b\nquiet 3\n'), said=b'', was_refused=True):
        class Ran:
            def __init__(self, status, text, said=b''):
                self.status, self.text, self.said, self.is_stopped = status, text, said, False

        class Row:
            pass
        row = Row()
        row.is_fixed = is_fixed
        return self.tool.outcome_of(row, Ran(status, text, said), Ran(*usual), was_refused)

    def test_outcomes(self):
        self.assertEqual(self.outcome(7, b'out of memory\n'), 'said')
        self.assertEqual(self.outcome(7, b''), 'nothing')
        self.assertEqual(self.outcome(7, b'a x 1 a b\n'), 'front')
        self.assertEqual(self.outcome(0, b'a x 1 a b\nquiet 3\n'), 'unchanged')
        for status, text in ((7, b'a x 1 a'), (7, b'a x 2 a b\n'), (7, b'out of mem'), (0, b''), (0, b'a x 1 a b\n'), (134, b''), (5, b'')):
            self.assertEqual(self.outcome(status, text), 'wrong', (status, text))
        self.assertEqual(self.outcome(7, b'out of memory\n', was_refused=False), 'wrong')
        self.assertEqual(self.outcome(7, b'', said=b'!'), 'wrong')

    def test_runs_that_differ(self):
        self.assertEqual(self.outcome(0, b'a x 1 a b\nquiet 4\n', is_fixed=False), 'unchanged')
        self.assertEqual(self.outcome(0, b'a x 1 a b\nquiet 4\n'), 'wrong')
        self.assertEqual(self.outcome(7, b'a x 1 a b\nquiet 9\n', is_fixed=False), 'front')
        self.assertEqual(self.outcome(7, b'a x 1 a b\nqui', is_fixed=False), 'wrong')

    def test_numbers(self):
        self.assertEqual(list(self.tool.numbers_up_to(5, 10)), [1, 2, 3, 4, 5])
        self.assertLessEqual(len(self.tool.numbers_up_to(1000, 7)), 7)

    @needs_program
    @unittest.skipUnless(shutil.which('cc') or shutil.which('gcc'), 'no C compiler is here')
    def test_the_built_program(self):
        for words in ([], ['--all-later']):
            status, out, err = tool('refused_memory', '--only', 'gadget', '--most', '6', '--program', built, *words)
            self.assertEqual((status, err), (0, ''), out)


class Uses(unittest.TestCase):
    """rough_use on the built program, but for what takes long."""

    @needs_program
    def test_the_built_program(self):
        for name in ('full_disk', 'closed_output', 'no_input', 'folder', 'unreadable', 'signals', 'killed'):
            status, out, err = tool('rough_use', '--kills', '3', '--only', name, '--program', built)
            self.assertEqual((status, err), (0, ''), out)


class Load(Folder):
    """load on the built program, how many deliveries a flood makes, and where next hops lead."""

    def test_deliveries(self):
        # d reaches itself alone, and b and c listen to it; c reaches two nodes, and b listens; b three, and a listens
        net = b'node a b c d\nlink b d : 1\nlink c d : 1\nlink b c : 1\nlink a b : 1\norigin x at d : 0\n'
        self.assertEqual(loaded('load').deliveries_due(net), 7)

    def test_next_hops(self):
        rows = ['a x 2 via b', 'b x 1 via d', 'c x none', 'd x 0 here', 'a y (1,{}) here']
        self.assertEqual(loaded('load').rows_along_next_hops(rows),
                         ['a x 2 a b d', 'b x 1 b d', 'c x none', 'd x 0 d', 'a y (1,{}) a'])

    def test_next_hops_that_go_round(self):
        load = loaded('load')
        with self.assertRaises(load.Wrong):
            load.rows_along_next_hops(['a x 2 via b', 'b x 1 via a'])

    def test_processors(self):
        self.assertEqual(loaded('load').processors_of('0,2-4'), {0, 2, 3, 4})

    @needs_program
    def test_the_built_program(self):
        status, out, err = tool('load', '--count', '6', '--nodes', '8', '--program', built)
        self.assertEqual((status, err), (0, ''), out)
        self.assertTrue(out.startswith('networks 6, runs 6, floods '), out)


if __name__ == '__main__':
    unittest.main()
