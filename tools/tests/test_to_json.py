"""Tests of tools/to_json. What is expected comes from the forms of the printed lines and from networks done by hand."""

import json
import os
import subprocess
import sys

from support import TOP, Folder, built, needs_program, tool

STRICT_NO = 'strict no: 0 on 4 gives 4\n'
CHECKED = 'monotone yes\n' + STRICT_NO + 'isotone yes\ncancellative yes\ntotal yes\n'
# Two nodes, of which each prefers the route of the other by the label (3,1) to its own of value (0,0).
GADGET = ('# monotone no: (3,1) on (0,0) gives (3,1)\nnode p q\nlink p q : (3,1)\norigin x at p : (0,0)\n'
          'origin x at q : (0,0)\nthen link q p : (3,1)\nthen drop p q\nthen link p q : (3,1)\n')
NO_GADGET = '# monotone no: no network file holds this instance\n'


class Printed(Folder):
    """Texts that a stand-in for the program prints."""

    def stand_in(self, text, status=0):
        """A program that prints this text, whatever its words are."""
        self.file('text', text)
        path = self.file('program', f'#!/bin/sh\ncat "{self.folder}/text"\nexit {status}\n')
        os.chmod(path, 0o755)
        return path

    def members(self, words, text, status=0):
        """The JSON without the members that each answer has."""
        ended, out, said = tool('to_json', self.stand_in(text, status), *words)
        self.assertEqual((ended, said), (status, ''))
        found = json.loads(out)
        self.assertEqual((found.pop('schema'), found.pop('words'), found.pop('status')), (1, words, status))
        self.assertEqual(found.pop('command'), words[0] if words else None)
        self.assertTrue(found.pop('meaning'))
        return found

    def assert_unknown(self, words, text, line, status=0):
        ended, out, said = tool('to_json', self.stand_in(text, status), *words)
        self.assertEqual((ended, out, said.count('\n')), (2, '', 1), text)
        self.assertIn(f'line {line} of what the program printed is not known', said)

    def test_verdicts(self):
        found = self.members(['check', 'f'], CHECKED)['verdicts']
        self.assertEqual(list(found), ['monotone', 'strict', 'isotone', 'cancellative', 'total'])
        self.assertEqual(found['monotone'], {'holds': True})
        self.assertEqual(found['strict'],
                         {'holds': False, 'instance': {'label': '0', 'values': ['4'], 'images': ['4']}})

    def test_names_in_an_instance(self):
        """Values of a table may be called as the words of the line are."""
        text = CHECKED.replace('isotone yes', 'isotone no: on on and and gives gives none and on')
        self.assertEqual(self.members(['check', 'f'], text)['verdicts']['isotone']['instance'],
                         {'label': 'on', 'values': ['and', 'gives'], 'images': [None, 'on']})

    def test_a_required_property(self):
        found = self.members(['check', 'f', '--require', 'total,strict'], CHECKED + 'required: strict\n', 3)
        self.assertEqual((found['required'], found['verdicts']['strict']['holds'], len(found)), ('strict', False, 2))
        self.assertNotIn('required', self.members(['check', '--require', 'total', 'f'], CHECKED))

    def test_gadget(self):
        words = ['gadget', 'f']
        instance = {'label': '(3,1)', 'values': ['(0,0)'], 'images': ['(3,1)']}
        for text, wanted in (
                ('# monotone yes\n', {'monotone': {'holds': True}, 'network': None}),
                (NO_GADGET, {'monotone': {'holds': False}, 'network': None}),
                (GADGET, {'monotone': {'holds': False, 'instance': instance}, 'network': GADGET.splitlines()})):
            self.assertEqual(self.members(words, text), {'gadget': wanted})

    def test_hops(self):
        text = 'a x 3 b c\nb x 0 here\nc x 0 here b\na y none\nb y none\nc y 5 b\n'
        self.assertEqual(self.members(['hops', 'f', 'n'], text), {'hops': {
            'x': [{'node': 'a', 'value': '3', 'here': False, 'heads': ['b', 'c']},
                  {'node': 'b', 'value': '0', 'here': True, 'heads': []},
                  {'node': 'c', 'value': '0', 'here': True, 'heads': ['b']}],
            'y': [{'node': 'a', 'value': None, 'here': False, 'heads': []},
                  {'node': 'b', 'value': None, 'here': False, 'heads': []},
                  {'node': 'c', 'value': '5', 'here': False, 'heads': ['b']}]}})

    def test_a_node_that_is_called_here(self):
        """The line `a x 0 here` may say that a has an origin, or that its next hop is the node here."""
        found = self.members(['hops', 'f', 'n'], 'a x 0 here here\nhere x 0 a\n')['hops']['x']
        self.assertEqual([(it['here'], it['heads']) for it in found], [(True, ['here']), (False, ['a'])])
        ended, out, said = tool('to_json', self.stand_in('a x 0 here\nhere x 0 a\n'), 'hops', 'f', 'n')
        self.assertEqual((ended, out), (2, ''))
        self.assertIn('line 1 of what the program printed has two meanings', said)

    def test_judgements(self):
        words, yes = ['verify', 'f', 'n', 'r'], {'holds': True}
        at, arc = {'holds': False, 'node': 'a', 'destination': 'x'}, {'listener': 'b', 'speaker': 'd'}
        instance = {'label': '(10,7)', 'values': ['(9,8)', '(8,6)'], 'images': ['(9,15)', None]}
        for line, wanted in (
                ('optimal yes', yes),
                ('optimal no: a x isn\'t a walk of that value', {**at, 'reason': 'no walk'}),
                ('optimal no: a x is beaten by a b', {**at, 'reason': 'beaten', 'walk': ['a', 'b']}),
                ('optimal open: isotone fails on b d: (10,7) on (9,8) and (8,6) gives (9,15) and none',
                 {'holds': None, 'property': 'isotone', 'arc': arc, 'instance': instance})):
            self.assertEqual(self.members(words, f'{line}\nstable yes\n'),
                             {'judgement': {'optimal': wanted, 'stable': yes}})
        for line, wanted in (
                ('stable no: a x isn\'t offered', {**at, 'reason': 'not offered'}),
                ('stable no: a x has the better offer 3 a b',
                 {**at, 'reason': 'better offer', 'offer': {'value': '3', 'path': ['a', 'b']}})):
            self.assertEqual(self.members(words, f'optimal yes\n{line}\n'),
                             {'judgement': {'optimal': yes, 'stable': wanted}})

    def test_unknown_judgements(self):
        words = ['verify', 'f', 'n', 'r']
        for text, line in (('stable yes\noptimal yes\n', 1), ('optimal no\nstable yes\n', 1),
                           ('optimal no: a x is beaten by b a\nstable yes\n', 1),
                           ('optimal open: strict fails on b d: 1 on 2 gives 2\nstable yes\n', 1),
                           ('optimal open: isotone fails on b d: 1 on 2\nstable yes\n', 1),
                           ('optimal yes\nstable no: a x isn\'t a walk of that value\n', 2),
                           ('optimal yes\nstable no: a x has the better offer 3\n', 2),
                           ('optimal yes\nstable no: a x has the better offer 3 b a\n', 2),
                           ('optimal yes\nstable yes\nquiet 2\n', 3)):
            self.assert_unknown(words, text, line)
        for text, line in (('a x 3\n', 1), ('a x none b\n', 1), ('a x 3 b\na x 3 b\n', 2), ('a x 3 b b\n', 1)):
            self.assert_unknown(['hops', 'f', 'n'], text, line)

    def test_stable_tables(self):
        """The destination may be called as a word of the lines is, and so may nodes."""
        text = 'stable 1 stable\ntable 1\na stable 0 a\n1 stable none\ny 1 stable\ntable 1\na y none\n1 y 2 1\n'
        self.assertEqual(self.members(['stable', 'f', 'n'], text), {'tables': {
            'stable': [[{'node': 'a', 'value': '0', 'path': ['a']}, {'node': '1', 'value': None, 'path': []}]],
            'y': [[{'node': 'a', 'value': None, 'path': []}, {'node': '1', 'value': '2', 'path': ['1']}]]}})
        self.assertEqual(self.members(['stable', 'f', 'n'], ''), {'tables': {}})

    def test_several_tables(self):
        text = 'x 2 stable\ntable 1\na x 0 a\ntable 2\na x 1 a\ny 0 stable\n'
        self.assertEqual(self.members(['stable', 'f', 'n'], text), {'tables': {
            'x': [[{'node': 'a', 'value': '0', 'path': ['a']}], [{'node': 'a', 'value': '1', 'path': ['a']}]],
            'y': []}})

    def test_rows(self):
        self.assertEqual(self.members(['route', 'f', 'n'], 'a x 3 a b\nb x 0 b\na y none\nb y none\n'), {'rows': {
            'x': [{'node': 'a', 'value': '3', 'path': ['a', 'b']}, {'node': 'b', 'value': '0', 'path': ['b']}],
            'y': [{'node': 'a', 'value': None, 'path': []}, {'node': 'b', 'value': None, 'path': []}]}})
        self.assertEqual(self.members(['settle', 'f', 'n'], ''), {'rows': {}})

    def test_phases(self):
        found = self.members(['run', 'f', 'n'], 'a x none\nquiet 0\nphase 1\na x 1 a\nspent 7\n', 4)
        self.assertEqual(found, {'phases': [
            {'phase': 0, 'rows': {'x': [{'node': 'a', 'value': None, 'path': []}]}, 'end': 'quiet', 'deliveries': 0},
            {'phase': 1, 'rows': {'x': [{'node': 'a', 'value': '1', 'path': ['a']}]}, 'end': 'spent',
             'deliveries': 7}]})

    def test_flood(self):
        """It has one phase, of the rows that `route` prints, and after it nothing more."""
        self.assertEqual(self.members(['flood', 'f', 'n'], 'a x none\nspent 3\n', 4), {'phases': [
            {'phase': 0, 'rows': {'x': [{'node': 'a', 'value': None, 'path': []}]}, 'end': 'spent', 'deliveries': 3}]})
        self.assert_unknown(['flood', 'f', 'n'], 'quiet 0\nphase 1\nquiet 0\n', 2)

    def test_distance(self):
        """Each row has a next hop, the word here, or no value, and after the end there is nothing more."""
        text = 'a x 3 via b\nb x 0 here\nc x none\nhere y 1 via via\nquiet 4\n'
        rows = {'x': [{'node': 'a', 'value': '3', 'here': False, 'next': 'b'},
                      {'node': 'b', 'value': '0', 'here': True, 'next': None},
                      {'node': 'c', 'value': None, 'here': False, 'next': None}],
                'y': [{'node': 'here', 'value': '1', 'here': False, 'next': 'via'}]}
        self.assertEqual(self.members(['distance', 'f', 'n'], text), {'phases': [
            {'phase': 0, 'rows': rows, 'end': 'quiet', 'deliveries': 4}]})
        self.assertEqual(self.members(['distance', 'f', 'n'], 'spent 0\n', 4), {'phases': [
            {'phase': 0, 'rows': {}, 'end': 'spent', 'deliveries': 0}]})
        for text, line in (('quiet 0\nphase 1\nquiet 0\n', 2), ('a x 3 b\nquiet 0\n', 1),
                           ('a x none here\nquiet 0\n', 1), ('a x 3 via\nquiet 0\n', 1),
                           ('a x 1 here\na x 1 here\nquiet 0\n', 2)):
            self.assert_unknown(['distance', 'f', 'n'], text, line)

    def test_delivery_or_row(self):
        """`1 b none` is a delivery from the node none to b, or the row of the node 1: their number decides."""
        text = '1 b none\n1 b none\nquiet 1\n'
        phase, = self.members(['trace', 'f', 'n'], text)['phases']
        self.assertEqual(phase['journal'], [{'clock': 1, 'listener': 'b', 'speaker': 'none'}])
        self.assertEqual(phase['rows'], {'b': [{'node': '1', 'value': None, 'path': []}]})

    def test_code(self):
        text = 'order\n0 rank 0 1 2\n1 less\narc u v (P,1)\n0 look 2 - 2\narc v w (C,1)\n'
        self.assertEqual(self.members(['code', 'f', 'n'], text)['code'], {'order': ['rank 0 1 2', 'less'], 'arcs': [
            {'listener': 'u', 'speaker': 'v', 'label': '(P,1)', 'code': ['look 2 - 2']},
            {'listener': 'v', 'speaker': 'w', 'label': '(C,1)', 'code': []}]})

    def test_summary(self):
        text = 'nodes 2 arcs 1\nx0 reached 2 sum 6\nx1 reached 1 sum 0\nquiet\n'
        self.assertEqual(self.members(['demo', '1', '2'], text)['summary'], {'nodes': 2, 'arcs': 1, 'destinations': [
            {'destination': 'x0', 'reached': 2, 'sum': 6}, {'destination': 'x1', 'reached': 1, 'sum': 0}],
            'end': 'quiet'})

    def test_refusals(self):
        words = ['route', '--workers', '2', 'f', 'n']
        instance = {'label': '1', 'values': ['2'], 'images': [None]}
        for status, line, wanted in (
                (1, 'words refused: C3', {'kind': 'words', 'fault': 'C3'}),
                (2, 'expression refused: X3 at 1:20',
                 {'kind': 'expression', 'fault': 'X3', 'line': 1, 'column': 20, 'file': 'f'}),
                (2, 'network refused: N6 at line 3', {'kind': 'network', 'fault': 'N6', 'line': 3, 'file': 'n'}),
                (3, 'monotone fails on u v: 1 on 2 gives none',
                 {'kind': 'property', 'property': 'monotone', 'arc': {'listener': 'u', 'speaker': 'v'},
                  'instance': instance}),
                (5, 'read fault on the network', {'kind': 'read', 'of': 'network', 'file': 'n'}),
                (7, 'out of memory', {'kind': 'memory'}),
                (8, 'too long: the expression', {'kind': 'length', 'of': 'expression', 'file': 'f'})):
            self.assertEqual(self.members(words, line + '\n', status), {'refusal': {**wanted, 'text': line}})
        words = ['verify', 'f', 'n', 'r']
        for status, line, wanted in (
                (2, 'report refused: V3 at line 2', {'kind': 'report', 'fault': 'V3', 'line': 2, 'file': 'r'}),
                (2, 'network refused: N6 at line 3', {'kind': 'network', 'fault': 'N6', 'line': 3, 'file': 'n'}),
                (5, 'read fault on the report', {'kind': 'read', 'of': 'report', 'file': 'r'}),
                (8, 'too long: the report', {'kind': 'length', 'of': 'report', 'file': 'r'})):
            self.assertEqual(self.members(words, line + '\n', status), {'refusal': {**wanted, 'text': line}})

    def test_the_front_of_a_text(self):
        for status in (6, 7, 139):
            self.assertEqual(self.members(['check', 'f'], 'monotone yes\nstri', status),
                             {'front': ['monotone yes', 'stri']})
        self.assertEqual(self.members(['check', 'f'], '', 70), {})

    def test_unknown_lines(self):
        self.assert_unknown(['check', 'f'], CHECKED.replace('total', 'whole'), 5)
        self.assert_unknown(['check', 'f'], CHECKED.replace('gives 4', 'gives 4 and 5'), 2)
        self.assert_unknown(['check', 'f'], CHECKED + 'more\n', 6)
        self.assert_unknown(['route', 'f', 'n'], 'a x 3 b a\n', 1)
        self.assert_unknown(['route', 'f', 'n'], 'a x none\na x none\n', 2)
        self.assert_unknown(['route', 'f', 'n'], 'a x none a\n', 1)
        self.assert_unknown(['run', 'f', 'n'], 'quiet 0\nphase 2\nquiet 0\n', 2)
        self.assert_unknown(['run', 'f', 'n'], 'spent 0\nphase 1\nquiet 0\n', 2, 4)
        self.assert_unknown(['trace', 'f', 'n'], 'a x none\nquiet 1\n', 1)
        self.assert_unknown(['code', 'f'], 'order\n0 less\n2 less\n', 3)
        self.assert_unknown(['demo', '1', '2'], 'nodes 2 arcs 1\nx0 reached 2\nquiet\n', 2)
        self.assert_unknown(['route', 'f', 'n'], 'network refused: N6 at line 3\n', 1)
        for line in ('required: monotone', 'required: safe', 'required: strict,total', 'required:'):
            self.assert_unknown(['check', 'f'], f'{CHECKED}{line}\n', 6, 3)
        self.assert_unknown(['check', 'f'], f'{CHECKED}required: strict\nrequired: strict\n', 7, 3)
        self.assert_unknown(['demo', '1', '2'], 'nodes 2 arcs 1\nspent 100000\n', 2)

    def test_unknown_gadgets(self):
        for old, new, line in (('# monotone no: ', '# monotone yes\n', 2), ('link p q : (3', 'link p q : (2', 3),
                               ('origin x at q : (0', 'origin x at q : (1', 5), ('then drop p q', 'then drop q p', 7),
                               ('# monotone', 'monotone', 1), (' gives (3,1)', '', 1), ('node p q', 'node p q r', 2),
                               ('then link p q : (3,1)\n', 'then link p q : (3,1)\nnode r\n', 9)):
            self.assert_unknown(['gadget', 'f'], GADGET.replace(old, new), line)
        self.assert_unknown(['gadget', 'f'], NO_GADGET + 'node p q\n', 2)
        self.assert_unknown(['gadget', 'f'], '# monotone yes\n' + NO_GADGET, 2)

    def test_unknown_tables(self):
        for text, line in (('table 1\na x 0 a\n', 1), ('x 1 stable\na x 0 a\n', 2),
                           ('x 1 stable\ntable 2\na x 0 a\n', 2), ('x 1 stable\ntable 1\na y 0 a\n', 3),
                           ('x 1 stable\ntable 1\na x 0 a\nb y 0 b\n', 4),
                           ('x 1 stable\ntable 1\na x 0 a\na x 0 a\n', 4), ('x 1 stable\ntable 1\na x 0 b\n', 3),
                           ('x 1 stable\ntable 1\na x 0 a\ntable 2\na x 0 a\n', 4), ('x one stable\n', 1),
                           ('x 1 stable\ntable 1\na x 0 a\nx 1 stable\n', 4),
                           ('x 1 stable\ntable 1\ny 1 stable\ntable 1\na y 0 a\n', 2)):
            self.assert_unknown(['stable', 'f', 'n'], text, line)

    def test_other_texts(self):
        for words, text, status in ((['check', 'f'], CHECKED[:-1], 0), (['run', 'f', 'n'], 'a x none\n', 0),
                                    (['run', 'f', 'n'], 'spent 3\n', 0), (['run', 'f', 'n'], 'quiet 3\n', 4),
                                    (['check', 'f'], CHECKED, 3), (['walk', 'f'], 'a\n', 0), (['check', 'f'], '', 5),
                                    (['check', 'f'], CHECKED + 'required: strict\n', 0), (['gadget', 'f'], '', 0),
                                    (['gadget', 'f'], GADGET[:GADGET.index('then drop')], 0),
                                    (['gadget', 'f'], GADGET, 3), (['stable', 'f', 'n'], 'x 1 stable\ntable 1\n', 0),
                                    (['stable', 'f', 'n'], 'x 1 stable\n', 0), (['demo', '1', '2'], 'quiet\n', 4),
                                    (['verify', 'f', 'n', 'r'], 'optimal yes\n', 0),
                                    (['verify', 'f', 'n', 'r'], 'optimal yes\nstable yes\n', 3),
                                    (['check', 'f'], 'monotone yes\u00e9\n', 0), (['demo', '1', '2'], '', 0)):
            ended, out, said = tool('to_json', self.stand_in(text, status), *words)
            self.assertEqual((ended, out, said.count('\n'), said[:9]), (2, '', 1, 'to_json: '), words)

    def test_the_words_of_the_script_before_a_command(self):
        status, out, _ = tool('to_json', self.stand_in(CHECKED), '--proved', 'check', 'f')
        self.assertEqual((status, json.loads(out)['command']), (0, 'check'))

    def test_what_cannot_be_run(self):
        self.assertEqual(tool('to_json')[:2], (2, ''))
        for path in (os.path.join(self.folder, 'missing'), self.folder, self.file('plain', 'main gate;')):
            ended, out, said = tool('to_json', path, 'check', 'f')
            self.assertEqual((ended, out, said.count('\n')), (2, '', 1))
            self.assertIn(path, said)

    def test_a_reader_that_has_ended(self):
        words = [sys.executable, os.path.join(TOP, 'tools/to_json'), self.stand_in(CHECKED), 'check', 'f']
        with open('/dev/full', 'w') as full:
            ran = subprocess.run(words, stdout=full, stderr=subprocess.PIPE, timeout=60)
        self.assertEqual((ran.returncode, ran.stderr.count(b'\n')), (6, 1))


@needs_program
class Program(Folder):
    """What the program itself prints."""

    def json_of(self, *words):
        status, out, _ = tool('to_json', built, *words)
        found = json.loads(out)
        self.assertEqual(found['status'], status)
        return found

    def test_each_command(self):
        policy, network = self.file('f.raml', 'main add(1..1);'), self.file(
            'n.net', 'node a b\nlink a b : 1\norigin x at b : 0\nthen drop a b\n')
        one = [{'node': 'a', 'value': '1', 'path': ['a', 'b']}, {'node': 'b', 'value': '0', 'path': ['b']}]
        none = [{'node': 'a', 'value': None, 'path': []}, one[1]]
        self.assertTrue(all(it['holds'] for it in self.json_of('check', policy, network)['verdicts'].values()))
        self.assertNotIn('required', self.json_of('check', policy, network, '--require', 'total,strict'))
        self.assertEqual(self.json_of('code', policy, network)['code'], {'order': ['less'], 'arcs': []})
        self.assertEqual(self.json_of('gadget', policy)['gadget'], {'monotone': {'holds': True}, 'network': None})
        self.assertEqual(self.json_of('stable', policy, network)['tables'], {'x': [none]})
        for command in ('route', 'settle'):
            self.assertEqual(self.json_of(command, policy, network)['rows'], {'x': none})
        self.assertEqual(self.json_of('hops', policy, network)['hops'], {'x': [
            {'node': 'a', 'value': None, 'here': False, 'heads': []},
            {'node': 'b', 'value': '0', 'here': True, 'heads': []}]})
        report = self.file('r.report', 'a x none\nb x 0 b\n')
        self.assertEqual(self.json_of('verify', policy, network, report)['judgement'],
                         {'optimal': {'holds': True}, 'stable': {'holds': True}})
        phases = [{'phase': 0, 'rows': {'x': one}, 'end': 'quiet', 'deliveries': 1},
                  {'phase': 1, 'rows': {'x': none}, 'end': 'quiet', 'deliveries': 0}]
        self.assertEqual(self.json_of('run', policy, network)['phases'], phases)
        phases[0]['journal'], phases[1]['journal'] = [{'clock': 1, 'listener': 'a', 'speaker': 'b'}], []
        self.assertEqual(self.json_of('trace', policy, network)['phases'], phases)
        self.assertEqual(self.json_of('run', policy, network, '--turns', '0')['phases'][0]['end'], 'spent')
        self.assertEqual(self.json_of('flood', policy, network)['phases'], [
            {'phase': 0, 'rows': {'x': none}, 'end': 'quiet', 'deliveries': 0}])
        self.assertEqual(self.json_of('demo', '1', '2')['summary']['end'], 'quiet')

    def test_labels_that_make_routes_better(self):
        """Three numbers of preference before the count of links: a greater one is better, and a link sets it."""
        policy = self.file('f.raml', 'main lex(lp(3), add(1..1));')
        found = self.json_of('gadget', policy)['gadget']
        instance, network = found['monotone']['instance'], self.file('n.net', '\n'.join(found['network']) + '\n')
        value, made = instance['values'][0], instance['images'][0]
        phases = self.json_of('run', policy, network)['phases']
        self.assertEqual([it['deliveries'] for it in phases], [1, 1, 1, 1])
        for number, wanted in ((1, [('p', made, ['p', 'q']), ('q', value, ['q'])]),
                               (3, [('p', value, ['p']), ('q', made, ['q', 'p'])])):
            self.assertEqual([(it['node'], it['value'], it['path']) for it in phases[number]['rows']['x']], wanted)
        self.assertEqual(self.json_of('check', policy, '--require', 'total,strict,monotone')['required'], 'monotone')
        self.assertEqual(self.json_of('stable', policy, network)['refusal']['property'], 'monotone')
        self.assertEqual(self.json_of('check', policy, '--require', 'safe')['refusal']['fault'], 'C6')

    def test_refusals(self):
        policy, network = self.file('f.raml', 'main lex(add(1..10)'), self.file('n.net', 'node a\n')
        found = self.json_of('route', policy, network)['refusal']
        self.assertEqual((found['fault'], found['line'], found['column'], found['file']), ('X3', 1, 20, policy))
        self.assertEqual(self.json_of()['refusal']['fault'], 'C1')
        missing = os.path.join(self.folder, 'missing')
        self.assertEqual(self.json_of('check', missing)['refusal']['file'], missing)
        policy = self.file('g.raml', 'main gate;')
        self.assertEqual(self.json_of('verify', policy, network, missing)['refusal']['file'], missing)
        report = self.file('r.report', 'a x none\n')
        self.assertEqual(self.json_of('verify', policy, network, report)['refusal'],
                         {'kind': 'report', 'fault': 'V2', 'line': 1, 'file': report,
                          'text': 'report refused: V2 at line 1'})
