"""Tests of the plain readers that are judges of the program: what they say of texts of docs/ and of rules."""

import glob
import os
import sys
import unittest

from support import TOP, Folder, built, needs_program, run

sys.path.insert(0, os.path.join(TOP, 'tools'))

from plain import expressions, literals, networks, reports, words

EXPRESSIONS = (
    (b'', 'X3 at 1:1'), (b'let', 'X3 at 1:4'), (b'let rel = table { c <', 'X3 at 1:22'), (b'main add(1.', 'X1 at 1:11'),
    (b'main simseq(1025);', 'X7 at 1:13'), (b'main ' + b'left(' * 300, 'X9 at 1:1286'), (b'main $;', 'X1 at 1:6'),
    (b'main ;', 'X2 at 1:6'), (b'main lex;', 'X2 at 1:9'), (b'main add(1..4294967296);', 'X4 at 1:13'),
    (b'main add(1..4294967295);', ''), (b'raml 2; main add(1..18446744073709551615);', ''), (b'main foo;', 'X5 at 1:6'),
    (b'let a = gate; let a = gate; main a;', 'X6 at 1:19'), (b'let raml = gate; main raml;', ''),
    (b'let lex = gate; main gate;', 'X6 at 1:5'), (b'main add(5..4);', 'X7 at 1:13'),
    (b'main table { a < a; Z: none };', 'X10 at 1:18'), (b'main table { a; Z: none };', ''),
    (b'main table { a; a: none -> a };', 'X2 at 1:25'), (b'main table { a; a: a -> none, none -> a };', 'X10 at 1:31'),
    (b'main gate; gate', 'X11 at 1:12'), (b'main gate; # gate', ''), (b'main gate; 99999999999', 'X4 at 1:12'),
    (b'main 99999999999;', 'X2 at 1:6'), (b'raml 3; main gate;', 'X12 at 1:6'), (b'raml 2 main gate;', 'X2 at 1:8'),
    (b'main plus(add(1..2), seq(3));', 'X8 at 1:28'), (b'main plus(op(3), cap(3; 1..9));', ''),
    (b'# \xff\nmain\n gate', 'X3 at 3:6'), (b'main gate\xff;', 'X1 at 1:10'), (b'node a', 'X2 at 1:1'),
)
LABELS = (
    ('lex(add(1..2), lp(3))', b' ( 1 ,3 ) ', True), ('lex(add(1..2), lp(3))', b'(3,3)', False),
    ('seq(3)', b'2', True), ('tags(4)', b'+ 3', True), ('tags(4)', b'+4', False), ('guard(4)', b'!0', True),
    ('gate', b'deny', True), ('sum(add(1..1), gate)', b'(1|allow)', True),
    ('sum(add(1..1), gate)', b'(1,allow)', False),
    ('plus(tags(4), guard(4))', b'r:?2', True), ('scoped(add(1..1), seq(3))', b'out(1,[0,2])', True),
    ('scoped(add(1..1), seq(3))', b'in(2)', True), ('left(tags(9))', b'{8,0}', True),
    ('left(tags(9))', b'{8,8}', False),
    ('right(gate)', b'keep', True), ('right(gate)', b'', False), ('add(0..9)', b'0000000000000000000000007', True),
)
NETWORKS = (
    (b'', ''), (b' ' * 4097 + b'\n', 'N1 at line 1'), (b' ' * 4096 + b'\n', ''), (b'node a\0', 'N1 at line 1'),
    (b'link a b', 'N1 at line 1'), (b'link a b : 1', 'N2 at line 1'), (b'node a a', 'N3 at line 1'),
    (b'node a\nlink a a : 1', 'N5 at line 2'), (b'node a\norigin x at a : q', 'N7 at line 2'),
    (b'node a\norigin x at a : 0\norigin x at a : 1', 'N8 at line 3'), (b'edge a b', 'N1 at line 1'),
    (b'node a b\r\n\r\nlink a b:1#c\r\n', ''), (b'node a\r\r\n', 'N1 at line 1'), (b'node a \r# c\n', 'N1 at line 1'),
    (b'node a b\nboth a b : 1\nlink b a : 2', 'N4 at line 3'), (b'node a b\nlink a b : 11', 'N6 at line 2'),
    (b'node a b\nthen link a b : 1\nnode c', 'N10 at line 3'), (b'node a b\nthen drop a b', 'N11 at line 2'),
    (b'node a b\nlink a b : 1\nthen drop a b\nthen drop a b', 'N11 at line 4'),
    (b''.join(b'node n%d\n' % it for it in range(513)), 'N9 at line 513'), (b'node ' + b'x' * 33, 'N1 at line 1'),
    (b'node a b\n' + b'then link a b : 1\n' * 17, 'N9 at line 18'),
)
REPORTS = (
    (b'a x 1 a b\nb x 0 b\n', ''), (b'a x 1 a b\nb x none\nquiet 7', ''), (b'a x 2\n', 'V1 at line 1'),
    (b'quiet 7\n', 'V1 at line 1'), (b'a x 2 a,b\n', 'V2 at line 1'), (b'b x 0 b\n', 'V3 at line 1'),
    (b'a x (1,2) a b\n', 'V4 at line 1'), (b'a x none a b\n', 'V4 at line 1'), (b'a x none\n\n', 'V5 at line 3'),
    (b'a x 664613997892457936451903530140172288 a\nb x 0 b', ''),
    (b'a x 664613997892457936451903530140172289 a\nb x 0 b', 'V4 at line 1'), (b'', 'V5 at line 1'),
)
WORDS = (
    ('', 'C1'), ('Check f', 'C2'), ('check f --workers 2', 'C5'), ('route f n --workers=4', 'C5'),
    ('route f n --', 'C5'), ('route f n --workers 2 --workers 3', 'C5'), ('route f n --require strict', 'C5'),
    ('route f n --workers', 'C3'), ('route f', 'C3'), ('check a b c', 'C3'), ('verify f n', 'C3'),
    ('run f n --turns 1000001', 'C4'), ('route f n --workers 17', 'C4'), ('demo 1 1', 'C4'),
    ('route f --workers --workers n', 'C4'), ('check f --require safe', 'C6'), ('check f --require strict,', 'C6'),
    ('check f --require total,total', 'C6'), ('check --require strict f', ''), ('demo 18446744073709551615 512', ''),
    ('demo 18446744073709551616 512', 'C4'),
)
POLICY, NET = b'main add(1..10);', b'node a b\nlink a b : 1\norigin x at b : 0\n'


class Plain(Folder):
    """The plain readers, text by text."""

    def net(self, content):
        tree, profile, _ = expressions.judge(POLICY)
        return networks.judge(content, tree, profile)

    def test_expressions(self):
        for text, fault in EXPRESSIONS:
            self.assertEqual(expressions.judge(text)[2], fault and f'expression refused: {fault}', text)

    def test_labels(self):
        for text, label, is_one in LABELS:
            tree, _, line = expressions.judge(f'main {text};'.encode())
            self.assertEqual((line, literals.is_label(label, tree, 4294967295)), ('', is_one), (text, label))

    def test_networks(self):
        for text, fault in NETWORKS:
            self.assertEqual(self.net(text)[1], fault and f'network refused: {fault}', text[:60])

    def test_reports(self):
        net, _ = self.net(NET)
        for text, fault in REPORTS:
            self.assertEqual(reports.judge(text, net), fault and f'report refused: {fault}', text)

    def test_words(self):
        for text, fault in WORDS:
            self.assertEqual(words.fault_of([it.encode() for it in text.split()]), fault, text)
        self.assertEqual(words.fault_of([b'check', b'\xff']), 'C2')

    def test_examples(self):
        paths = glob.glob(os.path.join(TOP, 'examples', '**', '*.raml'), recursive=True)
        self.assertGreater(len(paths), 20)
        for path in paths:
            with open(path, 'rb') as file:
                self.assertEqual(expressions.judge(file.read())[2], '', path)

    @needs_program
    def test_the_program_says_the_same(self):
        policy, net = self.file('p', POLICY), self.file('n', NET)
        for text, fault in EXPRESSIONS:
            found = run([built, 'check', self.file('t', text)])[1]
            self.assertEqual(found if 'refused' in found else '', fault and f'expression refused: {fault}\n', text)
        for text, fault in NETWORKS:
            found = run([built, 'check', policy, self.file('t', text)])[1]
            self.assertEqual(found if 'refused' in found else '', fault and f'network refused: {fault}\n', text[:60])
        for text, fault in REPORTS:
            found = run([built, 'verify', policy, net, self.file('t', text)])[1]
            self.assertEqual(found if 'refused' in found else '', fault and f'report refused: {fault}\n', text)


if __name__ == '__main__':
    unittest.main()
