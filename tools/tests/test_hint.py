"""Tests of tools/hint."""

import contextlib
import io
import os

from support import TOP, Folder, built, loaded, needs_program, run

# A policy's text, and what the hint says of it.
EXPRESSIONS = [
    (b'\xef\xbb\xbfmain add(1..2);', '1:1', 'byte order mark'),
    (b'\xff\xfem\0', '1:1', 'UTF-16'),
    ('main add(1..2)\n', '1:15', 'a `;` is missing here'),
    ('let a = add(1..2)\n\n# so\nmain a;', '1:18', 'a `;` is missing here, before `main`'),
    ('main lex(add(1..2),', '1:20', 'an expression or a number is missing'),
    ('let a add(1..2); main a;', '1:7', 'a `=`'),
    ('main add 1..2;', '1:10', 'the `(` of `add`'),
    ('main add(1 2);', '1:12', 'add(LOW..HIGH)'),
    ('main table { a < b; C a -> b };', '1:23', 'a `:`'),
    ('raml 2\nmain gate;', '1:7', 'a `;` is missing here'),
    ('node a b\n', '1:1', 'network file'),
    ('', '1:1', 'no `main`'),
    ('main Add(1..2);', '1:6', 'is `add` meant'),
    ('let lenght = gate; main length;', '1:25', 'is `lenght` meant'),
    ('let add = gate; main gate;', '1:5', 'word of the language'),
    ('main add(1.2);', '1:11', 'two points'),
    ('main gate; // so', '1:12', 'a comment starts with `#`'),
    ('main “gate”;', '1:6', 'outside ASCII'),
    ('main add(1..4294967296);', '1:13', '4294967295'),
    ('main add(5..4);', '1:13', 'LOW at most HIGH'),
    ('main plus(add(1..2), seq(3));', '1:28', 'same values'),
    ('main table { a < a; Z: none };', '1:18', 'name it once'),
    ('main gate; gate', '1:12', 'nothing may follow'),
    ('raml 3; main gate;', '1:6', 'raml 2;'),
    ('main table { a < b; C: a -> b; };', '1:32', 'none after the last'),
    ('main table {\n  a < b;\n  C: a -> b;\n};', '4:1', 'none after the last'),
    ('main table { a < b };', '1:20', 'a row at least'),
    ('main table { a > b; C: a -> b };', '1:16', 'the preferred value first'),
    ('main table(a < b);', '1:11', 'curly'),
    ('main table { a < b; C: none -> a };', '1:29', 'no value, so it has no image'),
    ('main table { a < b; C: none, a -> b };', '1:28', 'prohibits all'),
    ('main table { a < b; C: none -> a };', '1:29', 'no image'),
    ('main table { a < b; C: a -> none, none -> b };', '1:35', 'no image'),
    ('main table { a < b; C: a -> c };', '1:29', '`c` is no value of this table'),
    ('main table { a < b; C: a -> b, a -> a };', '1:32', 'maps `a` twice'),
    ('main table { a < b; C: a -> b; C: b -> b };', '1:32', 'the row `C` is there'),
    ('main table { a < none; C: a -> a };', '1:18', 'no value may be called `none`'),
    ('main table { a < b; none: a -> a };', '1:21', 'no row may be called `none`'),
    ('main table { v0' + ''.join(f' < v{k}' for k in range(1, 17)) + '; C: none };', '1:100', 'at most 16 values'),
    ('main lex(gate,gate,gate);', '1:19', 'lex(A,lex(B,C))'),
    ('main lex(\n  gate,\n  gate,\n  gate\n);', '3:7', 'lex(A,lex(B,C))'),
    ('main lex(gate);', '1:14', 'has two parts: lex(A,B)'),
    ('main left(gate,gate);', '1:15', 'has one part: left(A)'),
    ('main gate();', '1:10', 'without brackets'),
    ('main cap(15; 1);', '1:15', '1..1'),
    ('main cap(1..15);', '1:11', 'cap(TOP; LOW..HIGH)'),
    ('main cap(15);', '1:12', 'cap(TOP; LOW..HIGH)'),
    ('main seq(4;', '1:11', 'where `)` is due'),
    ('let a = gate; lex(a, a);', '1:15', 'opens no statement'),
    ('main lp(0..200);', '1:10', 'has one number: lp(TOP)'),
    ('main min(1..2);', '1:6', 'is `width(TOP; LOW..HIGH)` meant'),
    ('main left(none);', '1:11', 'in the rows of a table'),
    ('let x = 5; main x;', '1:9', 'add(5..5)'),
    ('main lex(5, gate);', '1:10', 'add(5..5)'),
    ('main add(1..2), gate;', '1:15', 'lex(A,B)'),
]

# A policy, a label or a value, its fault, where in the text it is wrong, and what the hint says.
LITERALS = [
    ('lex(add(0..10), union(table { c < p; C: c -> c; P: p -> p }, gate))', 'label', '(l:C,1)', 1,
     ['`l` stands where a number from 0 to 10 is due', 'such as (0,l:C)', '  X: a number from 0 to 10   <- here',
      '  Y: `l:X` or `r:Y`, where', '    X: C or P', '    Y: `allow` or `deny`']),
    ('lex(add(0..10), add(1..1))', 'label', '5', 0, ['`5` stands where `(X,Y)` is due', 'where   <- here']),
    ('lex(add(0..10), add(1..1))', 'label', '(11,1)', 1, ['`11` is out of range: a number from 0 to 10']),
    ('lex(add(0..10), add(1..1))', 'label', '( 3 , 2 )', 6, ['`2` is out of range: the number 1', 'Y: the number 1   <-']),
    ('lex(add(0..10), add(1..1))', 'label', '(11,x)', 4, ['`x` stands where the number 1 is due']),
    ('lex(add(0..10), add(1..1))', 'label', '(3,1', 4, ['`)` is missing']),
    ('lex(add(0..10), add(1..1))', 'label', '(3,1))', 5, ['`)` stands after the end of the label']),
    ('lex(add(0..10), width(100; 0..100))', 'value', '(0,200)', 3, ['a number from 0 to 100', 'a value of this policy']),
    ('scoped(add(1..2), lp(9))', 'label', '(1,2)', 0, ['`(` stands where `out(X,V)` or `in(Y)` is due']),
    ('scoped(add(1..2), lp(9))', 'label', 'out(1,10)', 6, ['`10` is out of range', 'V: a number from 0 to 9   <- here']),
    ('scoped(add(1..2), lp(9))', 'label', 'in 3', 3, ['`3` stands where `(` is due']),
    ('sum(add(1..2), gate)', 'label', '(1,allow)', 2, ['`,` stands where `|` is due']),
    ('plus(tags(4), guard(4))', 'label', 'r:?4', 3, ['`4` is out of range']),
    ('tags(4)', 'label', '*2', 0, ['`keep`, `+0` to `+3` or `-0` to `-3`']),
    ('tags(4)', 'value', '{1,1}', 3, ['`1` stands there twice']),
    ('tags(4)', 'value', '{4}', 1, ['`4` is out of range']),
    ('seq(3)', 'value', '[0,3]', 3, ['`3` is out of range']),
    ('seq(3)', 'value', '[0 1]', 3, ['`,` or `]`']),
    ('seq(3)', 'label', '3', 0, ['a number from 0 to 2']),
    ('simseq(3)', 'value', '[1,1]', 3, ['`1` stands there twice']),
    ('gate', 'label', 'yes', 0, ['`allow` or `deny`']),
    ('gate', 'value', '0', 0, ['`unit`']),
    ('op(2)', 'label', '1', 0, ['`keep`']),
    ('lp(3)', 'label', '4', 0, ['a number from 0 to 3']),
    ('left(lp(3))', 'label', '4', 0, ['a number from 0 to 3']),
    ('right(lp(3))', 'label', '4', 0, ['`keep`']),
    ('table { c < r; P: c -> r }', 'label', 'c', 0, ['`c` is no row of the table: P is due']),
    ('table { c < r; P: c -> r }', 'value', 'P', 0, ['`P` is no value of the table: c or r is due']),
    ('table { c < r; P: c -> r }', 'label', '1', 0, ['`1` stands where P is due']),
]

# A network's text over add(1..10), its fault, and what the hint says of it.
NETWORKS = [
    (b'\xef\xbb\xbfnode a\n', 'N1', '1:1', 'byte order mark'),
    ('main gate;\n', 'N1', '1:1', 'expression file'),
    ('nodes a\n', 'N1', '1:1', 'is `node` meant'),
    ('Link a b : 1\n', 'N1', '1:1', 'is `link` meant'),
    ('edge a b : 1\n', 'N1', '1:1', 'the first word'),
    ('node a b\ndrop a b\n', 'N1', '2:1', 'the first word'),
    ('// so\n', 'N1', '1:1', 'the first word'),
    ('a x none\n', 'N1', '1:1', 'a row of a report'),
    ('a x 3 a b\n', 'N1', '1:1', 'a row of a report'),
    ('node\n', 'N1', '1:5', 'one node or more'),
    ('node a, b\n', 'N1', '1:6', 'not of `,`'),
    ('node 10.0.0.1:179\n', 'N1', '1:14', 'no colon'),
    ('node \u00e9\n', 'N1', '1:6', 'ASCII'),
    ('node "a"\n', 'N1', '1:6', 'not of `"`'),
    ('node ' + 33 * 'a' + '\n', 'N1', '1:6', '32 characters'),
    ('node a\r\r\n', 'N1', '1:6', 'carriage return'),
    ('node ' + 1400 * 'aa ' + '\n', 'N1', '1:4097', '4096 bytes'),
    ('node a b\nlink a b 1\n', 'N1', '2:11', 'a colon is missing'),
    ('node a b\nlink a -> b : 1\n', 'N1', '2:8', 'not of `>`'),
    ('node a b\nlink a : 1\n', 'N1', '2:7', 'a word is missing'),
    ('node a b\nlink a b c : 1\n', 'N1', '2:10', 'too many words'),
    ('node a\norigin x a : 0\n', 'N1', '2:10', '`at`'),
    ('node a\norigin x at a\n', 'N1', '2:14', 'a colon is missing'),
    ('node a\norigin a : 0\n', 'N1', '2:9', 'a word is missing'),
    ('node a b\norigin x at a b : 0\n', 'N1', '2:15', 'too many words'),
    ('node a\norigin 192.0.2.0/24 at a : 0\n', 'N1', '2:8', '10.0.0.0_8'),
    ('node a b\nthen a b : 1\n', 'N1', '2:1', 'then link'),
    ('node a b\nthen both a b : 1\n', 'N1', '2:1', 'then link'),
    ('node a b\nlink a b : 1\nthen drop a b : 1\n', 'N1', '3:15', 'no colon'),
    ('node a b\nlink a c : 1\n', 'N2', '2:8', 'names `c`'),
    ('node a b a\n', 'N3', '1:10', 'name it once'),
    ('node a b\nlink a b : 1\nlink a b : 2\n', 'N4', '3:1', '`both`'),
    ('node a\nlink a a : 1\n', 'N5', '2:1', 'two different'),
    ('node a b\nlink a b : 11\n', 'N6', '2:12', '`11` is out of range: a number from 1 to 10 is due'),
    ('node a b\nlink a b :\n', 'N6', '2:11', 'a number from 1 to 10 is missing'),
    ('node a b\nlink a b : 1;\n', 'N6', '2:13', 'no `;`'),
    ('node a b\nlink a b : 1 // so\n', 'N6', '2:14', 'starts with `#`'),
    ('node a b\nlink a b : 4294967296\n', 'N6', '2:12', 'at most 4294967295'),
    ('node a\norigin x at a : q\n', 'N7', '2:17', '`q` stands where a number from 0 up is due'),
    ('node a\norigin x at a : none\n', 'N7', '2:17', 'no `origin` line'),
    ('node a\norigin x at a : 0\norigin x at a : 1\n', 'N8', '3:1', 'has an origin'),
    ('node ' + '\nnode '.join(f'n{k}' for k in range(513)), 'N9', '513:1', 'begin FILE with `raml 2;`'),
    ('node a\n' + ''.join(f'origin x{k} at a : 0\n' for k in range(65)), 'N9', '66:1', 'more than 64 destinations'),
    ('node a b\n' + 17 * 'then link a b : 1\n', 'N9', '18:1', 'more than 16 changes'),
    ('node a b\nthen link a b : 1\nnode c\n', 'N10', '3:1', 'changes come last'),
    ('node a b\nthen drop a b\n', 'N11', '2:1', 'no such arc'),
]

# A report's text over two nodes and two destinations, its fault, and what the hint says of it.
REPORTS = [
    (b'\xef\xbb\xbfa x 0 a\n', 'V2', '1:1', 'byte order mark'),
    ('node a b c\n', 'V2', '1:1', 'network file'),
    ('# a table\n', 'V1', '1:1', 'no comments'),
    ('# a table of b\n', 'V2', '1:1', 'no comments'),
    ('main add(1..10);\n', 'V1', '1:1', 'expression file'),
    ('a\n', 'V1', '1:1', 'three words or more'),
    ('a x\n', 'V1', '1:1', 'three words or more'),
    ('x 1 stable\n', 'V1', '1:1', '`stable`'),
    ('table 1\n', 'V1', '1:1', '`stable`'),
    ('phase 1\n', 'V1', '1:1', 'one phase'),
    ('1 a b\n', 'V1', '1:1', '`trace`'),
    ('a x 4\n', 'V1', '1:6', 'the path is missing'),
    ('a x None\n', 'V1', '1:5', 'and not with `None`'),
    ('a x none\r\r\n', 'V1', '1:5', 'ends with `none`'),
    ('a x none\nquiet 2\n', 'V1', '2:1', 'the row of b for x is due here'),
    ('a x none\nquiet two\n', 'V1', '2:7', '1 to 20 digits'),
    ('a x none\nspent 123456789012345678901\n', 'V1', '2:7', '1 to 20 digits'),
    ('c x none\n', 'V2', '1:1', 'NET has no node `c`'),
    ('a z none\n', 'V2', '1:3', 'NET has no destination `z`'),
    ('x a none\n', 'V2', '1:1', 'the node comes first'),
    ('a b none\n', 'V2', '1:3', 'no destination is called `b`'),
    ('a x 3 a c\n', 'V2', '1:9', 'NET has no node `c`'),
    ('A x 3 a b\n', 'V2', '1:1', 'is `a` meant'),
    ('a x 3 a,b\n', 'V2', '1:7', 'not of `,`'),
    ('b x 0 b\n', 'V3', '1:1', 'the row of a for x is due here'),
    ('a x none\na x none\n', 'V3', '2:1', 'the row of b for x is due here'),
    ('a x none\n\na y none\n', 'V3', '3:1', 'the row of b for x is due here'),
    ('a x none\nb x none\na y none\nb y none\na x none\n', 'V3', '5:1', 'there are 4'),
    ('a x q a b\n', 'V4', '1:5', '`q` stands where a number from 0 up is due'),
    ('a x none a b\n', 'V4', '1:10', 'nothing follows `none`'),
    (f'a x {2 ** 119 + 1} a b\n', 'V4', '1:5', f'at most {2 ** 119}'),
    ('a x none\nb x none\na y none\n', 'V5', '4:1', 'the row of b for y is due here'),
    ('', 'V5', '1:1', 'the row of a for x is due here'),
    ('a x none\nb x none\na y none\nb y none\nquiet 1\n\nquiet 1\n', 'V1', '7:1', 'nothing follows'),
]

# What stands in the place of LIST, and what the hint says of it.
LISTS = [
    ('safe', '`safe` is no property: '),
    ('Strict', '(is `strict` meant?)'),
    ('isotonic,strict', '(is `isotone` meant?)'),
    ('total,strict,total', '`total` stands there twice'),
    ('strict,', 'a comma has no property beside it'),
    (',strict', 'a comma has no property beside it'),
    ('strict,,total', 'a comma has no property beside it'),
    ('monotone, strict', 'no space'),
    ('', 'the list is empty'),
]

# Words, and what the hint says of them.
WORDS = [
    (['chekc', 'f'], 'is `check` meant'),
    (['route', 'f'], 'route FILE NET'),
    (['route', 'f', 'n', '--workers=2'], 'two words'),
    (['check', 'f', '--workers', '2'], 'check FILE [NET] [--require LIST]'),
    (['check', 'f', '--require=strict'], 'two words, as --require strict'),
    (['check', 'f', '--require'], 'a flag without its value'),
    (['route', 'f', 'n', '--require', 'strict'], '`route` doesn\'t have'),
    (['gadget', 'f', 'n'], 'gadget FILE'),
    (['stabel', 'f', 'n'], 'is `stable` meant'),
    (['gadget', 'missing.raml'], 'no such file'),
    (['demo', '1', '1'], '2 to 512'),
    (['check', 'missing.raml'], 'no such file'),
    (['check', '/'], 'a folder'),
    (['verify', 'f', 'n'], 'verify FILE NET REPORT'),
    (['verify', 'examples/shortest_path.raml', 'examples/diamond.net', 'missing.report'], 'missing.report: there is no'),
    (['verify', 'examples/shortest_path.raml', 'examples/diamond.net', '/dev/zero'], '/dev/zero: the file has more'),
    (['hops', 'f', 'n', '--workers', '2'], '`hops` doesn\'t have'),
    (['hops', 'examples/customer_provider.raml', 'examples/providers.net'], 'isn\'t isotone, which `hops` needs'),
    (['check', '-'], '/dev/stdin'),
    (['check', '-h'], 'meta COMMAND --help'),
    (['check', 'f', '--help'], 'meta check --help'),
    (['run', 'examples/shortest_path.raml', 'examples/diamond.net', '--turns', '0'], '--turns N'),
    (['run', 'examples/shortest_path.raml', 'examples/diamond.net', '--turns', '0'], 'isn\'t monotone'),
    (['flood', 'examples/shortest_path.raml', 'examples/diamond.net', '--turns', '5'], 'a flood always ends by itself'),
    (['flood', 'examples/customer_provider.raml', 'examples/providers.net'], 'isn\'t isotone, which `flood` needs'),
    (['distance', 'examples/shortest_path.raml', 'examples/diamond.net', '--turns', '0'], 'values were still on their way'),
    (['distance', 'examples/customer_provider.raml', 'examples/providers.net'], 'which `distance` needs'),
    (['route', 'examples/customer_provider.raml', 'examples/providers.net'], 'providers.net:3:12: '),
    (['settle', 'examples/bad_gadget.raml', 'examples/disagree.net'], 'disagree.net:6:12: '),
    (['settle', 'examples/bad_gadget.raml', 'examples/disagree.net'], 'or `stable`, where all labels are mono'),
    (['stable', 'examples/bad_gadget.raml', 'examples/disagree.net'], 'disagree.net:6:12: this label isn\'t monotone'),
    (['check', 'examples/free_links.raml', '--require', 'total,strict'], 'strict is required'),
    (['check', 'examples/bad_gadget.raml', '--require', 'monotone'], '`gadget` shows'),
    (['check', 'examples/bad_gadget.raml', 'examples/disagree.net', '--require', 'monotone'], 'monotone is required'),
    (['check', 'examples/shortest_widest.raml', '--require', 'cancellative,isotone'], 'isotone is required'),
    (['check', 'examples/shortest_widest.raml', '--require', 'cancellative'], 'cancellative is required'),
    (['check', 'examples/isis.raml', 'examples/abilene.net', '--require', 'total'], 'total is required'),
]


@needs_program
class Hints(Folder):
    """tools/hint after what the program itself refuses."""

    hints = loaded('hint')

    def hint(self, *words):
        """The line that the program prints last, and the hint after it."""
        os.chdir(TOP)
        status, out, _ = run([built, *words])
        line, said = out.split('\n')[-2], io.StringIO()
        with contextlib.redirect_stdout(said):
            self.assertEqual(self.hints.main([str(status), line, *words]), 0)
        return line, said.getvalue()

    def test_expressions(self):
        for text, place, advice in EXPRESSIONS:
            name = self.file('e.raml', text)
            line, hint = self.hint('check', name)
            self.assertTrue(line.startswith('expression refused: '), (text, line))
            self.assertTrue(hint.startswith(f'meta: {name}:{place}: ') and advice in hint, (text, hint))

    def test_networks(self):
        policy = self.file('p.raml', 'main add(1..10);')
        for text, fault, place, advice in NETWORKS:
            name = self.file('n.net', text)
            line, hint = self.hint('check', policy, name)
            self.assertTrue(line.startswith(f'network refused: {fault} at line {place.split(":")[0]}'), (text, line))
            self.assertTrue(hint.startswith(f'meta: {name}:{place}: ') and advice in hint, (text, hint))

    def test_reports(self):
        policy = self.file('p.raml', 'main add(1..10);')
        net = self.file('n.net', 'node a  # the first\nnode b\nlink a b : 3\norigin x at b : 0\norigin y at a : 0\n'
                                 'origin x at a : 9\n')
        for text, fault, place, advice in REPORTS:
            name = self.file('r.report', text)
            line, hint = self.hint('verify', policy, net, name)
            self.assertEqual(line, f'report refused: {fault} at line {place.split(":")[0]}', text)
            self.assertTrue(hint.startswith(f'meta: {name}:{place}: ') and advice in hint, (text, hint))

    def test_literals(self):
        for text, what, literal, at, advice in LITERALS:
            policy = self.file('p.raml', f'# so\nlet it = {text}; main it;')
            front = 'node a b\nlink a b : ' if what == 'label' else 'node a\norigin x at a : '
            name = self.file('n.net', f'{front}{literal}\n')
            line, hint = self.hint('check', policy, name)
            self.assertEqual(line, f'network refused: {"N6" if what == "label" else "N7"} at line 2', (text, literal))
            place = f'2:{len(front.split(chr(10))[1]) + at + 1}'
            self.assertTrue(hint.startswith(f'meta: {name}:{place}: '), (text, literal, hint))
            for it in advice:
                self.assertIn(it, hint, (text, literal))

    def test_the_second_profile(self):
        policy = self.file('p.raml', 'raml 2; main add(1..5000000000);')
        for text, advice in (('node a b\nlink a b : 5000000001\n', 'out of range: a number from 1 to 5000000000'),
                             ('node a b\nlink a b : 18446744073709551616\n', 'at most 18446744073709551615'),
                             ('node a b\n' + 5 * 'then link a b : 1\n', 'more than 4 changes'),
                             ('node a\n' + ''.join(f'origin x{k} at a : 0\n' for k in range(9)), 'more than 8 dest')):
            self.assertIn(advice, self.hint('check', policy, self.file('n.net', text))[1])

    def test_words(self):
        for words, advice in WORDS:
            self.assertIn(advice, self.hint(*words)[1], words)

    def test_lists_of_properties(self):
        for text, advice in LISTS:
            for words in (['check', 'f', '--require', text], ['check', '--require', text, 'f', 'n']):
                line, hint = self.hint(*words)
                self.assertEqual(line, 'words refused: C6')
                self.assertIn(advice, hint, words)
                self.assertIn('monotone, strict, isotone, cancellative and total', hint)
