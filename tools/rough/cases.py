"""Inputs for the program, each with its words and with what a plain reader says of it."""

import os

from plain import expressions, networks, reports, words as plain_words
from rough.changes import changed, fronts, with_each_byte
from rough.drawn import expression_text, network_text

# The commands that take FILE alone, and those that take FILE and NET, with flags that keep runs short.
ALONE = (('check',), ('check',), ('code',), ('gadget',))
WITH_NET = (('check',), ('check',), ('check',), ('code',), ('hops',), ('stable',), ('settle',),
            ('route', '--workers', '1'), ('run', '--workers', '1', '--turns', '300'),
            ('trace', '--workers', '2', '--turns', '200'), ('flood', '--workers', '1', '--turns', '300'),
            ('distance', '--workers', '1', '--turns', '300'))
EACH_BYTE = (b'{', b' ', b'7')
KINDS = ('expression', 'network', 'report', 'words')
# The names of the files in the folder that the runs read.
FILES = ('policy', 'net', 'report')


class Case:
    """An input: its kind, the words of the command, the contents of its files, and the line that a plain reader refuses
    it with, or ''. The last of the files, or the words where there are none, is the one that was made up."""

    def __init__(self, kind, words, files, line):
        self.kind, self.words, self.files, self.line = kind, list(words), files, line

    def size(self):
        return sum(map(len, self.files)) + sum(map(len, self.words))

    def with_text(self, text):
        """The same case with another text in the place of the one that was made up, judged anew."""
        return judged(self.kind, self.words, [*self.files[:-1], text])


def judged(kind, words, files):
    """The case of these files, of which the plain readers judge each in turn."""
    tree, profile, line = expressions.judge(files[0])
    net = None
    if not line and len(files) > 1:
        net, line = networks.judge(files[1], tree, profile)
    if not line and len(files) > 2:
        line = reports.judge(files[2], net)
    return Case(kind, words, files, line)


class Corpus:
    """The texts that cases are made from: policies, pairs of a policy and a network, and reports on such a pair."""

    def __init__(self, folder):
        self.policies, self.pairs, self.reports = [], [], []
        nets = []
        for at, folders, names in os.walk(folder):
            folders.sort()
            for name in sorted(names):
                with open(os.path.join(at, name), 'rb') as file:
                    content = file.read()
                self.policies += [content] if name.endswith('.raml') else []
                nets += [content] if name.endswith('.net') else []
        for net in nets:
            self.pairs += [(policy, net) for policy in self.policies if not judged('network', (), [policy, net]).line]
        self.nets = nets

    def one_of_each_net(self):
        """For each network the last policy that it fits, and itself."""
        return list({net: (policy, net) for policy, net in self.pairs}.values())

    def grow(self, draw, count):
        """Adds drawn policies, and drawn networks over them and over the first ones."""
        policies = self.policies + [expression_text(draw, draw.choice((1, 2, 3, 5, 9))).encode() for _ in range(count)]
        for policy in policies:
            tree, profile, line = expressions.judge(policy)
            for _ in range(0 if line else 2):
                counts = (draw.randint(low, high) for low, high in ((1, 6), (0, 9), (0, 2), (0, 3)))
                net = network_text(draw, tree, *counts)
                self.pairs.append((policy, net.encode()))
        self.policies, self.nets = policies, [net for _, net in self.pairs]

    def add_reports(self, starts, pairs):
        """Has the program print the rows on each of these pairs, and takes those of one phase."""
        for policy, net in pairs:
            paths = [starts.file(name, it) for name, it in zip(FILES, (policy, net))]
            ran = starts.run_again(['run', *paths, '--workers', '1', '--turns', '1000'])
            rows = ran.text.rpartition(b'phase ')[2]
            if ran.status == 0 and len(rows) < 3000:
                rows = rows.partition(b'\n')[2] if b'phase ' in ran.text else rows
                self.reports.append((policy, net, rows))


def drawn_word(draw):
    flags = ('--workers', '--turns', '--require', '--worker', '--', '--turns=1')
    numbers = ('0', '1', '2', '16', '17', '007', '512', '513', '1000000', '1000001', '18446744073709551615',
               '18446744073709551616', '0' * 19 + '2', '0' * 20 + '2', '-1', '+1', '1e3', ' 1', '')
    lists = ('strict', 'monotone,total', 'total,total', 'strict,', ',', 'Strict', 'cancellative,isotone,strict')
    names = ('FILE', 'FILE', 'NET', 'NET', 'REPORT', 'nowhere', 'é', b'\xff', 'x' * 300, 'FILE\n')
    commands = (*plain_words.COMMANDS, 'Check', 'help')
    return draw.choice(draw.choice((flags, flags, numbers, lists, names, names, commands)))


def words_case(draw):
    """Drawn words, most of them after a command. FILE, NET and REPORT stand for the names of good files."""
    words = [draw.choice(tuple(plain_words.COMMANDS))] if draw.random() < 0.93 else []
    if words and draw.random() < 0.7:
        few, _, _ = plain_words.COMMANDS[words[0]]
        words += ('3', '4') if words[0] == b'demo' else ('FILE', 'NET', 'REPORT')[:few]
    for _ in range(draw.choice((0, 0, 1, 2, 2, 3, 4))):
        words.insert(draw.randint(min(1, len(words)), len(words)), drawn_word(draw))
    words = [it if isinstance(it, bytes) else it.encode() for it in words]
    return Case('words', words, [], plain_words.judge(words))


def drawn_case(draw, kind, corpus):
    """A changed text of that kind."""
    if kind == 'words':
        return words_case(draw)
    if kind == 'expression':
        return judged(kind, draw.choice(ALONE), [changed(draw, draw.choice(corpus.policies), corpus.policies)])
    if kind == 'network':
        policy, net = draw.choice(corpus.pairs)
        return judged(kind, draw.choice(WITH_NET), [policy, changed(draw, net, corpus.nets)])
    policy, net, rows = draw.choice(corpus.reports)
    return judged(kind, ('verify',), [policy, net, changed(draw, rows, [rows for *_, rows in corpus.reports])])


def swept_texts(text):
    """Each front of a text, and the text with each byte replaced by each of a few."""
    yield from fronts(text)
    for byte in EACH_BYTE:
        yield from with_each_byte(text, byte)


def swept_of(kind, command, lasts):
    """Every byte alone and what swept_texts gives, in the place of the last of some files."""
    for number, files in enumerate(lasts):
        texts = [bytes([byte]) for byte in range(256)] if number == 0 else []
        for text in (*texts, *swept_texts(files[-1])):
            yield judged(kind, (command,), [*files[:-1], text])


def swept_literals(policies):
    """Every byte alone as a label and as a value, over each of the policies that are policies."""
    for policy in policies:
        if judged('network', (), [policy]).line:
            continue
        for byte in range(256):
            for front in (b'node a b\nlink a b :', b'node a\norigin x at a :'):
                yield judged('network', ('check',), [policy, front + bytes([byte])])


def swept_cases(corpus, kind=None):
    """The swept policies, networks and reports of the corpus, or those of one kind."""
    if kind in (None, 'expression'):
        yield from swept_of('expression', 'check', [[policy] for policy in corpus.policies])
    if kind in (None, 'network'):
        yield from swept_literals(corpus.policies)
        yield from swept_of('network', 'check', corpus.one_of_each_net())
    if kind in (None, 'report'):
        yield from swept_of('report', 'verify', corpus.reports)
