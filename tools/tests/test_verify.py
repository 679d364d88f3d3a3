"""Tests of `verify` and `hops` by a plain program, which does what docs/commands.md says, over policies add(..)."""

import itertools
import os
import random
import re
import subprocess

from support import Folder, built, needs_program, run

GREATEST = 2 ** 119
# What one byte of a report is replaced by; the empty text takes it out.
BYTES = (b'0', b'9', b'a', b'x', b' ', b'\n', b'\r', b'#', b'\xff', b'')


class Net:
    """A network: its nodes and destinations by name, the length of each arc, and the value of each origin."""

    def __init__(self, nodes, arcs, origins):
        self.nodes, self.arcs, self.origins = nodes, arcs, origins
        self.dests = list(dict.fromkeys(dest for dest, _ in origins))

    def text(self):
        return ''.join([*(f'node {it}\n' for it in self.nodes), *(f'link {a} {b} : {n}\n' for (a, b), n in
                                                                  self.arcs.items()),
                        *(f'origin {dest} at {node} : {value}\n' for (dest, node), value in self.origins.items())])

    def weight(self, dest, path):
        """What a walk weighs, or None where it is none."""
        ends = list(zip(path, path[1:]))
        if (dest, path[-1]) not in self.origins or not all(it in self.arcs for it in ends):
            return None
        return self.origins[dest, path[-1]] + sum(self.arcs[it] for it in ends)


class Fault(Exception):
    """The kind and the line of the first fault of a report."""


def rank(net, route):
    """What routes are compared by: the value, the length of the path, and its numbers."""
    return route[0], len(route[1]), [net.nodes.index(it) for it in route[1]]


# --- reading

def row_of(net, words, due):
    """The route of a row, or None; `due` is the node and the destination of the next row."""
    node, dest, value, *path = words
    if node not in net.nodes or dest not in net.dests or not set(path) <= set(net.nodes):
        raise Fault(2)
    if (node, dest) != due:
        raise Fault(3)
    if words[2:] == ['none']:
        return None
    if not re.fullmatch('[0-9]+', value) or int(value) > GREATEST:
        raise Fault(4)
    return int(value), path


def read(net, report):
    """The routes of a report by destination and node."""
    order = [(node, dest) for dest in net.dests for node in net.nodes]
    rows, is_over = {}, False
    lines = report.split(b'\n')
    lines = lines[:-1] if lines[-1] == b'' else lines
    for number, line in enumerate(lines, 1):
        line = line[:-1] if line.endswith(b'\r') else line
        words = [it.decode('latin-1') for it in re.split(b'[ \t]+', line) if it]
        is_end = len(words) == 2 and re.fullmatch('(quiet|spent) [0-9]{1,20}', ' '.join(words))
        try:
            if not words:
                continue
            if is_over or not (is_end or words[2:] == ['none'] or len(words) > 3) or (is_end and len(rows) < len(order)):
                raise Fault(1)
            if is_end:
                is_over = True
            else:
                due = order[len(rows)] if len(rows) < len(order) else None
                row = row_of(net, words, due)
                rows[due[1], due[0]] = row
        except Fault as fault:
            return f'report refused: V{fault.args[0]} at line {number}\n'
    return rows if len(rows) == len(order) else f'report refused: V5 at line {len(lines) + 1}\n'


# --- judging

def offers(net, rows, dest, node):
    """All offers to a node, by what the rows say."""
    found = [(net.origins[dest, node], [node])] if (dest, node) in net.origins else []
    for (tail, head), length in net.arcs.items():
        row = rows[dest, head] if tail == node else None
        if row and node not in row[1]:
            found.append((length + row[0], [node, *row[1]]))
    return found


def optimal_line(net, rows):
    for dest in net.dests:
        for node in net.nodes:
            row = rows[dest, node]
            if row and (row[1][:1] != [node] or net.weight(dest, row[1]) != row[0]):
                return f'optimal no: {node} {dest} isn\'t a walk of that value'
        for node in net.nodes:
            beats = beating(net, rows, dest, node)
            if beats:
                return [f'optimal no: {node} {dest} is beaten by {" ".join(it)}' for it in beats]
    return 'optimal yes'


def beating(net, rows, dest, node):
    """The walks that beat a row: the node alone, and those over a neighbour's path."""
    row = rows[dest, node]
    walks = [[node]] + [[node, *rows[dest, head][1]] for tail, head in net.arcs if tail == node and rows[dest, head]]
    return [it for it in walks if net.weight(dest, it) is not None and (not row or net.weight(dest, it) < row[0])]


def stable_line(net, rows):
    for dest, node in itertools.product(net.dests, net.nodes):
        row, found = rows[dest, node], offers(net, rows, dest, node)
        if row and row not in found:
            return f'stable no: {node} {dest} isn\'t offered'
        better = [it for it in found if not row or rank(net, it) < rank(net, row)]
        if better:
            return [f'stable no: {node} {dest} has the better offer {value} {" ".join(path)}' for value, path in better]
    return 'stable yes'


def best(net, dest, node):
    """The walks of a node of the least weight, as far as they have no more than twice as many nodes as there are."""
    walks, found = [[node]], []
    while walks:
        found += [it for it in walks if net.weight(dest, it) is not None]
        walks = [[*it, head] for it in walks for tail, head in net.arcs if tail == it[-1] and len(it) < 2 * len(net.nodes)]
    least = min((net.weight(dest, it) for it in found), default=None)
    return least, [it for it in found if net.weight(dest, it) == least]


def hops(net):
    """What `hops` prints."""
    lines = []
    for dest, node in itertools.product(net.dests, net.nodes):
        value, walks = best(net, dest, node)
        words = ['none'] if value is None else [str(value), *(['here'] if [node] in walks else [])]
        seconds = {it[1] for it in walks if len(it) > 1}
        lines.append(' '.join([node, dest, *words, *(b for a, b in net.arcs if a == node and b in seconds)]) + '\n')
    return ''.join(lines)


def drawn(source):
    """A small network."""
    nodes = list('abcd')[:source.randint(2, 4)]
    pairs = [it for it in itertools.permutations(nodes, 2) if source.random() < 0.6]
    origins = {('x', source.choice(nodes)): 0, (source.choice('xy'), source.choice(nodes)): source.randint(0, 2)}
    return Net(nodes, {it: source.choice((0, 1, 1, 2)) for it in pairs}, origins)


def changed(source, net, rows):
    """The same rows with another one: none, another value, another best walk, or one that is turned around."""
    key = source.choice(list(rows))
    row, (least, walks) = rows[key], best(net, *key)
    if row is None:
        return {**rows, key: (1, [key[1]])}
    path = source.choice(walks)
    return {**rows, key: source.choice([None, (row[0] + 1, row[1]), (least, path), (least, path[::-1])])}


def report_of(net, rows):
    lines = [f'{node} {dest} none\n' if rows[dest, node] is None else
             f'{node} {dest} {rows[dest, node][0]} {" ".join(rows[dest, node][1])}\n'
             for dest in net.dests for node in net.nodes]
    return ''.join(lines).encode()


@needs_program
class Plain(Folder):
    """The program beside the plain one."""

    def setUp(self):
        super().setUp()
        self.policy = self.file('p.raml', 'main add(0..10);')

    def judged(self, net, report):
        """What the program prints of a report, which is compared."""
        words = [built, 'verify', self.policy, os.path.join(self.folder, 'n.net'), '/dev/stdin']
        ran = subprocess.run(words, input=report, stdout=subprocess.PIPE, timeout=60)
        rows, out = read(net, report), ran.stdout.decode()
        if isinstance(rows, str):
            self.assertEqual((out, ran.returncode), (rows, 2), report)
            return rows
        lines = [optimal_line(net, rows), stable_line(net, rows)]
        self.assertEqual((len(out.split('\n')), ran.returncode), (3, 0), report)
        for line, wanted in zip(out.split('\n'), lines):
            self.assertIn(line, wanted if isinstance(wanted, list) else [wanted], (net.text(), report))
        return ' '.join(it.split(':')[0] for it in out.split('\n'))

    def test_each_byte_of_a_report(self):
        net = Net(['a', 'b'], {('a', 'b'): 3, ('b', 'a'): 3}, {('x', 'b'): 0})
        self.file('n.net', net.text())
        report, found = b'a x 3 a b\r\nb x 0 b\nquiet 2\n', set()
        for at, byte in itertools.product(range(len(report)), BYTES):
            found.add(self.judged(net, report[:at] + byte + report[at + 1:])[:18])
        for at in range(len(report)):
            found.add(self.judged(net, report[:at])[:18])
        self.assertEqual(len([it for it in found if it.startswith('report refused: V')]), 5)
        self.assertIn('optimal yes stable', found)

    def test_drawn_tables(self):
        source, found = random.Random(7), set()
        for _ in range(25):
            net = drawn(source)
            name = self.file('n.net', net.text())
            status, out, _ = run([built, 'hops', self.policy, name])
            self.assertEqual((status, out), (0, hops(net)), net.text())
            rows = read(net, run([built, 'route', self.policy, name])[1].encode())
            self.assertEqual(self.judged(net, report_of(net, rows)), 'optimal yes stable yes ')
            for _ in range(4):
                found.add(self.judged(net, report_of(net, changed(source, net, rows))))
        self.assertEqual(found, {'optimal yes stable yes ', 'optimal yes stable no ', 'optimal no stable no '})
