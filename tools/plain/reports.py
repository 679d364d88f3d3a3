"""A plain reader of reports: whether a file has the rows of a network, or its first fault and the line of that."""

import re

from plain.literals import is_value
from plain.networks import WORD, lines_of

END = re.compile(rb'[0-9]{1,20}')
# The greatest number in a value of a report.
GREATEST = 2 ** 119


class BadLine(Exception):
    """The number of the fault of a line."""


def check_row(net, words, due):
    """The faults of a row; `due` is the node and the destination of the next row, or None where all were there."""
    node, dest, value, *path = words
    if node not in net.nodes or dest not in net.dests or any(name not in net.nodes for name in path):
        raise BadLine('V2')
    if (node, dest) != due:
        raise BadLine('V3')
    if (value == b'none') != (not path) or not (value == b'none' or is_value(value, net.tree, GREATEST)):
        raise BadLine('V4')


def judge(data, net):
    """'', or the line that refuses the file."""
    rows = [(node, dest) for dest in net.dests for node in net.nodes]
    at, is_ended, lines = 0, False, lines_of(data)
    for number, line in enumerate(lines, 1):
        words = WORD.findall(line[:-1] if line.endswith(b'\r') else line)
        try:
            is_end = len(words) == 2 and words[0] in (b'quiet', b'spent') and END.fullmatch(words[1]) is not None
            is_row = len(words) > 3 or (len(words) == 3 and words[2] == b'none')
            if not words:
                continue
            if is_ended or not (is_row or is_end) or (is_end and at < len(rows)):
                raise BadLine('V1')
            if is_row:
                check_row(net, words, rows[at] if at < len(rows) else None)
                at += 1
            is_ended = is_end
        except BadLine as fault:
            return f'report refused: {fault} at line {number}'
    return '' if at == len(rows) else f'report refused: V5 at line {len(lines) + 1}'
