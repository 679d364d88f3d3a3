"""What to look for in a refused line of a report."""

import re

from hints.expressions import EXPR_WORDS
from hints.literals import literal_advice
from hints.networks import NET_WORDS, is_name, name_fault, policy_in, words_of
from hints.shown import MARK, line_of, meant, pointed, read

ROW = 'NODE DEST VALUE NODE .., or NODE DEST none'
# The greatest number of a value in a row, which may be a sum of many labels.
GREATEST = 2 ** 119


class Network:
    """The names of a network's nodes and destinations, in order, of the bytes of its file."""

    def __init__(self, data):
        lines = [words_of(text.rstrip(b'\r'))[0] for text in data.split(b'\n')]
        texts = [[word for word, _ in words] for words in lines]
        self.nodes = list(dict.fromkeys(word for words in texts if words[:1] == ['node'] for word in words[1:]))
        self.dests = list(dict.fromkeys(words[1] for words in texts if words[:1] == ['origin']))

    def count(self):
        return len(self.nodes) * len(self.dests)

    def due(self, number):
        """The node and the destination of the row of that number, from 0 on; None after the last."""
        if number >= self.count():
            return None
        return self.nodes[number % len(self.nodes)], self.dests[number // len(self.nodes)]


def row_words(text):
    """The words of a line of a report, with their columns from 1 on. It has no comments."""
    text = re.sub(rb'\r\Z', b'', text)
    return [(it.group().decode('utf-8', 'replace'), it.start() + 1) for it in re.finditer(rb'[^ \t]+', text)]


def is_end(words):
    """Whether these words are an end line."""
    texts = [text for text, _ in words]
    return len(texts) == 2 and texts[0] in ('quiet', 'spent') and re.fullmatch('[0-9]{1,20}', texts[1]) is not None


def due_text(network, number):
    """Which row is due as the one of that number."""
    due = network.due(number)
    if due is None:
        return f'no row is due any more: there are {network.count()}, one for each node and each destination'
    return f'the row of {due[0]} for {due[1]} is due here'


def stranger(words, text, network):
    """What to say of a line that is none of a report's for a reason that its first word shows, or nothing."""
    first = words[0][0]
    if text.startswith(MARK):
        return 'the file opens with a byte order mark, which editors don\'t show: save it as UTF-8 without one'
    if first.startswith('#'):
        return 'a report has no comments: take this line out'
    if first in network.nodes:
        return ''
    if first in NET_WORDS:
        return 'this looks like a network file: NET comes before REPORT'
    if first in EXPR_WORDS:
        return 'this looks like an expression file: FILE comes first, then NET, then REPORT'
    return ''


def short_advice(words, network, number):
    """Place and advice for a line of one or two words."""
    texts, column = [text for text, _ in words], words[0][1]
    if texts[0] in ('quiet', 'spent'):
        if is_end(words):
            return column, f'the end of the run stands after the last row, and {due_text(network, number)}'
        return words[-1][1], f'after `{texts[0]}` stands a number of 1 to 20 digits'
    if texts[0] == 'phase':
        return column, 'a report is of one phase: take the rows of one phase of `run` alone'
    if texts[0] == 'table':
        return column, 'this is a line of `stable`: take the rows alone'
    return column, f'a row has three words or more: {ROW}'


def bad_line(words, text, network, before, number):
    """Column and advice for a line that has none of the forms, or stands after an end line."""
    texts = [it for it, _ in words]
    if any(is_end(it) for it in before):
        return words[0][1], 'nothing follows the line that says how the run ended'
    said = stranger(words, text, network)
    if said:
        return words[0][1], said
    if len(words) < 3:
        return short_advice(words, network, number)
    if texts[2] == 'stable':
        return words[0][1], 'this is a line of `stable`: take the rows alone'
    if texts[0].isdigit() and set(texts[1:]) <= set(network.nodes):
        return words[0][1], 'this is a delivery of `trace`: take the rows alone, as `run` prints them'
    if texts[2].lower().rstrip('\r') == 'none':
        return words[2][1], f'a row without a route ends with `none`, and not with `{texts[2]}`'
    return words[2][1] + len(texts[2]), f'the path is missing, from the node itself to the origin: {ROW}'


def unknown_name(words, text, network):
    """Column and advice for a line with a name that the network doesn't have."""
    said = stranger(words, text, network)
    if said:
        return words[0][1], said
    path = [] if len(words) == 3 else words[3:]
    for (word, column), known, what in [(words[0], network.nodes, 'node'), (words[1], network.dests, 'destination'),
                                        *((it, network.nodes, 'node') for it in path)]:
        if word in known:
            continue
        if not is_name(word):
            return column, name_fault(word)
        if words[0][0] in network.dests and words[1][0] in network.nodes:
            return column, f'NET has no {what} `{word}`: the node comes first, and then the destination'
        if what == 'destination' and word in network.nodes:
            return column, f'no destination is called `{word}`: a row is {ROW}'
        return column, f'NET has no {what} `{word}`{meant(word, known)}'
    return 1, f'a name isn\'t NET\'s: a row is {ROW}'


def bad_value(words, policy):
    """Column, advice and further lines for a row whose value is refused."""
    text, column = words[2]
    if text == 'none':
        return words[3][1], 'nothing follows `none`: a row without a route has no path', []
    if policy is None:
        return column, f'`{text}` is no value of this policy; docs/language.md has the forms', []
    at, advice, more = literal_advice(text, 'value', policy, GREATEST)
    return column + len(text[:at].encode()), advice, more


def report_place(kind, words, text, network, before, policy):
    """Column, advice and further lines for a refused line of a report, after lines of these words."""
    number = sum(1 for it in before if len(it) > 2)
    if kind == 'V5':
        return 1, f'the report ends too early, and {due_text(network, number)}: there are {network.count()} rows, one ' \
                  'for each node and each destination', []
    if kind == 'V4':
        return bad_value(words, policy)
    if kind == 'V3':
        order = 'rows stand by destination, and in each by node, both in the order of NET'
        return words[0][1], f'{due_text(network, number)}; {order}', []
    if kind == 'V2':
        return (*unknown_name(words, text, network), [])
    return (*bad_line(words, text, network, before, number), [])


def report_hint(kind, line, name, net, file):
    """What to say of a fault in the report `name` on the network `net` over the policy `file`."""
    data = read(name)
    before = [row_words(text) for text in data.split(b'\n')[:line - 1]]
    text = line_of(data, line)
    place = report_place(kind, row_words(text), text, Network(read(net)), before, policy_in(file))
    column, advice, more = place
    return '\n  '.join([pointed(name, data, line, column, advice), *more])
