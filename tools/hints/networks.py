"""What to look for in a refused line of a network file."""

import re

from hints.expressions import EXPR_WORDS
from hints.literals import literal_advice
from hints.policies import policy_of
from hints.shown import MARK, line_of, meant, pointed, read

NET_WORDS = ('node', 'link', 'both', 'origin', 'then')
FORMS = {
    'node': 'node A ..',
    'link': 'link A B : LABEL',
    'both': 'both A B : LABEL',
    'origin': 'origin D at A : VALUE',
    'then link': 'then link A B : LABEL',
    'then drop': 'then drop A B',
}
# The limits of profile 1, and those of profile 2.
LIMITS = {'nodes': ('512', '4,096'), 'arcs': ('8,192', '8,192'), 'destinations': ('64', '8'), 'changes': ('16', '4')}
CHANGES = (16, 4)
ADVICE = {
    'N4': 'there is an arc for this pair of nodes; `both` makes one in each direction',
    'N5': 'an arc joins two different nodes',
    'N8': 'this destination has an origin at this node',
    'N10': 'changes come last: this line stands after a `then` line',
    'N11': 'there is no such arc to drop, after the changes before',
}


def words_of(text):
    """The words of a network line with their columns, from 1 on, the column of its first colon, 0 if there is none, and
    what stands after that, with its column."""
    text = text.split(b'#')[0]
    front, colon, literal = text.partition(b':')
    words = [(it.group().decode('utf-8', 'replace'), it.start() + 1) for it in re.finditer(rb'[^ \t]+', front)]
    stripped = literal.lstrip(b' \t')
    after = stripped.decode('utf-8', 'replace').rstrip(' \t'), len(text) - len(stripped) + 1
    return words, len(front) + 1 if colon else 0, after


def is_name(word):
    return re.fullmatch(r'[A-Za-z0-9_.-]{1,32}', word) is not None


def name_fault(word):
    if len(word) > 32:
        return f'a name has at most 32 characters, and this one {len(word)}'
    odd = next(char for char in word if not is_name(char))
    if odd == '/':
        return 'a name has no `/`: write a prefix as 10.0.0.0_8'
    if odd == '\r':
        return 'a carriage return stands inside the line: only one at its very end is dropped'
    return f'a name is of ASCII letters, digits, `_`, `-` and `.`, and not of `{odd}`'


def form_of(words):
    """The form that a line has by its first words, and how many words that has before the colon; None if it has none."""
    texts = [text for text, _ in words]
    key = ' '.join(texts[:2]) if texts[:1] == ['then'] else ''.join(texts[:1])
    if key not in FORMS:
        return None, 0
    return FORMS[key], len(FORMS[key].split(' : ')[0].split())


def looks_like_row(texts):
    """Whether these words are a row: a node, a destination, and `none` or a value and a path from the node."""
    return texts[2:] == ['none'] or (len(texts) > 3 and texts[3] == texts[0])


def bad_line(text):
    """Column and advice for a line that has none of the forms, looked at as the program does: from the left."""
    words, colon, _ = words_of(text)
    if len(text) > 4096:
        return 4097, f'a line has at most 4096 bytes, and this one {len(text)}: nodes may stand on several lines'
    if text.startswith(MARK):
        return 1, 'the file opens with a byte order mark, which editors don\'t show: save it as UTF-8 without one'
    form, count = form_of(words)
    first, column = words[0] if words else ('', 1)
    if form is None:
        if first in EXPR_WORDS:
            return column, 'this looks like an expression file: FILE, the policy, comes first and NET second'
        if looks_like_row([text for text, _ in words]):
            return column, 'this looks like a row of a report: NET comes before REPORT'
        if first == 'then':
            return column, 'a change is `then link A B : LABEL` or `then drop A B`'
        return column, f'the first word of a line is node, link, both, origin or then{meant(first, NET_WORDS)}'
    return in_form(form, count, words, colon, len(text.split(b'#')[0]) + 1)


def in_form(form, count, words, colon, end):
    """Column and advice for a line that has that form by its first words."""
    wants_colon = ' : ' in form
    if form == FORMS['node'] and len(words) < 2 and not colon:
        return end, 'a `node` line names one node or more: node a b c'
    if wants_colon and not colon:
        return end, f'a colon is missing, and what stands after it: {form}'
    if not wants_colon and colon:
        return colon, f'no colon stands here: {form}'
    names = [it for it in words[1:] if it[0] not in ('at', 'link', 'drop') or form == FORMS['node']]
    for word, column in names:
        if not is_name(word):
            return column, name_fault(word)
    if form == FORMS['origin'] and len(words) > 2 and words[2][0] != 'at':
        return words[2][1], f'`at` stands before the node: {form}'
    if form != FORMS['node'] and len(words) != count:
        column = words[count][1] if len(words) > count else words[-1][1] + len(words[-1][0])
        return column, f'{"too many words" if len(words) > count else "a word is missing"}: {form}'
    return 1, f'the line has none of the forms of docs/networks.md; by its first word it is {form}'


def lines_before(data, line):
    """The words of the lines before that one."""
    return [words_of(text.rstrip(b'\r'))[0] for text in data.split(b'\n')[:line - 1]]


def nodes_before(data, line):
    """The names of nodes in the lines before that one."""
    return {word for words in lines_before(data, line) if words and words[0][0] == 'node' for word, _ in words[1:]}


def ends_of(words):
    """The words of a line that name its nodes."""
    if words[0][0] == 'origin':
        return words[3:4]
    return words[2:4] if words[0][0] == 'then' else words[1:3]


def limit_advice(data, line, first, profile):
    """Which limit a line passes, and how FILE gets a greater one."""
    changes = sum(1 for words in lines_before(data, line) if words and words[0][0] == 'then')
    kind = {'node': 'nodes', 'origin': 'destinations'}.get(first, 'arcs')
    if first == 'then' and changes >= CHANGES[profile - 1]:
        kind = 'changes'
    said = f'more than {LIMITS[kind][profile - 1]} {kind}, the most that there may be'
    if kind == 'nodes' and profile == 1:
        return f'{said}: begin FILE with `raml 2;` for up to 4,096 nodes, with 8 destinations and 4 changes at most'
    if kind in ('destinations', 'changes') and profile == 2:
        return f'{said} after `raml 2;`, without which there may be {LIMITS[kind][0]}'
    return said + (': more of them go into several files' if kind == 'destinations' else '')


def policy_in(name):
    """The profile and the expression of FILE; None where it can't be read here."""
    try:
        return policy_of(read(name))
    except (OSError, IndexError, ValueError, TypeError, RecursionError):
        return None


def literal_place(kind, literal, column, policy):
    """Column, advice and further lines for a refused label or value."""
    what = 'label' if kind == 'N6' else 'value'
    if policy is None:
        said = f'`{literal}` is no {what} of this policy; docs/language.md has the forms, the policy its ranges'
        return column, said, []
    at, advice, more = literal_advice(literal, what, policy)
    return column + len(literal[:at].encode()), advice, more


def network_place(kind, data, line, text, policy):
    """Column, advice and further lines for a refused line of a network file."""
    if kind == 'N1':
        return (*bad_line(text), [])
    words, _, (literal, column) = words_of(text)
    if kind in ('N6', 'N7'):
        return literal_place(kind, literal, column, policy)
    if kind == 'N2':
        known = nodes_before(data, line)
        for word, at in ends_of(words):
            if word not in known:
                return at, f'no earlier `node` line names `{word}`{meant(word, known)}', []
    if kind == 'N3':
        known = nodes_before(data, line)
        for word, at in words[1:]:
            if word in known:
                return at, f'the node `{word}` is there: name it once', []
            known.add(word)
    first, column = words[0] if words else ('', 1)
    if kind == 'N9':
        return column, limit_advice(data, line, first, policy[0] if policy else 1), []
    return column, ADVICE.get(kind, ''), []


def network_hint(kind, line, name, file):
    """What to say of a fault in the network `name` over the policy `file`."""
    data = read(name)
    text = re.sub(rb'\r\Z', b'', line_of(data, line))
    column, advice, more = network_place(kind, data, line, text, policy_in(file))
    return '\n  '.join([pointed(name, data, line, column, advice), *more])


def property_hint(prop, tail, head, command, name):
    """Shows the line that gives the arc its label, the last one that does."""
    data = read(name)
    place = (1, 1)
    for number, text in enumerate(data.split(b'\n'), 1):
        words, colon, (_, column) = words_of(text)
        first = words[0][0] if words and colon else ''
        ends = [word for word, _ in ends_of(words)] if first in ('link', 'both', 'then') else []
        if ends == [tail, head] or (first == 'both' and ends == [head, tail]):
            place = (number, column)
    other = {'monotone': 'a label that never makes a route better, or `run`, which asks nothing of labels',
             'isotone': 'a policy that keeps the order of routes, or `stable`, where all labels are monotone, or `run`',
             'strict': 'a label that makes each route worse, or `stable`, where all labels are monotone, or `run`'}[prop]
    return pointed(name, data, *place, f'this label isn\'t {prop}, which `{command}` needs; take {other}')
