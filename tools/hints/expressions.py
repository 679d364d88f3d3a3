"""What to look for in a refused expression file."""

import re

from hints.policies import GREATEST, OPERATORS, tokens_of
from hints.shown import MARK, meant, place_of, pointed, read

EXPR_WORDS = ('main', 'let', 'raml')
NET_WORDS = ('node', 'link', 'both', 'origin', 'then')
PAIRS = [name for name, form in OPERATORS.items() if form.endswith('(A,B)')]
SINGLES = [name for name, form in OPERATORS.items() if form.endswith('(A)')]
# What others call an operator.
OTHER_NAMES = {
    'min': 'width', 'bandwidth': 'width', 'capacity': 'width', 'bottleneck': 'width', 'widest': 'width',
    'max': 'worst', 'delay': 'add', 'cost': 'add', 'metric': 'add', 'hops': 'add', 'hopcount': 'add', 'length': 'add',
    'distance': 'add', 'shortest': 'add', 'localpref': 'lp', 'local_pref': 'lp', 'pref': 'lp', 'origin': 'op',
    'path': 'simseq', 'aspath': 'simseq', 'as_path': 'simseq', 'community': 'tags', 'communities': 'tags',
    'filter': 'guard', 'product': 'lex', 'lexicographic': 'lex', 'choice': 'union', 'const': 'left', 'constant': 'left',
}
ADVICE = {
    'X4': 'a number is at most 4294967295, or 18446744073709551615 after the header `raml 2;`',
    'X7': 'a rule on these numbers is broken: LOW at most HIGH; of worst and width HIGH at most TOP; N at least 1,'
          ' at most 1024 in simseq and 64 in tags and guard',
    'X8': 'both sides of `plus` need the same values in the same order',
    'X9': 'the expression passes 256 nodes; a name counts all that it stands for',
    'X11': 'nothing may follow the `;` of `main`',
    'X12': 'the header is `raml 1;` or `raml 2;`',
}


def texts_of(tokens):
    return [text.decode('ascii', 'replace') for text, _ in tokens]


def open_marks(tokens):
    """Which of the tokens are brackets that are open after all of them."""
    found = []
    for number, (text, _) in enumerate(tokens):
        if text in (b'(', b'{'):
            found.append(number)
        elif text in (b')', b'}') and found:
            found.pop()
    return found


def place_in(tokens):
    """The operator in whose brackets the text after these tokens stands, and what stands there so far; none of both
    outside brackets."""
    opened = open_marks(tokens)
    if not opened or opened[-1] == 0:
        return '', []
    return texts_of(tokens)[opened[-1] - 1], tokens[opened[-1] + 1:]


def commas_of(tokens):
    """How many commas stand among the tokens outside of brackets."""
    return sum(1 for number, (text, _) in enumerate(tokens) if text == b',' and not open_marks(tokens[:number]))


def missing(tokens, token=''):
    """What is missing after these tokens and before that one, as far as they show it."""
    second, last = ['', '', *texts_of(tokens)][-2:]
    if second == 'let':
        return 'a `=`'
    if last in OPERATORS and last != 'gate':
        return f'the `{"{" if last == "table" else "("}` of `{last}`'
    opened = [tokens[number][0] for number in open_marks(tokens)]
    if last in ('main', '=', '(', ',') and b'{' not in opened:
        return 'an expression or a number'
    if not opened:
        marks = ['`;`']
    elif opened[-1] == b'(':
        marks = ['`..`', '`;`', '`)`'] if last.isdigit() else ['`)`', '`,`']
    else:
        marks = ['`:`'] if second == ';' else ['`;`', '`,`', '`}`']
    return 'a ' + ' or a '.join(it for it in marks if it != f'`{token}`')


def bad_byte_advice(data, at):
    if data.startswith(MARK):
        return 'the file opens with a byte order mark, which editors don\'t show: save it as UTF-8 without one'
    if data[:2] in (b'\xff\xfe', b'\xfe\xff'):
        return 'the file is UTF-16: save it as UTF-8'
    byte = data[at:at + 1]
    if byte >= b'\x80':
        return 'a character outside ASCII, such as a curly quote, a dash or a hard space; only comments may have one'
    return {
        b'.': 'a range has two points: LOW..HIGH',
        b'-': 'numbers have no sign, and an arrow is `->`',
        b'/': 'a comment starts with `#`',
        b'"': 'names stand without quotes',
        b"'": 'names stand without quotes',
        b'>': 'a table names the preferred value first, and `<` or `=` before each later one',
    }.get(byte, 'no word, number or mark of the language starts so')


# --- tokens that can't follow

def bracket_advice(token, operator, inside):
    """What to say of a token that can't stand there in the brackets of an operator; nothing where that is unknown."""
    form = OPERATORS.get(operator, '')
    if operator in PAIRS and token == ',' and commas_of(inside):
        return f'`{operator}` has two parts; of three, put two together: {operator}(A,{operator}(B,C))'
    if operator in PAIRS and token == ')' and not commas_of(inside):
        return f'`{operator}` has two parts: {form}'
    if operator in SINGLES and token == ',':
        return f'`{operator}` has one part: {form}'
    number = texts_of(inside)[-1] if inside else ''
    if '..' in form and token == ')' and number.isdigit() and (';' in form) == (b';' in [text for text, _ in inside]):
        return f'a range has both ends, also where they are one number: {number}..{number}'
    if form.endswith(('(TOP)', '(N)')):
        is_more = token in ('..', ',') or not number.isdigit()
        return f'`{operator}` has one number: {form}' if is_more else f'`{token}` stands where `)` is due: {form}'
    return f'`{operator}` is written {form}' if '..' in form else ''


def table_advice(token, inside):
    """The same in the brackets of a table."""
    before = texts_of(inside)
    if token == '}' and before[-1:] == [';']:
        return 'rows have `;` between them, and none after the last'
    if token == '}' and ';' not in before:
        return f'a table has a row at least: {OPERATORS["table"]}'
    if token == '->' and before[-1:] == ['none']:
        return '`none` is no value, so it has no image'
    if token == ',' and before[-1:] == ['none'] and before[-2:-1] == [':']:
        return 'a row of `none` prohibits all: it maps nothing beside that'
    return ''


def follow_advice(token, before):
    """The same at any place."""
    last = texts_of(before)[-1]
    operator, inside = place_in(before)
    if last == 'gate' and token == '(':
        return '`gate` stands alone, without brackets'
    if last == 'table' and token == '(':
        return f'the brackets of a table are curly: {OPERATORS["table"]}'
    is_number = token.isdigit() and (last in ('main', '=') or operator in PAIRS + SINGLES)
    if is_number and last in ('main', '=', '(', ','):
        return f'an expression stands here, and no number: add({token}..{token}) adds {token} on each link'
    if token == ',' and not operator and 'main' in texts_of(before):
        return 'an operator joins two parts: lex(A,B)'
    if operator == 'table':
        return table_advice(token, inside)
    return bracket_advice(token, operator, inside)


def unexpected_advice(data, at, before):
    """The place to look at and the advice for a token that can't follow what stands before it."""
    token = re.match(rb'\.\.|->|\w+|.', data[at:], re.S).group().decode('utf-8', 'replace')
    if not before and token in NET_WORDS:
        return at, 'this looks like a network file: FILE, the policy, comes first and NET second'
    if not before:
        return at, 'the first word of a file is `raml`, `let` or `main`'
    last, start = before[-1]
    is_first = not data[data.rfind(b'\n', 0, at) + 1:at].strip()
    if last == b';' and not open_marks(before):
        return at, f'`{token}` opens no statement: that is `let NAME = EXPRESSION;` or `main EXPRESSION;`'
    advice = follow_advice(token, before) if token not in EXPR_WORDS else ''
    if advice:
        return at, advice
    if last != b';' and (is_first or token in EXPR_WORDS):
        return start + len(last), f'{missing(before)} is missing here, before `{token}`'
    return at, f'`{token}` can\'t follow `{last.decode("utf-8", "replace")}`: before it {missing(before, token)} may be missing'


def end_advice(data, tokens):
    """The place to look at and the advice for a text that ends where more is needed."""
    if not any(text == b'main' for text, _ in tokens):
        return len(data), 'there is no `main`: a policy ends with `main EXPRESSION;`'
    last, start = tokens[-1]
    return start + len(last), f'{missing(tokens)} is missing here, at the end'


# --- names

def name_advice(kind, name, tokens):
    if kind == 'X6':
        if name in OPERATORS or name in EXPR_WORDS:
            return f'`{name}` is a word of the language: give the `let` another name'
        return f'an earlier `let` is called `{name}`: give this one another name'
    known = [b.decode() for (a, _), (b, _) in zip(tokens, tokens[1:]) if a == b'let']
    if name == 'none':
        return '`none` is no expression: it stands in the rows of a table, and prohibits'
    near = meant(name, known)
    if not near and name.lower() in OTHER_NAMES:
        near = f' (is `{OPERATORS[OTHER_NAMES[name.lower()]]}` meant?)'
    return f'no earlier `let` names `{name}`, and no operator is called so{near or meant(name, OPERATORS)}'


def table_name_advice(name, tokens):
    """What is wrong with a name in a table."""
    inside = texts_of(place_in(tokens)[1])
    values, *rows = ' '.join(inside).split(' ; ') if ';' in inside else [' '.join(inside)]
    values = [it for it in values.split() if it not in ('<', '=')]
    last = inside[-1] if inside else ''
    if last == ';' or (not rows and ';' not in inside):
        what, known = ('row', [it.split()[0] for it in rows if it.strip()]) if last == ';' else ('value', values)
        if name == 'none':
            return f'no {what} may be called `none`, which prohibits'
        if name in known:
            return f'the {what} `{name}` is there: name it once'
        return f'a table has at most 16 {what}s'
    if name == 'none':
        return '`none` is no value, so it has no image'
    if name not in values:
        return f'`{name}` is no value of this table{meant(name, values)}'
    return f'this row maps `{name}` twice'


def expression_hint(kind, line, column, name):
    data = read(name)
    at = sum(len(it) + 1 for it in data.split(b'\n')[:line - 1]) + column - 1
    tokens = tokens_of(data)
    before = [it for it in tokens if it[1] < at]
    word = re.match(rb'\w*', data[at:]).group().decode('ascii', 'replace')
    if kind == 'X1':
        advice = bad_byte_advice(data, at)
    elif kind == 'X2':
        at, advice = unexpected_advice(data, at, before)
    elif kind == 'X3':
        at, advice = end_advice(data, tokens)
    elif kind in ('X5', 'X6'):
        advice = name_advice(kind, word, before)
    elif kind == 'X10':
        advice = table_name_advice(word, before)
    else:
        advice = ADVICE.get(kind, '')
    return pointed(name, data, *place_of(data, at), advice)
