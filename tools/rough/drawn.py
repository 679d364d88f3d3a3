"""Draws labels, values and network files over an algebra that plain.expressions has read."""

MOST_SYMBOLS = 4


def draw_number(draw, low, high):
    """A number of a range: often an end of it."""
    return draw.choice((low, high, draw.randint(low, high), min(high, low + draw.randint(0, 9))))


def draw_list(draw, bound, is_set):
    count = draw.randint(0, min(MOST_SYMBOLS, bound))
    if is_set:
        return ','.join(str(it) for it in draw.sample(range(min(bound, 64)), min(count, bound)))
    return ','.join(str(draw.randrange(bound)) for _ in range(count))


def value_text(draw, carrier):
    kind = carrier[0]
    if kind == 'from':
        return str(draw.randint(0, 9))
    if kind in ('up to', 'down from'):
        return str(draw_number(draw, 0, carrier[1]))
    if kind == 'seq':
        return f'[{draw_list(draw, carrier[1], False)}]'
    if kind == 'simseq':
        return f'[{draw_list(draw, carrier[1], True)}]'
    if kind == 'sets':
        return '{' + draw_list(draw, carrier[1], True) + '}'
    if kind == 'one':
        return 'unit'
    if kind == 'table':
        return draw.choice(carrier[1])
    if kind == 'pair':
        return f'({value_text(draw, carrier[1])},{value_text(draw, carrier[2])})'
    side = draw.randrange(2)
    return 'lr'[side] + ':' + value_text(draw, carrier[1 + side])


def base_label_text(draw, tree):
    kind, numbers = tree.kind, tree.numbers
    if kind in ('add', 'cap', 'worst', 'width'):
        return str(draw_number(draw, *numbers[-2:]))
    if kind == 'lp':
        return str(draw_number(draw, 0, numbers[0]))
    if kind in ('seq', 'simseq'):
        return str(draw.randrange(numbers[0]))
    if kind == 'tags':
        return draw.choice(('keep', '+', '-'))
    if kind == 'guard':
        return draw.choice('?!')
    if kind == 'gate':
        return draw.choice(('allow', 'allow', 'allow', 'deny'))
    return draw.choice(tree.rows.rows) if kind == 'table' else 'keep'


def label_text(draw, tree):
    kind, parts = tree.kind, tree.parts
    if kind in ('lex', 'sum'):
        mark = ',' if kind == 'lex' else '|'
        return f'({label_text(draw, parts[0])}{mark}{label_text(draw, parts[1])})'
    if kind == 'scoped':
        if draw.randrange(2):
            return f'out({label_text(draw, parts[0])},{value_text(draw, parts[1].carrier)})'
        return f'in({label_text(draw, parts[1])})'
    if kind in ('union', 'plus'):
        side = draw.randrange(2)
        return 'lr'[side] + ':' + label_text(draw, parts[side])
    if kind == 'left':
        return value_text(draw, tree.carrier)
    if kind == 'right':
        return 'keep'
    text = base_label_text(draw, tree)
    return text + str(draw.randrange(tree.numbers[0])) if text in ('+', '-', '?', '!') else text


def network_text(draw, tree, nodes, arcs, dests=1, changes=0):
    """A network file of so many nodes, of that many drawn arcs or less, and of destinations with one origin or two."""
    names = [f'n{number}' for number in range(nodes)]
    lines, ends = ['node ' + ' '.join(names[at:at + 50]) for at in range(0, nodes, 50)], []
    for _ in range(arcs if nodes > 1 else 0):
        pair = tuple(draw.sample(names, 2))
        if pair not in ends:
            ends.append(pair)
    labels = [label_text(draw, tree) for _ in range(max(1, min(len(ends), 8)))]
    lines += [f'link {one} {other} : {draw.choice(labels)}' for one, other in ends]
    for number in range(dests):
        lines += [f'origin x{number} at {node} : {value_text(draw, tree.carrier)}'
                  for node in draw.sample(names, min(nodes, draw.choice((1, 1, 2))))]
    for _ in range(changes if nodes > 1 else 0):
        if ends and draw.randrange(2):
            lines.append('then drop {} {}'.format(*ends.pop(draw.randrange(len(ends)))))
        else:
            pair = tuple(draw.sample(names, 2))
            ends += [pair] if pair not in ends else []
            lines.append(f'then link {pair[0]} {pair[1]} : {draw.choice(labels)}')
    return ''.join(line + '\n' for line in lines)


def deep_expression(draw, count):
    """The text of a drawn expression of about so many nodes, with what `plus` needs where it has that."""
    if count <= 1:
        return draw.choice(('add(1..9)', 'add(0..3)', 'cap(15; 1..3)', 'worst(9; 0..9)', 'width(9; 0..9)', 'lp(3)',
                            'op(2)', 'seq(3)', 'simseq(4)', 'tags(4)', 'guard(4)', 'gate',
                            'table { a < b = c; R: a -> b, c -> none; S: none }'))
    kind = draw.choice(('lex', 'lex', 'scoped', 'union', 'sum', 'plus', 'left', 'right'))
    if kind in ('left', 'right'):
        return f'{kind}({deep_expression(draw, count - 1)})'
    if kind == 'plus':
        part = deep_expression(draw, (count - 1) // 2)
        return f'plus({part}, {part})'
    first = draw.randint(1, max(1, count - 2))
    return f'{kind}({deep_expression(draw, first)}, {deep_expression(draw, count - 1 - first)})'


def expression_text(draw, count):
    return f'{draw.choice(("", "", "raml 1;", "raml 2; "))}main {deep_expression(draw, count)};\n'


