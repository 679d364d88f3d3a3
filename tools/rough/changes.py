"""Changes texts at random: bytes, tokens, lines, blocks, numbers, ends."""

import re

TOKEN = re.compile(rb'[A-Za-z_][A-Za-z0-9_]*|[0-9]+|\.\.|->|[^ \t\r\n]|[ \t\r\n]+')
BYTES = b'{}()[]<>=;:,.|-+?!#_ \t\r\n\0\x7f\x80\xff\xef09aZ'
NUMBERS = (b'0', b'00', b'1', b'2', b'63', b'64', b'65', b'255', b'256', b'1023', b'1024', b'1025', b'4294967295',
           b'4294967296', b'18446744073709551615', b'18446744073709551616', b'664613997892457936451903530140172288',
           b'664613997892457936451903530140172289', b'9' * 25, b'1' * 300, b'0' * 40 + b'7')
WORDS = (b'raml', b'let', b'main', b'none', b'add', b'cap', b'worst', b'width', b'lp', b'op', b'seq', b'simseq',
         b'tags', b'guard', b'gate', b'table', b'lex', b'scoped', b'union', b'sum', b'plus', b'left', b'right',
         b'node', b'link', b'both', b'origin', b'then', b'then link', b'then drop', b'at', b'a', b'b', b'x',
         b'keep', b'unit', b'allow', b'deny', b'l:', b'r:', b'out(', b'in(', b'quiet', b'spent', b'quiet 1', b'..',
         b'->', b'{', b'}', b'(', b')', b'[', b']', b',', b';', b':', b'|', b'=', b'<', b'#', b' : ', b'\r\n',
         b'raml 2;', b'a x none', b'\n\n')
# Changed texts are cut to this length.
MOST_BYTES = 200_000


def span_in(draw, text, most):
    """Where a drawn span of the text starts and ends."""
    start = draw.randrange(len(text) + 1)
    return start, min(len(text), start + draw.randint(1, most))


def flip_bit(draw, text, _):
    at = draw.randrange(len(text))
    return text[:at] + bytes([text[at] ^ (1 << draw.randrange(8))]) + text[at + 1:]


def replace_byte(draw, text, _):
    at = draw.randrange(len(text))
    byte = draw.choice(BYTES) if draw.random() < 0.7 else draw.randrange(256)
    return text[:at] + bytes([byte]) + text[at + 1:]


def insert_byte(draw, text, _):
    at = draw.randrange(len(text) + 1)
    return text[:at] + bytes([draw.choice(BYTES)]) + text[at:]


def insert_word(draw, text, _):
    at = draw.randrange(len(text) + 1)
    blank = draw.choice((b'', b' '))
    return text[:at] + blank + draw.choice(WORDS + NUMBERS) + blank + text[at:]


def drop_span(draw, text, _):
    start, end = span_in(draw, text, draw.choice((1, 1, 4, 40)))
    return text[:start] + text[end:]


def repeat_span(draw, text, _):
    start, end = span_in(draw, text, 30)
    return text[:end] + text[start:end] * draw.choice((1, 1, 2, 20, 300)) + text[end:]


def cut(draw, text, _):
    return text[:draw.randrange(len(text))]


def splice(draw, text, others):
    """A front of the text, and an end of another."""
    other = draw.choice(others)
    return text[:draw.randrange(len(text) + 1)] + other[draw.randrange(len(other) + 1):]


def on_tokens(draw, text, change):
    tokens = TOKEN.findall(text)
    if not tokens:
        return text
    change(draw, tokens)
    return b''.join(tokens)


def swap(draw, parts):
    one, other = draw.randrange(len(parts)), draw.randrange(len(parts))
    parts[one], parts[other] = parts[other], parts[one]


def swap_tokens(draw, text, _):
    return on_tokens(draw, text, swap)


def drop_token(draw, text, _):
    return on_tokens(draw, text, lambda draw, tokens: tokens.pop(draw.randrange(len(tokens))))


def replace_token(draw, text, _):
    def change(draw, tokens):
        at = draw.randrange(len(tokens))
        tokens[at] = draw.choice(WORDS + NUMBERS) if draw.random() < 0.5 else draw.choice(tokens)
    return on_tokens(draw, text, change)


def replace_number(draw, text, _):
    def change(draw, tokens):
        places = [at for at, token in enumerate(tokens) if token.isdigit()]
        if places:
            at = draw.choice(places)
            tokens[at] = draw.choice((*NUMBERS, b'%d' % (int(tokens[at][:20]) + draw.choice((-1, 1)))))
    return on_tokens(draw, text, change)


def on_lines(change):
    def changed(draw, text, _):
        lines = text.split(b'\n')
        change(draw, lines)
        return b'\n'.join(lines)
    return changed


def repeat_line(draw, lines):
    at = draw.randrange(len(lines))
    lines[at:at] = [lines[at]] * draw.choice((1, 1, 1, 20))


def drop_line(draw, lines):
    lines.pop(draw.randrange(len(lines)))


def move_line(draw, lines):
    lines.insert(draw.randrange(len(lines)), lines.pop(draw.randrange(len(lines))))


WAYS = (flip_bit, replace_byte, insert_byte, insert_word, drop_span, repeat_span, cut, splice, swap_tokens, drop_token,
        replace_token, replace_token, replace_number, replace_number, on_lines(swap), on_lines(repeat_line),
        on_lines(drop_line), on_lines(move_line))


def changed(draw, text, others):
    """The text after a few drawn changes; `others` are texts of the same kind."""
    for _ in range(draw.choice((1, 1, 1, 2, 2, 3, 6))):
        text = draw.choice(WAYS)(draw, text or b' ', others)[:MOST_BYTES]
    return text


def fronts(text):
    """Each front of a text, from the empty one to the whole."""
    return (text[:end] for end in range(len(text) + 1))


def with_each_byte(text, byte):
    """The text with each of its bytes in turn replaced by that one."""
    return (text[:at] + byte + text[at + 1:] for at in range(len(text)))
