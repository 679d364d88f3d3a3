"""The forms of a policy's labels and values, and what is wrong with a text that has none of them."""

import re

from hints.policies import GREATEST
from hints.shown import either

LINES = 24


class Misfit(Exception):
    """A text that hasn't the shape that is due: the place, what is wrong there, and the form of that part."""

    def __init__(self, at, advice, form):
        super().__init__(advice)
        self.at, self.advice, self.form = at, advice, form


class Reader:
    """The parts of a text with their places, read from the front; `wrong` has what is out of range, in order."""

    def __init__(self, text, greatest):
        self.parts = [(it.group(), it.start()) for it in re.finditer(r'[A-Za-z_]\w*|\d+|[^ \t]', text, re.A)]
        self.at, self.end, self.greatest, self.wrong = 0, len(text.rstrip()), greatest, []

    def next(self):
        return self.parts[self.at] if self.at < len(self.parts) else ('', self.end)

    def take(self, form, is_due, due):
        """The next part with its place, if it is due."""
        text, at = self.next()
        if not is_due(text):
            raise Misfit(at, f'`{text}` stands where {due} is due' if text else f'{due} is missing here', form)
        self.at += 1
        return text, at

    def take_mark(self, form, mark):
        return self.take(form, lambda text: text == mark, f'`{mark}`')

    def take_number(self, form, due):
        text, at = self.take(form, lambda text: re.fullmatch('[0-9]+', text), due)
        if int(text) > self.greatest:
            raise Misfit(at, f'a number is at most {self.greatest}', form)
        return int(text), at


class Form:
    """What a label or a value, or a part of one, is to look like."""

    def due(self):
        """What is due where this form is."""
        raise NotImplementedError

    def example(self):
        """A text of this form."""
        raise NotImplementedError

    def parts(self):
        """The parts of it, each with the letter by which `due` names it."""
        return []

    def read(self, reader):
        """Takes a text of this form; raises a misfit where it hasn't the shape."""
        raise NotImplementedError


class Number(Form):
    """A number of a range; without an upper end where `high` is None."""

    def __init__(self, low, high):
        self.low, self.high = low, high

    def due(self):
        if self.high is None:
            return 'a number from 0 up'
        return f'a number from {self.low} to {self.high}' if self.low < self.high else f'the number {self.low}'

    def example(self):
        return str(self.low)

    def read(self, reader):
        number, at = reader.take_number(self, self.due())
        if number < self.low or (self.high is not None and number > self.high):
            reader.wrong.append(Misfit(at, f'`{number}` is out of range: {self.due()} is due here', self))


class Name(Form):
    """A name of a table: any word has its shape."""

    def __init__(self, names, what):
        self.names, self.what = names, what

    def due(self):
        return either(self.names)

    def example(self):
        return self.names[0]

    def read(self, reader):
        name, at = reader.take(self, lambda text: re.match(r'[A-Za-z_]', text), self.due())
        if name not in self.names:
            reader.wrong.append(Misfit(at, f'`{name}` is no {self.what} of the table: {self.due()} is due here', self))


class Fixed(Form):
    """A word that stands for itself."""

    def __init__(self, word):
        self.word = word

    def due(self):
        return f'`{self.word}`'

    def example(self):
        return self.word

    def opens(self, text):
        return text == self.word

    def read(self, reader):
        reader.take_mark(self, self.word)


class Signed(Form):
    """A sign and a number below a bound."""

    def __init__(self, sign, bound):
        self.sign, self.number = sign, Number(0, bound - 1)

    def due(self):
        return f'`{self.sign}0`' + (f' to `{self.sign}{self.number.high}`' if self.number.high else '')

    def example(self):
        return f'{self.sign}0'

    def opens(self, text):
        return text == self.sign

    def read(self, reader):
        reader.take_mark(self, self.sign)
        self.number.read(reader)


class Listed(Form):
    """Numbers below a bound between two marks; `once` says what a number that stands twice is: a misfit or wrong."""

    def __init__(self, marks, bound, once):
        self.marks, self.number, self.once = marks, Number(0, bound - 1), once

    def due(self):
        once = ', each at most once' if self.once else ''
        return f'`{self.marks[0]}..{self.marks[1]}` of numbers from 0 to {self.number.high}{once}'

    def example(self):
        return self.marks[0] + '0' + self.marks[1]

    def read(self, reader):
        reader.take(self, lambda text: text == self.marks[0], self.due())
        seen = set()
        is_first = True
        while reader.next()[0] != self.marks[1]:
            if not is_first:
                reader.take(self, lambda text: text == ',', f'`,` or `{self.marks[1]}`')
            is_first = False
            text, at = reader.next()
            self.number.read(reader)
            if int(text) in seen and self.once:
                again = Misfit(at, f'`{text}` stands there twice', self)
                if self.once == 'shape':
                    raise again
                reader.wrong.append(again)
            seen.add(int(text))
        reader.take_mark(self, self.marks[1])


class Group(Form):
    """Parts with letters, and the marks before, between and after them, as `(`, `,` and `)`."""

    def __init__(self, marks, members):
        self.marks, self.members = marks, members

    def spelled(self, texts):
        """The group with these texts for its parts."""
        front, *others = (''.join(it) for it in self.marks)
        return front + ''.join(text + mark for text, mark in zip(texts, others))

    def due(self):
        return f'`{self.spelled(letter for letter, _ in self.members)}`'

    def example(self):
        return self.spelled(form.example() for _, form in self.members)

    def parts(self):
        return self.members

    def opens(self, text):
        return text == self.marks[0][0]

    def read(self, reader):
        (first, *front), *others = self.marks
        reader.take(self, lambda text: text == first, self.due())
        for mark in front:
            reader.take_mark(self, mark)
        for (_, form), marks in zip(self.members, others):
            form.read(reader)
            for mark in marks:
                reader.take_mark(self, mark)


class Either(Form):
    """One of several forms, which their first parts tell apart."""

    def __init__(self, forms):
        self.forms = forms

    def due(self):
        return either([form.due() for form in self.forms])

    def example(self):
        return self.forms[0].example()

    def parts(self):
        return [part for form in self.forms for part in form.parts()]

    def read(self, reader):
        first = reader.next()[0]
        for form in self.forms:
            if form.opens(first):
                return form.read(reader)
        return reader.take(self, lambda text: False, self.due())


def pair(first, second, mark=','):
    return Group(('(', mark, ')'), [('X', first), ('Y', second)])


def sides(first, second):
    return Either([Group(('l:', ''), [('X', first)]), Group(('r:', ''), [('Y', second)])])


def value_form(tree):
    """The form of the values of an expression."""
    operator = tree.operator
    if operator == 'add':
        return Number(0, None)
    if operator in ('cap', 'worst', 'op', 'width', 'lp'):
        return Number(0, tree.numbers[0])
    if operator in ('seq', 'simseq'):
        return Listed('[]', tree.numbers[0], 'carrier' if operator == 'simseq' else '')
    if operator in ('tags', 'guard'):
        return Listed('{}', tree.numbers[0], 'shape')
    if operator == 'gate':
        return Fixed('unit')
    if operator == 'table':
        return Name(tree.values, 'value')
    if operator in ('plus', 'left', 'right'):
        return value_form(tree.parts[0])
    first, second = map(value_form, tree.parts)
    return pair(first, second) if operator in ('lex', 'scoped') else sides(first, second)


def base_label_form(tree):
    """The form of the labels of a base algebra or a table."""
    operator, numbers = tree.operator, tree.numbers
    if operator == 'table':
        return Name(tree.rows, 'row')
    if operator == 'gate':
        return Either([Fixed('allow'), Fixed('deny')])
    if operator == 'op':
        return Fixed('keep')
    if operator == 'tags':
        return Either([Fixed('keep'), Signed('+', numbers[0]), Signed('-', numbers[0])])
    if operator == 'guard':
        return Either([Signed('?', numbers[0]), Signed('!', numbers[0])])
    if operator in ('seq', 'simseq'):
        return Number(0, numbers[0] - 1)
    return Number(0, numbers[0]) if operator == 'lp' else Number(*numbers[-2:])


def label_form(tree):
    """The form of the labels of an expression."""
    if tree.operator == 'left':
        return value_form(tree.parts[0])
    if tree.operator == 'right':
        return Fixed('keep')
    if not tree.parts:
        return base_label_form(tree)
    first, second = map(label_form, tree.parts)
    if tree.operator == 'lex':
        return pair(first, second)
    if tree.operator == 'sum':
        return pair(first, second, '|')
    if tree.operator == 'scoped':
        out = Group((('out', '('), ',', ')'), [('X', first), ('V', value_form(tree.parts[1]))])
        return Either([out, Group((('in', '('), ')'), [('Y', second)])])
    return sides(first, second)


def form_lines(form, wrong, letter='', depth=0):
    """The form part by part, a line each; the part that is wrong is marked."""
    is_wrong = form is wrong or (isinstance(form, Either) and wrong in form.forms)
    where = ', where' if form.parts() else ''
    lines = ['  ' * depth + letter + form.due() + where + ('   <- here' if is_wrong else '')]
    for below, part in form.parts():
        lines += form_lines(part, wrong, f'{below}: ', depth + 1)
    return lines


def tail_advice(text, what):
    """What to say of what stands after a whole label or value."""
    return {
        ';': 'a line of a network file has no `;` at its end',
        '/': 'a comment starts with `#`',
        '\r': 'a carriage return stands inside the line: only one at its very end is dropped',
    }.get(text, f'`{text}` stands after the end of the {what}')


def fault_of(text, form, greatest, what):
    """The first fault of a text that is to have a form: of its shape, else of what is out of range; None if none."""
    reader = Reader(text, greatest)
    try:
        form.read(reader)
        tail, at = reader.next()
        if tail:
            raise Misfit(at, tail_advice(tail, what), None)
    except Misfit as fault:
        return fault
    return reader.wrong[0] if reader.wrong else None


def literal_advice(text, what, policy, greatest=None):
    """The place in the text and the advice for a refused label or value; the advice's further lines show the form."""
    profile, tree = policy
    form = label_form(tree) if what == 'label' else value_form(tree)
    fault = fault_of(text, form, greatest or GREATEST[profile], what)
    if fault is None:
        return 0, f'`{text}` is no {what} of this policy', []
    advice = fault.advice
    if what == 'value' and text.strip() == 'none':
        advice = 'a node without a route has no `origin` line: `none` is no value'
    lines = form_lines(form, fault.form)
    if len(lines) == 1 and fault.form is form:
        return fault.at, advice, []
    if len(lines) > LINES:
        lines = [*lines[:LINES], '..']
    return fault.at, advice, [f'a {what} of this policy, such as {form.example()}, is', *('  ' + it for it in lines)]
