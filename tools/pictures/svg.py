"""Writes a picture as SVG, with a layout of its own."""

import cmath
from xml.sax.saxutils import escape

from .layout import box_of, placed
from .network import BadInput
from .strands import colour_of, node_texts, strands_of

MOST_NODES = 60
SIZE, LINE, SMALL = 12, 15, 11
MARGIN, HEAD_LENGTH, HEAD_WIDTH = 16, 9, 4
LONGEST = 36
# With more lines than this, labels stand in the middle: to look for places would take minutes.
MANY_CURVES = 300
GREY = '#707070'
# Where on a line its label may stand, the best place first.
PLACES = (0.5, 0.42, 0.58, 0.35, 0.65, 0.28, 0.72)


def plain(text):
    """A text without what XML may not have."""
    return ''.join(it if it.isprintable() else '?' for it in text)


def shown(text):
    """A text as it is drawn: a long one is cut."""
    text = plain(text)
    return text if len(text) <= LONGEST else text[:LONGEST - 2] + '..'


def width_of(text, size=SIZE):
    """About how wide a text is: fonts differ, so rather too much."""
    return size * sum(0.34 if it in "ijlft|!.,:;'()[]{} " else 0.92 if it in 'mwMW@%' else 0.74 if it.isupper()
                      else 0.62 for it in text)


class Node:
    """A node with its texts; `at` is its middle, and `size` its width and height as a complex number."""

    def __init__(self, name, network, rows):
        self.name, self.at = name, 0j
        self.texts, self.is_origin = node_texts(name, network, rows)
        several = len({dest for dest, *_ in rows}) > 1
        self.texts = [(shown(text), colour_of(dest, network) if several else '#333333') for text, dest in self.texts]
        wide = max([width_of(name) * 1.06] + [width_of(text, SMALL) for text, _ in self.texts])
        self.size = complex(max(wide + 20, 34), LINE * (1 + len(self.texts)) + 12) + (6 + 6j) * self.is_origin

    def gap(self, point):
        """How far a point is from the border, below 0 inside."""
        half, step = self.size / 2, point - self.at
        round_by = min(half.real, half.imag, 14)
        off = complex(abs(step.real) - half.real + round_by, abs(step.imag) - half.imag + round_by)
        return abs(complex(max(off.real, 0), max(off.imag, 0))) + min(max(off.real, off.imag), 0) - round_by

    def drawn(self):
        yield '<g>'
        yield f'<title>{escape(self.name)}</title>'
        for inset in (0, 3) if self.is_origin else (0,):
            low, size = self.at - self.size / 2 + complex(inset, inset), self.size - 2 * complex(inset, inset)
            yield (f'<rect x="{low.real:.1f}" y="{low.imag:.1f}" width="{size.real:.1f}" height="{size.imag:.1f}" '
                   f'rx="{min(14 - inset, size.imag / 2):.1f}" fill="#ffffff" stroke="#222222"/>')
        top = self.at.imag - LINE * len(self.texts) / 2 + 4
        yield text_at(complex(self.at.real, top), self.name, SIZE, '#000000', ' font-weight="bold"')
        for number, (text, colour) in enumerate(self.texts, 1):
            yield text_at(complex(self.at.real, top + LINE * number), text, SMALL, colour)
        yield '</g>'


class Curve:
    """A strand between two nodes, bent by so much to the right of a line from the lesser to the greater name."""

    def __init__(self, strand, nodes, bend):
        self.strand, self.tail, self.head = strand, nodes[strand.tail], nodes[strand.head]
        along = self.head.at - self.tail.at
        self.away = along * 1j / abs(along)
        self.bend = bend
        self.middle = (self.tail.at + self.head.at) / 2 + self.away * 2 * bend

    def point(self, part):
        return (1 - part) ** 2 * self.tail.at + 2 * part * (1 - part) * self.middle + part ** 2 * self.head.at

    def leaves(self, node, inside, outside, gap):
        """The part of the curve at which it is so far from a node, between a part near it and one far off."""
        for _ in range(30):
            between = (inside + outside) / 2
            if node.gap(self.point(between)) < gap:
                inside = between
            else:
                outside = between
        return outside

    def ends(self):
        """The parts of the curve at which its tips are, and those between which its line is drawn."""
        tips = self.leaves(self.tail, 0.0, 0.5, 1), self.leaves(self.head, 1.0, 0.5, 1)
        line = (self.leaves(self.tail, 0.0, 0.5, HEAD_LENGTH - 1) if self.strand.is_both else tips[0],
                self.leaves(self.head, 1.0, 0.5, HEAD_LENGTH - 1))
        return tips, line

    def drawn(self):
        colour, width = self.strand.colour or GREY, 2.5 if self.strand.colour else 1.2
        (first, last), (start, end) = self.ends()
        mark = ' and back' if self.strand.is_both else ''
        yield '<g>'
        title = f'{self.strand.tail} to {self.strand.head}{mark} : {plain(self.strand.label)}'
        yield f'<title>{escape(title)}</title>'
        # The control point of the part of a parabola between two of its parts.
        control = (1 - start) * (1 - end) * self.tail.at + (start + end - 2 * start * end) * self.middle \
            + start * end * self.head.at
        yield (f'<path d="M{pair(self.point(start))} Q{pair(control)} {pair(self.point(end))}" fill="none" '
               f'stroke="{colour}" stroke-width="{width}"/>')
        yield head_at(self.point(last), self.point(end), colour)
        if self.strand.is_both:
            yield head_at(self.point(first), self.point(start), colour)
        yield '</g>'


class Label:
    """The label of a curve, which stands where least is below it."""

    def __init__(self, curve):
        self.curve, self.text = curve, shown(curve.strand.label)
        self.size = complex(width_of(self.text, SMALL) + 4, LINE - 1)
        self.at = self.place(0.5)

    def place(self, part, side=1):
        """The middle of the label at a part of its line: on a line alone, else outside of the bend."""
        (first, last), _ = self.curve.ends()
        at = self.curve.point(first + part * (last - first))
        if not self.curve.bend:
            return at
        away = self.curve.away * (1 if self.curve.bend > 0 else -1) * side
        room = self.size / 2
        return at + away * (abs(away.real) * room.real + abs(away.imag) * room.imag + 2)

    def settle(self, nodes, labels, curves):
        """Takes the first place of the least fault."""
        def fault(at):
            boxes = [(it.at, it.size, 20) for it in nodes] + [(it.at, it.size, 10) for it in labels]
            hit = sum(weight * overlap(at, self.size, *box) for *box, weight in boxes)
            lines = sum(is_near(it, at, self.size) for it in curves if it is not self.curve)
            return hit + lines
        self.at = min((self.place(it) for it in PLACES), key=fault)

    def drawn(self):
        low = self.at - self.size / 2
        if not self.curve.bend:
            yield (f'<rect x="{low.real:.1f}" y="{low.imag:.1f}" width="{self.size.real:.1f}" '
                   f'height="{self.size.imag:.1f}" fill="#ffffff"/>')
        yield text_at(self.at + 4j, self.text, SMALL, self.curve.strand.colour or '#444444')


def overlap(at, size, other_at, other_size):
    """How much of a box is on another, from 0 to 1."""
    step, room = at - other_at, (size + other_size) / 2
    across, down = room.real - abs(step.real), room.imag - abs(step.imag)
    return max(0, min(across / size.real, 1)) * max(0, min(down / size.imag, 1))


def is_near(curve, at, size):
    points = [curve.point(it / 24) for it in range(3, 22)]
    return any(abs(it.real - at.real) < size.real / 2 + 2 and abs(it.imag - at.imag) < size.imag / 2 + 1
               for it in points)


def pair(point):
    return f'{point.real:.1f},{point.imag:.1f}'


def head_at(tip, base, colour):
    """An arrow's head, whose tip is there."""
    along = (tip - base) / (abs(tip - base) or 1)
    foot = tip - along * HEAD_LENGTH
    return (f'<polygon points="{pair(tip)} {pair(foot + along * 1j * HEAD_WIDTH)} '
            f'{pair(foot - along * 1j * HEAD_WIDTH)}" fill="{colour}"/>')


def text_at(at, text, size, colour, more=''):
    return (f'<text x="{at.real:.1f}" y="{at.imag:.1f}" font-size="{size}" fill="{colour}"{more}>'
            f'{escape(text)}</text>')


def grouped(strands):
    """The strands of each two nodes."""
    found = {}
    for it in strands:
        found.setdefault(tuple(sorted((it.tail, it.head))), []).append(it)
    return found


def curves_of(groups, nodes):
    """A curve for each strand: alone it is straight; several stand side by side, those with labels outermost."""
    for (first, _), strands in groups.items():
        strands = [it for it in strands if it.tail == first] + [it for it in strands[::-1] if it.tail != first]
        for number, it in enumerate(strands):
            bend = ((len(strands) - 1) / 2 - number) * min(18, 60 / len(strands))
            yield Curve(it, nodes, -bend if it.tail == first else bend)


def lengths_of(groups, nodes, places):
    """How long the line between each two nodes is to be, so that its label and the neighbours of its ends have room."""
    ends_of_all = [it for ends in groups for it in ends]
    degrees = {it: ends_of_all.count(it) for it in nodes}

    def length(ends, strands):
        wide = max(width_of(shown(it.label), SMALL) for it in strands)
        needed = sum(nodes[it].size.real / 2 for it in ends) * 0.8 + max(wide, 20) + 2 * HEAD_LENGTH + 30
        return max(needed, 10 * max(degrees[it] for it in ends))
    return {tuple(places[it] for it in ends): length(ends, strands) for ends, strands in groups.items()}


def legend(network, rows, low):
    """A line for each destination, where there are several."""
    dests = [it for it in network.destinations() if it in {dest for dest, *_ in rows}]
    for number, dest in enumerate(dests if len(dests) > 1 else []):
        at = low + complex(0, 18 * number)
        yield (f'<path d="M{pair(at)} h24" fill="none" stroke="{colour_of(dest, network)}" stroke-width="2.5"/>'
               + text_at(at + 30 + 4j, f'routes to {dest}', SMALL, '#333333', ' text-anchor="start"'))


def drawn(network, rows, title):
    """The SVG of a network and rows."""
    if len(network.nodes) > MOST_NODES:
        raise BadInput(f'it has {len(network.nodes)} nodes, and --svg draws at most {MOST_NODES}; the text without '
                       '--svg, through Graphviz, has no such limit')
    nodes = {it: Node(it, network, rows) for it in network.nodes}
    places = {it: at for at, it in enumerate(nodes)}
    groups = grouped(strands_of(network, rows))
    points = placed([it.size for it in nodes.values()], lengths_of(groups, nodes, places))
    for node, point in zip(nodes.values(), points):
        node.at = point
    curves, labels = list(curves_of(groups, nodes)), []
    for curve in curves:
        if curve.strand.label:
            label = Label(curve)
            if len(curves) <= MANY_CURVES:
                label.settle(nodes.values(), labels, curves)
            labels.append(label)
    boxes = [*nodes.values(), *labels]
    low, high = box_of([it.at for it in boxes], [it.size for it in boxes])
    marks = list(legend(network, rows, complex(low.real, high.imag + 24)))
    high += complex(0, 18 * len(marks) + (10 if marks else 0))
    low, size = low - complex(MARGIN, MARGIN), high - low + 2 * complex(MARGIN, MARGIN)
    frame = f'{low.real:.0f} {low.imag:.0f} {size.real:.0f} {size.imag:.0f}'
    lines = ['<?xml version="1.0" encoding="UTF-8"?>',
             f'<svg xmlns="http://www.w3.org/2000/svg" width="{size.real:.0f}" height="{size.imag:.0f}" '
             f'viewBox="{frame}" font-family="Helvetica, Arial, sans-serif" text-anchor="middle">',
             f'<title>{escape(shown(title))}</title>',
             f'<rect x="{low.real:.0f}" y="{low.imag:.0f}" width="{size.real:.0f}" height="{size.imag:.0f}" '
             'fill="#ffffff"/>']
    for it in (*curves, *labels, *nodes.values()):
        lines += it.drawn()
    return '\n'.join([*lines, *marks, '</svg>'])
