"""Places the nodes of a picture: neighbours near each other, no node on another or on a line between others.

Distances on the plane follow those in the graph: stress majorization (Gansner, Koren and North 2004), from several
starts, of which the one with the fewest crossings is kept. Then nodes are pushed off each other and off lines. Nothing
depends on chance, so a network has the same picture each time. Points of the plane are complex numbers.
"""

import cmath
import itertools
import math

STARTS, ROUNDS = 10, 120
# With more lines than this, crossings aren't counted: that would take minutes.
MANY_LINES = 300
GAP = 16
# A line of this length has room for its label, also where nodes with many neighbours want longer ones.
LABEL_LINE = 150


def distances(count, lengths):
    """The length of the shortest way between each two nodes, inf where there is none."""
    far = [[0.0 if a == b else math.inf for b in range(count)] for a in range(count)]
    for (a, b), length in lengths.items():
        far[a][b] = far[b][a] = length
    for middle in range(count):
        for row in far:
            before = row[middle]
            if before < math.inf:
                for b, after in enumerate(far[middle]):
                    if before + after < row[b]:
                        row[b] = before + after
    return far


def components(far):
    """The nodes of each connected part, in order."""
    found = []
    for a, row in enumerate(far):
        if not any(a in part for part in found):
            found.append([b for b, length in enumerate(row) if length < math.inf])
    return found


def starts_of(count, far):
    """Where the nodes may stand first: on a circle in several orders, and in places that a fixed rule scatters."""
    middle = min(range(count), key=lambda a: max(far[a]))
    orders = [list(range(count)), sorted(range(count), key=lambda a: (far[0][a], a)),
              sorted(range(count), key=lambda a: (far[middle][a], a))]
    size = max(map(max, far)) / 2 or 1
    for order in orders:
        yield [cmath.rect(size, 2 * math.pi * order.index(a) / count) for a in range(count)]
    number = 1
    for _ in range(STARTS - len(orders)):
        places = []
        for _ in range(2 * count):
            number = number * 1103515245 + 12345 & 0x7fffffff
            places.append(size * (number / 0x40000000 - 1))
        yield [complex(*it) for it in zip(places[::2], places[1::2])]


def weights_of(far, lines):
    """How much the distance of each two nodes counts: near ones more than far ones, and lines of nodes with many
    neighbours most, so that these stand around and not on one side."""
    weights = [[length ** -2 if length else 0.0 for length in row] for row in far]
    ends = [end for line in lines for end in line]
    for a, b in lines:
        factor = 1 + max(ends.count(a), ends.count(b)) / 4
        weights[a][b], weights[b][a] = weights[a][b] * factor, weights[b][a] * factor
    return weights


def relaxed(points, far, weights):
    """The points moved until their distances are near those of the graph."""
    count = len(points)
    totals = [sum(row) for row in weights]
    for _ in range(ROUNDS):
        moved = 0.0
        for a in range(count):
            at, total = points[a], 0j
            for b, (weight, length) in enumerate(zip(weights[a], far[a])):
                if weight:
                    step = at - points[b]
                    total += weight * (points[b] + length * (step / abs(step) if step else cmath.rect(1, a)))
            points[a] = total / totals[a]
            moved = max(moved, abs(points[a] - at))
        if moved < 0.3:
            break
    return points


def side(a, b, c):
    return ((b - a).conjugate() * (c - a)).imag


def is_crossing(a, b, c, d):
    return side(a, b, c) * side(a, b, d) < 0 and side(c, d, a) * side(c, d, b) < 0


def faults(points, far, lines, sizes):
    """How bad a layout is: crossings and nodes on lines, and then how far distances are off."""
    stress = sum((abs(points[a] - points[b]) / length - 1) ** 2
                 for a, row in enumerate(far) for b, length in enumerate(row[:a]))
    if len(lines) > MANY_LINES:
        return 0, stress
    crossings = sum(is_crossing(points[a], points[b], points[c], points[d])
                    for (a, b), (c, d) in itertools.combinations(lines, 2) if not {a, b} & {c, d})
    hits = sum(abs(push_off(points, sizes, node, line)) > 6 for line in lines for node in range(len(points)))
    return crossings + 2 * hits, stress


def tangles(points, sizes, lines, node):
    """How many crossings and nodes on lines a node has a part in."""
    found = 0
    for a, b in lines:
        found += 2 * (abs(push_off(points, sizes, node, (a, b))) > 6)
        if node in (a, b):
            found += 2 * sum(abs(push_off(points, sizes, other, (a, b))) > 6 for other in range(len(points)))
            found += sum(is_crossing(points[a], points[b], points[c], points[d])
                         for c, d in lines if not {a, b} & {c, d})
    return found


def untangled(points, sizes, lines):
    """The points, of which each that has a part in a crossing is moved to where there are fewer, round its neighbours'
    middle."""
    # Among many lines a place with fewer crossings is no better to look at.
    for node in list(range(len(points))) * 2 if len(lines) <= 2 * len(points) else []:
        near = [points[b if a == node else a] for a, b in lines if node in (a, b)]
        best = tangles(points, sizes, lines, node)
        if not near or not best:
            continue
        middle, place = sum(near) / len(near), points[node]
        reach = sum(abs(it - place) for it in near) / len(near)
        rings = [cmath.rect(reach * ring, 2 * math.pi * turn / 12)
                 for ring in ((0.4, 0.8, 1.3) if len(near) > 1 else (0.7, 1.0, 1.3)) for turn in range(12)]
        for step in (0j, *rings):
            points[node] = middle + step
            found = tangles(points, sizes, lines, node)
            best, place = (found, points[node]) if found < best else (best, place)
        points[node] = place
    return points


def stretched(points, lengths):
    """The points moved away from each other alike, until no line is much too short for its label."""
    short = [length / (abs(points[a] - points[b]) or 1) for (a, b), length in lengths.items()]
    factor = max(1.0, min(2.0, max(short) * 0.9))
    return [it * factor for it in points]


def push_off(points, sizes, node, line):
    """How a node has to move to be off a line between two others; 0 where it is."""
    a, b = points[line[0]], points[line[1]]
    along = b - a
    if node in line or not along:
        return 0j
    part = ((points[node] - a) * along.conjugate()).real / abs(along) ** 2
    if not 0 < part < 1:
        return 0j
    away = along * 1j / abs(along)
    off = ((points[node] - a) * away.conjugate()).real
    needed = sizes[node].real / 2 * abs(away.real) + sizes[node].imag / 2 * abs(away.imag) + GAP / 2
    return away * math.copysign(max(0.0, needed - abs(off)), off)


def push_apart(points, sizes, a, b, gap=GAP):
    """How b has to move to stand off a, the short way; 0 where it does."""
    step, room = points[b] - points[a], (sizes[a] + sizes[b]) / 2
    across, down = room.real + gap - abs(step.real), room.imag + gap - abs(step.imag)
    if across <= 0 or down <= 0:
        return 0j
    if across < down:
        return complex(math.copysign(across, step.real), 0)
    return complex(0, math.copysign(down, step.imag))


def push_along(points, line, length):
    """How the end of a short line has to move from its start, so that a label has room."""
    step = points[line[1]] - points[line[0]]
    return step / (abs(step) or 1) * max(0.0, 0.75 * min(length, LABEL_LINE) - abs(step))


def spread(points, sizes, lengths):
    """The points pushed off each other, off lines, and from the other ends of short lines."""
    watched = lengths if len(lengths) <= MANY_LINES else {}
    for _ in range(200):
        moved = 0.0
        for a, b in itertools.combinations(range(len(points)), 2):
            push = push_apart(points, sizes, a, b)
            points[a] -= push / 2
            points[b] += push / 2
            moved = max(moved, abs(push))
        for line, length in watched.items():
            push = push_along(points, line, length)
            points[line[0]] -= push / 2
            points[line[1]] += push / 2
            moved = max(moved, abs(push))
            for node in range(len(points)):
                push = push_off(points, sizes, node, line)
                points[node] += push / 3
                for end in line:
                    points[end] -= push / 6
                moved = max(moved, abs(push))
        if moved < 0.5:
            break
    return cleared(points, sizes)


def cleared(points, sizes):
    """The points without any node on another: pushed, and where that doesn't end, moved away from the middle."""
    pairs = list(itertools.combinations(range(len(points)), 2))
    while any(push_apart(points, sizes, a, b, 4) for a, b in pairs):
        for _ in range(20):
            for a, b in pairs:
                push = push_apart(points, sizes, a, b)
                points[a] -= push / 2
                points[b] += push / 2
        points = [it * 1.03 + complex(at, -at) * 1e-3 for at, it in enumerate(points)]
    return points


def turned(points):
    """The points turned so that they are wider than high, and the first stands left and above."""
    middle = sum(points) / len(points)
    points = [it - middle for it in points]
    angle = cmath.phase(sum(it * it for it in points)) / 2 if len(points) > 1 else 0
    points = [it * cmath.rect(1, -angle) for it in points]
    right, below = points[0].real > 1e-6, points[0].imag > 1e-6
    return [complex(-it.real if right else it.real, -it.imag if below else it.imag) for it in points]


def part_layout(part, far, lengths, sizes):
    """The points of a connected part, by its nodes."""
    inner = {node: at for at, node in enumerate(part)}
    lengths = {(inner[a], inner[b]): length for (a, b), length in lengths.items() if a in inner}
    far, sizes = [[far[a][b] for b in part] for a in part], [sizes[a] for a in part]
    if len(part) == 1:
        return {part[0]: 0j}
    found, weights = [], weights_of(far, list(lengths))
    for start in starts_of(len(part), far):
        points = turned(relaxed(start, far, weights))
        found.append((faults(points, far, list(lengths), sizes), points))
    best = min(found, key=lambda it: (it[0][0], round(it[0][1], 6)))[1]
    best = turned(untangled(best, [it / 2 for it in sizes], list(lengths)))
    return dict(zip(part, spread(stretched(best, lengths), sizes, lengths)))


def box_of(points, sizes):
    """The corners of the box around points of these sizes."""
    return (complex(min(it.real - size.real / 2 for it, size in zip(points, sizes)),
                    min(it.imag - size.imag / 2 for it, size in zip(points, sizes))),
            complex(max(it.real + size.real / 2 for it, size in zip(points, sizes)),
                    max(it.imag + size.imag / 2 for it, size in zip(points, sizes))))


def placed(sizes, lengths):
    """A point for each node. Sizes are width and height as a complex number, lengths those wanted of the lines."""
    far, found = distances(len(sizes), lengths), {}
    parts = [part_layout(it, far, lengths, sizes) for it in components(far)]
    boxes = [box_of(list(it.values()), [sizes[a] for a in it]) for it in parts]
    area = sum(((b - a).real + 40) * ((b - a).imag + 40) for a, b in boxes)
    width = max([math.sqrt(area) * 1.3] + [(b - a).real for a, b in boxes])
    at, row_height = 0j, 0.0
    for part, (low, high) in zip(parts, boxes):
        size = high - low
        if at.real and at.real + size.real > width:
            at, row_height = complex(0, at.imag + row_height + 40), 0.0
        found.update({node: point - low + at for node, point in part.items()})
        at, row_height = at + size.real + 40, max(row_height, size.imag)
    return [found[node] for node in range(len(sizes))]
