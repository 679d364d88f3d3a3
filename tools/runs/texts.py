"""Reads what a command of the program prints, into the members that docs/json.md describes.

Each line has to have a form that the command prints; any other is refused with its number. A command is one entry of
READERS, and a line that refuses is one of REFUSALS.
"""

import re

from runs.words import Refused

NAME = r'[A-Za-z0-9_.-]{1,32}'
PROPERTIES = ('monotone', 'strict', 'isotone', 'cancellative', 'total')
PROPERTY = '|'.join(PROPERTIES)
# What each argument of a command is called in a refusal.
FILES = ('expression', 'network', 'report')
FILE = '|'.join(FILES)
# The flags of the script that stand before a command.
SCRIPT_FLAGS = ('--proved', '--unproved')

NUMBER = r'\d{1,20}'
INSTANCE = r'(\S+) on (\S+)(?: and (\S+))? gives (\S+)(?: and (\S+))?'
ROW = rf'({NAME}) ({NAME}) (?:none|(?!none )(\S+)((?: {NAME})+))'
HOP_ROW = rf'({NAME}) ({NAME}) (?:(none)|(?!none )(\S+) (?:here|via ({NAME})))'
TABLES = rf'({NAME}) ({NUMBER}) stable'
END_OF_RUN = rf'(quiet|spent) ({NUMBER})'
DELIVERY = rf'({NUMBER}) ({NAME}) ({NAME})'
ARC = rf'arc ({NAME}) ({NAME}) (\S+)'
OPERATION = rf'({NUMBER}) ([a-z]+(?: (?:{NUMBER}|-))*)'
COUNTS = rf'nodes ({NUMBER}) arcs ({NUMBER})'
SUM = rf'({NAME}) reached ({NUMBER}) sum ({NUMBER})'
# Where no network file holds the gadget of a policy, this line stands in the place of its first one.
NO_GADGET = '# monotone no: no network file holds this instance'
GADGET = ('node p q', 'link p q : {label}', 'origin x at p : {value}', 'origin x at q : {value}',
          'then link q p : {label}', 'then drop p q', 'then link p q : {label}')


class Lines:
    """The lines of a text, which are taken one after another."""

    def __init__(self, text):
        if text and not text.endswith('\n'):
            raise Refused('what the program printed ends in the middle of a line')
        self.lines, self.at = text.split('\n')[:-1], 0

    def has_more(self):
        return self.at < len(self.lines)

    def has_next(self, pattern, after=0):
        """Whether the next line, or the one so many lines after it, has this form."""
        at = self.at + after
        return at < len(self.lines) and re.fullmatch(pattern, self.lines[at]) is not None

    def take(self, pattern):
        """The groups of the next line, which must have this form."""
        if not self.has_more():
            raise Refused(f'what the program printed ends too early, after line {self.at}')
        found = re.fullmatch(pattern, self.lines[self.at])
        if not found:
            raise self.unknown()
        self.at += 1
        return found.groups()

    def unknown(self, at=None):
        at = self.at if at is None else at
        return Refused(f'line {at + 1} of what the program printed is not known: {self.lines[at]}')

    def place_of(self, pattern):
        """How many lines stand before the next one of this form."""
        for place in range(self.at, len(self.lines)):
            if re.fullmatch(pattern, self.lines[place]):
                return place - self.at
        raise Refused('what the program printed ends too early: no line is quiet N or spent N')


def image(text):
    return None if text == 'none' else text


def instance_of(lines, text):
    """A label, and the values that it changes into others or into none."""
    found = re.fullmatch(INSTANCE, text)
    if not found or (found[3] is None) != (found[5] is None):
        raise lines.unknown(lines.at - 1)
    label, first, second, *images = found.groups()
    if second is None:
        return {'label': label, 'values': [first], 'images': [image(images[0])]}
    return {'label': label, 'values': [first, second], 'images': [image(it) for it in images]}


def missing_property(lines, name, listener, speaker, text):
    """The property that the label on an arc doesn't have."""
    arc = {'listener': listener, 'speaker': speaker}
    return {'property': name, 'arc': arc, 'instance': instance_of(lines, text)}


def read_verdict(lines, name, before=''):
    text, = lines.take(rf'{before}{name} (?:yes|no: (.+))')
    return {'holds': True} if text is None else {'holds': False, 'instance': instance_of(lines, text)}


def read_verdicts(lines):
    """The verdicts and, where a line more follows, the required property that fails."""
    found = {name: read_verdict(lines, name) for name in PROPERTIES}
    if not lines.has_more():
        return {'verdicts': found}
    name, = lines.take(rf'required: ({PROPERTY})')
    if found[name]['holds']:
        raise lines.unknown(lines.at - 1)
    return {'verdicts': found, 'required': name}


def read_gadget(lines):
    """The verdict on monotone, and the lines of the network file, whose first one is a comment with the verdict."""
    if lines.has_next(NO_GADGET):
        lines.take(NO_GADGET)
        return {'gadget': {'monotone': {'holds': False}, 'network': None}}
    verdict = read_verdict(lines, 'monotone', before='# ')
    if verdict['holds']:
        return {'gadget': {'monotone': verdict, 'network': None}}
    label, value = verdict['instance']['label'], verdict['instance']['values'][0]
    for form in GADGET:
        lines.take(re.escape(form.format(label=label, value=value)))
    return {'gadget': {'monotone': verdict, 'network': lines.lines[:lines.at]}}


def read_rows(lines, count):
    """So many rows, by destination."""
    found, nodes = {}, set()
    for _ in range(count):
        node, dest, value, path = lines.take(ROW)
        path = (path or '').split()
        if (path and path[0] != node) or (node, dest) in nodes:
            raise lines.unknown(lines.at - 1)
        nodes.add((node, dest))
        found.setdefault(dest, []).append({'node': node, 'value': value, 'path': path})
    return found


def read_table(lines):
    return {'rows': read_rows(lines, len(lines.lines))}


def read_stable_table(lines, dest, number):
    """A stable table of a destination, by its number. It ends before a line that is no row."""
    lines.take(f'table {number}')
    count = 0
    while lines.has_next(ROW, count):
        count += 1
    found = read_rows(lines, count)
    if list(found) != [dest]:
        raise lines.unknown(lines.at - 1)
    return found[dest]


def read_stable_tables(lines):
    """The stable tables of each destination."""
    found = {}
    while lines.has_more():
        dest, count = lines.take(TABLES)
        if dest in found:
            raise lines.unknown(lines.at - 1)
        found[dest] = [read_stable_table(lines, dest, number) for number in range(1, int(count) + 1)]
    return {'tables': found}


def read_delivery(lines):
    clock, listener, speaker = lines.take(DELIVERY)
    return {'clock': int(clock), 'listener': listener, 'speaker': speaker}


def read_phase(lines, number, is_traced):
    """A phase. How many of its lines are deliveries is what its last line says, since a row may look like one."""
    count = lines.place_of(END_OF_RUN)
    deliveries = int(re.fullmatch(END_OF_RUN, lines.lines[lines.at + count])[2])
    found = {'phase': number}
    if is_traced:
        found['journal'] = [read_delivery(lines) for _ in range(deliveries)]
        count -= deliveries
    found['rows'] = read_rows(lines, max(count, 0))
    found['end'] = lines.take(END_OF_RUN)[0]
    return {**found, 'deliveries': deliveries}


def read_phases(lines, is_traced):
    found = [read_phase(lines, 0, is_traced)]
    while lines.has_more() and found[-1]['end'] == 'quiet':
        lines.take(f'phase {len(found)}')
        found.append(read_phase(lines, len(found), is_traced))
    return {'phases': found}


def read_operations(lines):
    """The operations of one code, with the place of each taken off."""
    found = []
    while lines.has_next(OPERATION):
        found.append(lines.take(rf'({len(found)}) (.+)')[1])
    return found


def read_code(lines):
    lines.take('order')
    order, arcs = read_operations(lines), []
    while lines.has_more():
        listener, speaker, label = lines.take(ARC)
        arcs.append({'listener': listener, 'speaker': speaker, 'label': label, 'code': read_operations(lines)})
    return {'code': {'order': order, 'arcs': arcs}}


def read_summary(lines):
    nodes, arcs = lines.take(COUNTS)
    sums = []
    while lines.has_next(SUM):
        dest, reached, total = lines.take(SUM)
        sums.append({'destination': dest, 'reached': int(reached), 'sum': int(total)})
    end, = lines.take('(quiet)')
    return {'summary': {'nodes': int(nodes), 'arcs': int(arcs), 'destinations': sums, 'end': end}}


def read_hops(lines):
    """The next hops of all rows, by destination. The word `here` may stand before them."""
    found, nodes, places = {}, set(), []
    while lines.has_more():
        node, dest, value, words = lines.take(ROW)
        words = (words or '').split()
        if (node, dest) in nodes or len(set(words)) < len(words) - (words[:2] == ['here', 'here']):
            raise lines.unknown(lines.at - 1)
        nodes.add((node, dest))
        is_here = words[:1] == ['here']
        places += [lines.at] if is_here and words[1:2] != ['here'] else []
        found.setdefault(dest, []).append({'node': node, 'value': value, 'here': is_here, 'heads': words[is_here:]})
    if places and any(node == 'here' for node, _ in nodes):
        raise Refused(f'line {places[0]} of what the program printed has two meanings: a node is called here')
    return {'hops': found}


def no_walk(lines, node, dest):
    return {'holds': False, 'node': node, 'destination': dest, 'reason': 'no walk'}


def beaten(lines, node, dest, walk):
    if walk.split()[0] != node:
        raise lines.unknown(lines.at - 1)
    return {'holds': False, 'node': node, 'destination': dest, 'reason': 'beaten', 'walk': walk.split()}


def unsettled(lines, name, listener, speaker, text):
    return {'holds': None, **missing_property(lines, name, listener, speaker, text)}


def not_offered(lines, node, dest):
    return {'holds': False, 'node': node, 'destination': dest, 'reason': 'not offered'}


def better_offer(lines, node, dest, value, path):
    if path.split()[0] != node:
        raise lines.unknown(lines.at - 1)
    offer = {'value': value, 'path': path.split()}
    return {'holds': False, 'node': node, 'destination': dest, 'reason': 'better offer', 'offer': offer}


# The forms of the two lines of `verify`, each with what its members are made by.
OPTIMAL = (
    ('optimal yes', lambda lines: {'holds': True}),
    (rf'optimal no: ({NAME}) ({NAME}) isn\'t a walk of that value', no_walk),
    (rf'optimal no: ({NAME}) ({NAME}) is beaten by((?: {NAME})+)', beaten),
    (rf'optimal open: (isotone) fails on ({NAME}) ({NAME}): (.+)', unsettled),
)
STABLE = (
    ('stable yes', lambda lines: {'holds': True}),
    (rf'stable no: ({NAME}) ({NAME}) isn\'t offered', not_offered),
    (rf'stable no: ({NAME}) ({NAME}) has the better offer (\S+)((?: {NAME})+)', better_offer),
)


def read_finding(lines, forms):
    """The finding whose line has one of these forms."""
    for pattern, members_of in forms:
        if lines.has_next(pattern):
            return members_of(lines, *lines.take(pattern))
    # (no line has the first form either, so this says which line is not known)
    return lines.take(forms[0][0])


def read_judgement(lines):
    return {'judgement': {'optimal': read_finding(lines, OPTIMAL), 'stable': read_finding(lines, STABLE)}}


def read_run(lines):
    return read_phases(lines, is_traced=False)


def read_trace(lines):
    return read_phases(lines, is_traced=True)


def read_flood(lines):
    """The one phase of a flood."""
    return {'phases': [read_phase(lines, 0, is_traced=False)]}


def read_hop_rows(lines, count):
    """So many rows with their next hops, by destination. The own origin's value has none."""
    found, nodes = {}, set()
    for _ in range(count):
        node, dest, none, value, head = lines.take(HOP_ROW)
        if (node, dest) in nodes:
            raise lines.unknown(lines.at - 1)
        nodes.add((node, dest))
        is_here = none is None and head is None
        found.setdefault(dest, []).append({'node': node, 'value': value, 'here': is_here, 'next': head})
    return found


def read_distance(lines):
    """The one phase of an exchange of values."""
    rows = read_hop_rows(lines, lines.place_of(END_OF_RUN))
    end, deliveries = lines.take(END_OF_RUN)
    return {'phases': [{'phase': 0, 'rows': rows, 'end': end, 'deliveries': int(deliveries)}]}


# For each command the statuses that its answer may come with, and what reads the text of that.
READERS = {
    'check': ((0, 3), read_verdicts),
    'gadget': ((0,), read_gadget),
    'code': ((0,), read_code),
    'route': ((0,), read_table),
    'hops': ((0,), read_hops),
    'stable': ((0,), read_stable_tables),
    'settle': ((0,), read_table),
    'run': ((0, 4), read_run),
    'trace': ((0, 4), read_trace),
    'flood': ((0, 4), read_flood),
    'distance': ((0, 4), read_distance),
    'verify': ((0,), read_judgement),
    'demo': ((0,), read_summary),
}


def refused_words(lines, fault):
    return {'kind': 'words', 'fault': fault}


def refused_expression(lines, fault, line, column):
    return {'kind': 'expression', 'fault': fault, 'line': int(line), 'column': int(column)}


def refused_network(lines, fault, line):
    return {'kind': 'network', 'fault': fault, 'line': int(line)}


def refused_report(lines, fault, line):
    return {'kind': 'report', 'fault': fault, 'line': int(line)}


def refused_property(lines, *found):
    return {'kind': 'property', **missing_property(lines, *found)}


# Each line that refuses: the status that it comes with, its form, and its members.
REFUSALS = (
    (1, r'words refused: (C\d+)', refused_words),
    (2, rf'expression refused: (X\d+) at ({NUMBER}):({NUMBER})', refused_expression),
    (2, rf'network refused: (N\d+) at line ({NUMBER})', refused_network),
    (2, rf'report refused: (V\d+) at line ({NUMBER})', refused_report),
    (3, rf'({PROPERTY}) fails on ({NAME}) ({NAME}): (.+)', refused_property),
    (5, rf'read fault on the ({FILE})', lambda lines, which: {'kind': 'read', 'of': which}),
    (7, r'out of memory', lambda lines: {'kind': 'memory'}),
    (8, rf'too long: the ({FILE})', lambda lines, which: {'kind': 'length', 'of': which}),
)
# With other statuses the program ended in the middle, and what it had printed is no whole text. Status 7 is both.
WHOLE = (0, 1, 2, 3, 4, 5, 8)
MEMORY = 'out of memory\n'


def command_and_arguments(words):
    """The command among the words, or None, and its arguments, as docs/commands.md says how words are read."""
    words = list(words)
    while words and words[0] in SCRIPT_FLAGS:
        words.pop(0)
    arguments, rest = [], iter(words[1:])
    for word in rest:
        if word.startswith('--'):
            next(rest, None)
        else:
            arguments.append(word)
    return (words[0] if words else None), arguments


def read_refusal(lines, status, arguments):
    """The refusal that is the whole text, or None where it is no refusal."""
    for its_status, pattern, members_of in REFUSALS:
        if status == its_status and len(lines.lines) == 1 and lines.has_next(pattern):
            text = lines.lines[0]
            found = members_of(lines, *lines.take(pattern))
            which = found.get('of', found['kind'])
            place = FILES.index(which) if which in FILES else len(arguments)
            return {**found, **({'file': arguments[place]} if place < len(arguments) else {}), 'text': text}
    return None


def status_of(found):
    """The status that the program ends with after such an answer."""
    if 'required' in found:
        return 3
    return 4 if any(phase['end'] == 'spent' for phase in found.get('phases', [])) else 0


def read_whole(command, status, lines):
    """The members of the answer that a command printed to its end."""
    if command not in READERS:
        raise Refused(f'there is no reader of what {command} prints')
    statuses, reader = READERS[command]
    if status not in statuses:
        raise lines.unknown() if lines.has_more() else Refused(f'the program printed nothing, with status {status}')
    found = reader(lines)
    if lines.has_more():
        raise lines.unknown()
    if status_of(found) != status:
        raise Refused(f'the end that the program printed does not fit its status {status}')
    return found


def read_answer(words, ran):
    """The members for what a run with these words printed."""
    if ran.status not in WHOLE and ran.text != MEMORY:
        return {'front': ran.text.splitlines()} if ran.text else {}
    command, arguments = command_and_arguments(words)
    lines = Lines(ran.text)
    refusal = read_refusal(lines, ran.status, arguments)
    return {'refusal': refusal} if refusal else read_whole(command, ran.status, lines)
