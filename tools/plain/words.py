"""A plain reader of the words of a command line: which fault they have, if any."""

import re

WORKERS, TURNS, REQUIRE = b'--workers', b'--turns', b'--require'
# For each command how few and how many arguments it takes, and its flags.
COMMANDS = {
    b'check': (1, 2, (REQUIRE,)), b'code': (1, 2, ()), b'gadget': (1, 1, ()), b'route': (2, 2, (WORKERS,)),
    b'hops': (2, 2, ()), b'stable': (2, 2, ()), b'settle': (2, 2, ()), b'run': (2, 2, (WORKERS, TURNS)),
    b'trace': (2, 2, (WORKERS, TURNS)), b'flood': (2, 2, (WORKERS, TURNS)),
    b'distance': (2, 2, (WORKERS, TURNS)), b'verify': (3, 3, ()), b'demo': (2, 2, ()),
}
RANGES = {WORKERS: (1, 16), TURNS: (0, 1000000)}
DEMO_RANGES = ((0, 18446744073709551615), (2, 512))
PROPERTIES = (b'monotone', b'strict', b'isotone', b'cancellative', b'total')


def is_number(word, low, high):
    return re.fullmatch(rb'[0-9]{1,20}', word) is not None and low <= int(word) <= high


def is_utf8(word):
    try:
        word.decode('utf-8')
    except UnicodeDecodeError:
        return False
    return True


def flags_and_arguments(words):
    """The flags with their values, None where that is missing, and the arguments."""
    flags, arguments, at = [], [], 0
    while at < len(words):
        if words[at].startswith(b'--'):
            flags.append((words[at], words[at + 1] if at + 1 < len(words) else None))
            at += 1
        else:
            arguments.append(words[at])
        at += 1
    return flags, arguments


def fault_of(words):
    """The fault of words, or ''."""
    if not words:
        return 'C1'
    if words[0] not in COMMANDS or not all(map(is_utf8, words)):
        return 'C2'
    few, many, known = COMMANDS[words[0]]
    flags, arguments = flags_and_arguments(words[1:])
    names = [name for name, _ in flags]
    if any(name not in known for name in names) or len(set(names)) < len(names):
        return 'C5'
    if any(value is None for _, value in flags) or not few <= len(arguments) <= many:
        return 'C3'
    numbers = [(value, RANGES[name]) for name, value in flags if name in RANGES]
    numbers += zip(arguments, DEMO_RANGES) if words[0] == b'demo' else []
    if any(not is_number(value, *bounds) for value, bounds in numbers):
        return 'C4'
    lists = [value.split(b',') for name, value in flags if name == REQUIRE]
    if any(set(it) - set(PROPERTIES) or len(set(it)) < len(it) for it in lists):
        return 'C6'
    return ''


def judge(words):
    """'', or the line that refuses the words."""
    fault = fault_of(words)
    return fault and f'words refused: {fault}'
