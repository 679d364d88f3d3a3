"""Where functions stand in a program, by the table of symbols of its ELF file."""

import struct

from runs.words import Refused, read_file

SYMBOL_TABLE = 2


def places_of(path, names):
    """The place of each of these functions from the program's base, in the order of the names."""
    data = read_file(path)
    if data[:6] != b'\x7fELF\x02\x01':
        raise Refused(f'{path}: it is no ELF file of 64 bits')
    table, size, count = struct.unpack_from('<Q', data, 40)[0], *struct.unpack_from('<HH', data, 58)
    sections = [struct.unpack_from('<IIQQQQIIQQ', data, table + number * size) for number in range(count)]
    found = {}
    for _, kind, _, _, at, length, link, _, _, _ in sections:
        if kind != SYMBOL_TABLE:
            continue
        texts = sections[link][4]
        for entry in range(at, at + length, 24):
            name, _, _, _, value, _ = struct.unpack_from('<IBBHQQ', data, entry)
            text = data[texts + name:data.index(b'\0', texts + name)]
            found[text.decode('ascii', 'replace')] = value
    missing = [name for name in names if not found.get(name)]
    if missing:
        raise Refused(f'{path}: it has no function {missing[0]}')
    return [found[name] for name in names]
