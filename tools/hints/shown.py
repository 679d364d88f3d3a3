"""How a hint shows a place in a file."""

import difflib

LIMIT = 4194304
WIDTH = 100
MARK = b'\xef\xbb\xbf'


def read(name):
    with open(name, 'rb') as file:
        return file.read(LIMIT + 1)


def line_of(data, line):
    """The line of that number, from 1 on, without its end."""
    lines = data.split(b'\n')
    return lines[line - 1] if line <= len(lines) else b''


def place_of(data, at):
    """Line and column, from 1 on, of a place in the bytes."""
    line = data.count(b'\n', 0, at) + 1
    return line, at - (data.rfind(b'\n', 0, at) + 1) + 1


def pointed(name, data, line, column, advice):
    """The place and the advice, the line and a caret below the column, which counts bytes from 1 on."""
    text = line_of(data, line).rstrip(b'\r')
    start = max(0, column - 1 - WIDTH // 2) if len(text) > WIDTH else 0
    before = text[start:column - 1].decode('utf-8', 'replace')
    shown = before + text[column - 1:start + WIDTH].decode('utf-8', 'replace')
    room = ''.join(char if char == '\t' else ' ' for char in before)
    return f'{name}:{line}:{column}: {advice}\n  {shown}\n  {room}^'


def meant(word, known):
    """A question after a similar word among those known, or nothing."""
    near = difflib.get_close_matches(word, known, 1) or difflib.get_close_matches(word.lower(), known, 1)
    return f' (is `{near[0]}` meant?)' if near else ''


def either(words):
    """The words as `a, b or c`."""
    *front, last = words
    return f'{", ".join(front)} or {last}' if front else last
