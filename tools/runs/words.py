"""How a tool takes its words, prints its answer and ends."""

import argparse
import os
import sys

PASSED, DIFFERS, TROUBLE = 0, 1, 2


class Refused(Exception):
    """Why a tool gives no answer: one line, which standard error shows after the tool's name."""


class Unwritten(Exception):
    """Why standard output took no more, or None where its reader has ended."""


class Words(argparse.ArgumentParser):
    """A parser of words that refuses in one line, and leaves `--help` to `end`."""

    def __init__(self):
        super().__init__(add_help=False, allow_abbrev=False)

    def error(self, message):
        raise Refused(f'{message} (--help shows the usage)')


def write_out(text):
    """Writes the whole answer at once, so that no refusal comes after a part of it."""
    if sys.stdout is None:
        raise Unwritten('it is closed')
    try:
        sys.stdout.buffer.write(text.encode('utf-8', 'surrogateescape'))
        sys.stdout.buffer.flush()
    except OSError as error:
        # Python flushes standard output once more at its end, which must not fail a second time.
        os.dup2(os.open(os.devnull, os.O_WRONLY), sys.stdout.fileno())
        raise Unwritten(None if isinstance(error, BrokenPipeError) else error.strerror) from None


def read_file(path, limit=-1):
    """The bytes of a file, at most so many."""
    try:
        with open(path, 'rb') as file:
            return file.read(limit)
    except (OSError, ValueError) as error:
        raise Refused(f'{path}: {getattr(error, "strerror", None) or error}') from None


def write_file(path, content):
    try:
        with open(path, 'wb') as file:
            file.write(content)
    except (OSError, ValueError) as error:
        raise Refused(f'{path}: {getattr(error, "strerror", None) or error}') from None


def end(name, usage, carry_out, asks_help=lambda words: '--help' in words, unwritten=TROUBLE):
    """Carries out the words of a tool, and ends with the status that it gives."""
    words = sys.argv[1:]
    try:
        if asks_help(words):
            write_out(usage.strip() + '\n')
            sys.exit(PASSED)
        sys.exit(carry_out(words))
    except Refused as refusal:
        print(f'{name}: {refusal}', file=sys.stderr)
        sys.exit(TROUBLE)
    except Unwritten as fault:
        if fault.args[0]:
            print(f'{name}: standard output took no more: {fault}', file=sys.stderr)
        sys.exit(unwritten)
    except KeyboardInterrupt:
        sys.exit(130)
