"""The rows that a policy gives on a network, by one of the commands that print rows, and how two of them differ."""

import argparse

from runs.program import SCRIPT, Program
from runs.texts import read_answer
from runs.words import Refused

BY = ('route', 'stable', 'settle', 'run')
MAX_TURNS = 1_000_000


def turns(text):
    """The word of --turns, which the program would refuse without its name."""
    if not (text.isascii() and text.isdigit() and len(text) <= 20 and int(text) <= MAX_TURNS):
        raise argparse.ArgumentTypeError(f'it is 0 to {MAX_TURNS:,} deliveries, written without commas, not {text}')
    return text


def add_options(parser):
    """The words that each tool over rows takes."""
    parser.add_argument('--by', choices=BY, default='run')
    parser.add_argument('--turns', type=turns)
    parser.add_argument('--program', default=SCRIPT)


def as_argument(path):
    """The word for a file: one that starts with two dashes would be a flag."""
    return './' + path if path.startswith('--') else path


def fault_of(refusal, files):
    """A refusal of the program over these files, as FILE:LINE: what is wrong."""
    kind, text = refusal['kind'], refusal['text']
    if kind == 'expression':
        return f'{files[0]}:{refusal["line"]}:{refusal["column"]}: expression refused: {refusal["fault"]}'
    if kind == 'network':
        return f'{files[1]}:{refusal["line"]}: network refused: {refusal["fault"]}'
    if 'of' in refusal:
        return f'{files[0] if refusal["of"] == "expression" else files[-1]}: {text}'
    return f'{files[-1]}: {text}'


class Commands:
    """The commands of one program whose answers the tools need."""

    def __init__(self, options):
        if options.turns is not None and options.by != 'run':
            raise Refused(f'--turns is for --by run, not for --by {options.by}')
        self.program, self.by = Program(options.program), options.by
        self.flags = [] if options.turns is None else ['--turns', options.turns]

    def answer(self, command, files, flags=(), named=None):
        """What the command gives on these files, whose names in a refusal are the second ones where they are given."""
        words = [command, *(as_argument(it) for it in files), *flags]
        ran = self.program.run(words)
        found = read_answer(words, ran)
        if ran.status == 1:
            raise Refused(f'{self.program.file}: {found["refusal"]["text"]}')
        if 'refusal' in found:
            raise Refused(fault_of(found['refusal'], named or files))
        if ran.status not in (0, 4):
            raise Refused(f'{self.program.file}: it ended with status {ran.status}: {ran.meaning}')
        return found

    def verdicts(self, files, named=None):
        return self.answer('check', files, named=named)['verdicts']

    def rows(self, policy, network, named=None):
        """The text of each row of the last phase, by node and destination in order."""
        named = named or (policy, network)
        found = self.answer(self.by, (policy, network), self.flags, named)
        if 'phases' in found:
            rows = rows_of_run(found['phases'], named[1])
        elif 'tables' in found:
            rows = rows_of_tables(found['tables'], named[1])
        else:
            rows = found['rows']
        return {(row['node'], dest): row_text(row) for dest, its_rows in rows.items() for row in its_rows}


def rows_of_run(phases, network):
    """The rows of the last phase by destination."""
    if phases[-1]['end'] == 'spent':
        total = sum(it['deliveries'] for it in phases)
        raise Refused(f'{network}: the run was spent after {total} deliveries, so its rows are no result '
                      '(--turns N allows more)')
    return phases[-1]['rows']


def rows_of_tables(tables, network):
    """The rows of the one stable table of each destination."""
    for dest, its_tables in tables.items():
        if len(its_tables) != 1:
            raise Refused(f'{network}: {dest} has {len(its_tables)} stable tables, so the rows are not known')
    return {dest: its_tables[0] for dest, its_tables in tables.items()}


def row_text(row):
    return 'none' if row['value'] is None else ' '.join([row['value'], *row['path']])


def changed(old, new):
    """The rows of both that differ, as (node, destination), in order."""
    return [key for key in old if key in new and old[key] != new[key]]
