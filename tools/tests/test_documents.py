"""Tests of what the documents' tables say."""

import os
import re
import unittest

from support import TOP, built, needs_program, run


@needs_program
class Operators(unittest.TestCase):
    """The table of verdicts on examples/operators in docs/language.md."""

    def test_verdicts(self):
        with open(os.path.join(TOP, 'docs/language.md'), encoding='utf-8') as file:
            table = file.read().split('| File | monotone |')[1].split('\n\n')[0]
        rows = re.findall(r'(?m)^\| `(\w+)`[^|]*\| (\w+) \| (\w+) \| (\w+) \| (\w+) \| (\w+) \|$', table)
        names = sorted(it[:-5] for it in os.listdir(os.path.join(TOP, 'examples/operators')))
        self.assertEqual(sorted(row[0] for row in rows), names)
        for name, *verdicts in rows:
            out = run([built, 'check', os.path.join(TOP, f'examples/operators/{name}.raml')])[1]
            self.assertEqual([line.split()[1].rstrip(':') for line in out.splitlines()], verdicts, name)
