"""Tests of the edits that the prover must refuse."""

import os
import unittest

from support import TOP, tool


class Edits(unittest.TestCase):
    """The edits of the gate and those outside it."""

    def test_each_can_be_applied(self):
        status, out, _ = tool('try_edits', '--look')
        self.assertEqual((status, out), (0, "0 edits can't be applied\n"))

    def test_a_crate_has_at_most_eight(self):
        for name in os.listdir(os.path.join(TOP, 'crates')):
            for folder in ('edits/' + name, f'crates/{name}/must-fail'):
                whole = os.path.join(TOP, folder)
                if os.path.isdir(whole):
                    self.assertLessEqual(len(os.listdir(whole)), 8, folder)

    def test_what_would_be_tried(self):
        out = tool('try_edits', '--list', 'meta_base')[1]
        self.assertIn('meta_base/', out)
        self.assertEqual(tool('try_edits', 'no_crate')[0], 2)
