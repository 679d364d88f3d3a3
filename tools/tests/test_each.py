"""What holds of each script in tools/."""

import os
import unittest

from support import TOP, tool

# What is no script, beside the folders.
OTHERS = ('raml.vim',)


class Each(unittest.TestCase):
    """The scripts, one after another."""

    def test_each_tool_says_what_it_is_for(self):
        folder = os.path.join(TOP, 'tools')
        for name in sorted(os.listdir(folder)):
            if name not in OTHERS and not os.path.isdir(os.path.join(folder, name)):
                status, out, _ = tool(name, '--help')
                self.assertEqual((status, f'tools/{name}' in out), (0, True), name)

    def test_words_that_are_none_are_refused_in_a_line(self):
        for name in ('check_docs', 'test_tools'):
            for words in (['--fast'], ['--program', '/nowhere/meta']):
                status, out, err = tool(name, *words)
                self.assertEqual((status, out, err.count('\n')), (2, '', 1), name)
                self.assertTrue(err.startswith(f'{name}: {words[-1]}: '), err)
