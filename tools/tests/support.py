"""What the tests of ./meta and of the scripts in tools/ share."""

import importlib.machinery
import importlib.util
import os
import shutil
import subprocess
import sys
import tempfile
import unittest

TOP = os.path.dirname(os.path.dirname(os.path.dirname(os.path.abspath(__file__))))
PROGRAM = 'crates/meta/out/meta'
# The program that the tests run; tools/test_tools sets it.
built = os.environ.get('META_TEST_PROGRAM') or os.path.join(TOP, PROGRAM)
needs_program = unittest.skipUnless(os.access(built, os.X_OK), 'no program is built')


def run(words, **how):
    """Runs the words, and gives the status, standard output and standard error."""
    ran = subprocess.run(words, stdin=subprocess.DEVNULL, stdout=subprocess.PIPE, stderr=subprocess.PIPE,
                         universal_newlines=True, timeout=60, **how)
    return ran.returncode, ran.stdout, ran.stderr


def loaded(name):
    """A script as a module, which leaves nothing in the tree."""
    sys.dont_write_bytecode = True
    loader = importlib.machinery.SourceFileLoader(name, os.path.join(TOP, 'tools', name))
    module = importlib.util.module_from_spec(importlib.util.spec_from_loader(name, loader))
    loader.exec_module(module)
    return module


def tool(name, *words):
    return run([sys.executable, os.path.join(TOP, 'tools', name), *words])


class Folder(unittest.TestCase):
    """Tests in a temporary folder, with files of given texts."""

    def setUp(self):
        self.folder = tempfile.mkdtemp(prefix='test-tools-')
        self.addCleanup(shutil.rmtree, self.folder)

    def file(self, name, content):
        path = os.path.join(self.folder, name)
        with open(path, 'wb') as file:
            file.write(content if isinstance(content, bytes) else content.encode())
        return path
