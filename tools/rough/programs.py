"""Which program the tools run that use it roughly."""

import os

from runs.program import TOP
from runs.words import Refused

PROVED = os.path.join(TOP, 'crates/meta/out/meta')
UNPROVED = os.path.join(TOP, 'crates/meta/out/unproved/meta')


def built_program(named=None):
    """The program that was named, or the proved one, or the unproved one where that alone is built."""
    if named and not (os.path.isfile(named) and os.access(named, os.X_OK)):
        raise Refused(f'{named}: there is no such program')
    for path in (named, PROVED, UNPROVED):
        if path and os.access(path, os.X_OK):
            return os.path.abspath(path)
    raise Refused('no program is built: ./meta --build builds the proved one, and any command the unproved one')
