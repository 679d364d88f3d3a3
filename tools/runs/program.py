"""Runs the program with words, and says what its status means."""

import os
import shutil
import subprocess
import sys

from runs.words import Refused

TOP = os.path.dirname(os.path.dirname(os.path.dirname(os.path.realpath(__file__))))
# The script that runs the program of this repository.
SCRIPT = os.path.join(TOP, 'meta')
MEANINGS = {
    0: 'the command was carried out',
    1: 'the words were refused',
    2: 'the expression, the network or the report was refused',
    3: 'a label on an arc does not have a property that the command needs, or a required property fails',
    4: 'the turns were spent',
    5: 'a file could not be read',
    6: 'standard output took no more',
    7: 'out of memory',
    8: 'a file is too long',
    70: 'there is no program to answer',
}


def meaning_of(status):
    if status > 128:
        return f'ended by signal {status - 128}'
    return MEANINGS.get(status, 'no status of the program')


class Ran:
    """What a run of the program gave: its status, as a shell has it, and its standard output."""

    def __init__(self, status, text):
        self.status, self.text, self.meaning = status, text, meaning_of(status)


class Program:
    """The program in a file, which is run without a shell."""

    def __init__(self, file):
        found = file if os.path.isfile(file) else shutil.which(file)
        if not found:
            raise Refused(f'{file}: there is no such program')
        # A name without a slash would be looked for on PATH.
        self.file, self.found, self.said = file, os.path.join(os.getcwd(), found), set()

    def run(self, words, error=subprocess.PIPE):
        """Runs it with the words. Of what it says on standard error, each line is shown once."""
        try:
            # Files that the caller has open stay open: a word may be /dev/fd/63.
            ran = subprocess.run([self.found, *words], stdout=subprocess.PIPE, stderr=error, close_fds=False)
        except (OSError, ValueError) as fault:
            raise Refused(f'{self.file}: {getattr(fault, "strerror", None) or fault}') from None
        for line in (ran.stderr or b'').decode('utf-8', 'replace').splitlines():
            if line not in self.said:
                self.said.add(line)
                print(line, file=sys.stderr)
        status = ran.returncode if ran.returncode >= 0 else 128 - ran.returncode
        try:
            return Ran(status, ran.stdout.decode('ascii'))
        except UnicodeDecodeError:
            raise Refused(f'{self.file}: what it printed is not ASCII') from None
