"""Starts a program many times, cheaply: without a shell, with its output in files of a folder in memory, and where a C
compiler is there, from a copy of it that stands before its main (served.c)."""

import os
import shutil
import signal
import struct
import subprocess
import tempfile

from runs.words import Refused

# The greatest output that is read back.
MOST_OUTPUT = 1 << 24
SHARED = '/dev/shm'
HERE = os.path.dirname(os.path.abspath(__file__))
# The descriptors of served.c.
ASKED, TOLD = 198, 199
LONG = struct.calcsize('l')


def status_of(code):
    """A status as a shell has it, of what wait gave."""
    return os.WEXITSTATUS(code) if os.WIFEXITED(code) else 128 + os.WTERMSIG(code)


def compiled(name, folder):
    """The library that is made of a C file beside this one, or None where there is no compiler."""
    compiler = shutil.which('cc') or shutil.which('gcc')
    library = os.path.join(folder, name + '.so')
    words = [compiler, '-O2', '-shared', '-fPIC', '-o', library, os.path.join(HERE, name + '.c'), '-ldl']
    if not compiler or subprocess.run(words, stderr=subprocess.DEVNULL).returncode:
        return None
    return library


class Started:
    """What a run gave: its status as a shell has it, seconds of a processor, kilobytes, and what it wrote."""

    def __init__(self, code, seconds, kilobytes, text, said):
        self.status, self.seconds, self.kilobytes = status_of(code), seconds, kilobytes
        self.text, self.said = text, said
        # Whether it was stopped as too slow, and how many requests for memory it made, where that is known.
        self.is_stopped, self.requests = False, None


class Server:
    """The program with some words, before its main."""

    def __init__(self, starts, words):
        asked, told = os.pipe(), os.pipe()
        environment = {**starts.environment, 'LD_PRELOAD': starts.library, 'SERVED_OUT': starts.out,
                       'SERVED_ERROR': starts.error}
        actions = [(os.POSIX_SPAWN_OPEN, 0, os.devnull, os.O_RDONLY, 0), (os.POSIX_SPAWN_DUP2, asked[0], ASKED),
                   (os.POSIX_SPAWN_DUP2, told[1], TOLD)]
        self.child = os.posix_spawn(starts.program, [starts.program, *words], environment, file_actions=actions)
        os.close(asked[0])
        os.close(told[1])
        self.asked, self.told = asked[1], told[0]

    def ask(self, number):
        """Has it go on in a child with that number of served.c, and gives the id of the child."""
        os.write(self.asked, struct.pack('l', number))
        return self.longs(1)[0]

    def longs(self, count):
        said = os.read(self.told, count * LONG)
        if len(said) < count * LONG:
            raise Refused('the program can\'t be stopped before its main')
        return struct.unpack(f'{count}l', said)

    def end(self):
        os.close(self.asked)
        os.close(self.told)
        os.waitpid(self.child, 0)


class Starts:
    """A program, and a temporary folder for the files that it reads and writes. To be used with `with`."""

    def __init__(self, program, seconds=600, environment=None):
        self.program, self.seconds = os.path.abspath(program), seconds
        self.environment = dict(os.environ) if environment is None else environment
        self.servers, self.child, self.is_stopped = {}, None, False

    def __enter__(self):
        self.room = tempfile.TemporaryDirectory(prefix='rough-', dir=SHARED if os.path.isdir(SHARED) else None)
        self.out, self.error = self.path('out'), self.path('error')
        self.old = signal.signal(signal.SIGALRM, self.stop)
        self.library = compiled('served', self.room.name)
        return self

    def __exit__(self, *_):
        for server in self.servers.values():
            server.end()
        signal.signal(signal.SIGALRM, self.old)
        self.room.cleanup()

    def path(self, name):
        return os.path.join(self.room.name, name)

    def file(self, name, content):
        """Writes a file there, in the place of the one of that name, and gives its path."""
        path = self.path(name)
        with open(path, 'wb') as file:
            file.write(content)
        return path

    def stop(self, *_):
        self.is_stopped = True
        if self.child:
            os.kill(self.child, signal.SIGKILL)

    def read_back(self, code, seconds, kilobytes):
        ran = Started(code, seconds, kilobytes, read_front(self.out), read_front(self.error))
        ran.is_stopped = self.is_stopped
        return ran

    def run(self, words):
        """Runs it with these words, and stops it after the seconds that a run may take."""
        flags = os.O_WRONLY | os.O_CREAT | os.O_TRUNC
        opened = ((0, os.devnull, os.O_RDONLY), (1, self.out, flags), (2, self.error, flags))
        actions = [(os.POSIX_SPAWN_OPEN, *it, 0o600) for it in opened]
        self.is_stopped = False
        self.child = os.posix_spawn(self.program, [self.program, *words], self.environment, file_actions=actions)
        signal.alarm(self.seconds)
        _, code, used = os.wait4(self.child, 0)
        self.child = None
        signal.alarm(0)
        return self.read_back(code, used.ru_utime + used.ru_stime, used.ru_maxrss)

    def run_again(self, words, refused=0):
        """The same for words that come often. `refused` is the number of served.c that says which memory is refused."""
        if not self.library:
            return self.run(words)
        server = self.servers.get(tuple(words))
        if not server:
            server = self.servers[tuple(words)] = Server(self, words)
        self.is_stopped = False
        self.child = server.ask(refused)
        signal.alarm(self.seconds)
        code, user, system, kilobytes, requests = server.longs(5)
        self.child = None
        signal.alarm(0)
        ran = self.read_back(code, (user + system) / 1e6, kilobytes)
        ran.requests = requests
        return ran


def read_front(path):
    file = os.open(path, os.O_RDONLY)
    try:
        return os.read(file, MOST_OUTPUT)
    finally:
        os.close(file)
