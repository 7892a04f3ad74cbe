"""The built program: where it is, and how to ask it."""
import os
import signal
import subprocess
import threading
from typing import NamedTuple

from flow.refused import NO_PROGRAM, REFUSED_SESSION, WRONG_WORDS, Refused

TOP = os.path.dirname(os.path.dirname(os.path.dirname(os.path.realpath(__file__))))
REASONS = {WRONG_WORDS: 'the words are refused', REFUSED_SESSION: 'the session is refused', 8: 'out of memory'}
STATUSES = {'done': 0, 'deadlock': 3, 'cycles': 4, 'ops': 5}  # of the verdicts
ANSWERED = tuple(STATUSES.values())  # the statuses of whole answers


class NotBuilt(Refused):
    """There is no built program, or its source is newer."""

    def __init__(self, text):
        super().__init__(NO_PROGRAM, text)


class TookTooLong(Exception):
    """The program was stopped before it had answered."""


class NoAnswer(Refused):
    """The program gave no whole answer. `status` is its exit status, and negative where a signal ended it."""

    def __init__(self, words, status, told):
        reason = told or REASONS.get(status, f'no answer, status {status}')
        super().__init__(status, f'omnisim {" ".join(words)}: {reason}')


class Answer(NamedTuple):
    """What the program wrote, and its exit status."""
    text: str
    status: int


def ask(words, text):
    """What ./omnisim answers to a session (bytes), and its status. Where no program is built, an unproved build answers."""
    done = subprocess.run([os.path.join(TOP, 'omnisim'), *words], input=text, stdout=subprocess.PIPE, check=False)
    return Answer(done.stdout.decode('ascii', 'replace'), done.returncode)


class Program:
    """The program of a checkout; `top` is its folder."""

    def __init__(self, top=TOP):
        self.top = top
        self.path = os.path.join(top, 'crates', 'sim_cli', 'out', 'sim_cli')

    def need(self):
        """Raises NotBuilt where there is no program of today's source."""
        if not os.access(self.path, os.X_OK):
            raise NotBuilt('the program is not built; ./omnisim --build proves and builds it once')
        if self.is_old():
            raise NotBuilt('the built program is older than its source; ./omnisim --build proves and builds it')

    def is_built(self):
        """Whether there is a program of today's source."""
        return os.access(self.path, os.X_OK) and not self.is_old()

    def is_old(self):
        """Whether some source file is newer than the program."""
        built = os.stat(self.path).st_mtime_ns
        crates = os.path.join(self.top, 'crates')
        sources = [os.path.join(self.top, 'crates.txt')]
        for crate in os.listdir(crates):
            for folder, _, names in os.walk(os.path.join(crates, crate, 'src')):
                sources += [os.path.join(folder, name) for name in names]
        return any(os.stat(path).st_mtime_ns > built for path in sources)

    def start(self, words, text):
        """Starts the program on a session (bytes). Its standard output is a pipe, which the caller reads and closes."""
        surroundings = {'MALLOC_ARENA_MAX': '1', **os.environ}
        child = subprocess.Popen([self.path] + words, stdin=subprocess.PIPE, stdout=subprocess.PIPE,
                                 stderr=subprocess.DEVNULL, env=surroundings)
        try:  # it reads the whole session before it writes
            child.stdin.write(text)
            child.stdin.close()
        except BrokenPipeError:
            pass
        return child

    def ask(self, words, text):
        """The whole answer to a session (bytes), whatever its status."""
        child = self.start(words, text)
        with child.stdout:
            told = child.stdout.read()
        return Answer(told.decode('ascii', 'replace'), child.wait())

    def answer_within(self, seconds, words, text):
        """The text of an answer to an accepted session, which may take so long. Raises TookTooLong, or NoAnswer."""
        child = self.start(words, text)
        timer = threading.Timer(seconds, child.kill)
        timer.start()
        with child.stdout:
            told = child.stdout.read().decode('ascii', 'replace')
        status = child.wait()
        timer.cancel()
        if status == -signal.SIGKILL:
            raise TookTooLong(f'omnisim {" ".join(words)} took more than {seconds} s')
        if status not in ANSWERED:
            raise NoAnswer(words, status, '')
        return told

    def answer(self, words, text):
        """The text of an answer to an accepted session. Raises NoAnswer where there is none."""
        given = self.ask(words, text)
        if given.status not in ANSWERED:
            raise NoAnswer(words, given.status, given.text.strip() if given.status == REFUSED_SESSION else '')
        return given.text
