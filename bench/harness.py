"""What the scripts of bench/ share: where things are, their words, the examples, the built program, and what it tells.

It puts tools/ on the path.
"""
import argparse
import glob
import os
import shutil
import subprocess
import sys

TOP = os.path.dirname(os.path.dirname(os.path.realpath(__file__)))
sys.path.insert(0, os.path.join(TOP, 'tools'))
from flow.answers import READERS  # noqa: E402
from flow.program import Program  # noqa: E402

PROGRAM = Program().path


def count(word):
    """A word that is a number, 0 or more."""
    if not word.isdecimal():
        raise argparse.ArgumentTypeError(f'{word!r} is no number')
    return int(word)


class Parser(argparse.ArgumentParser):
    """The words of a script, by its docstring, which --help prints. Wrong words end it with one line and the status 2."""

    def __init__(self, docstring):
        super().__init__(prog=f'bench/{os.path.basename(sys.argv[0])}', description=docstring, allow_abbrev=False)

    def format_help(self):
        return self.description

    def error(self, message):
        self.exit(2, f'{self.prog}: {message}; {self.prog} --help tells the words\n')

    def options(self):
        """The words of the command line. A program that is not there is a wrong word."""
        found = self.parse_args()
        asked = getattr(found, 'program', None)
        if asked and not shutil.which(asked):
            self.error(f'there is no program {asked}' + ('; ./omnisim --build builds it' if asked == PROGRAM else ''))
        return found

    def take_count(self, name, default):
        """Takes one more word, a number, that may be left out."""
        self.add_argument(name, metavar=name.upper(), nargs='?', type=count, default=default)
        return self

    def take_program(self, default=PROGRAM):
        """Takes one more word, PROGRAM, that may be left out for the program that ./omnisim builds, or another default."""
        self.add_argument('program', metavar='PROGRAM', nargs='?', default=default)
        return self


def examples():
    """The sessions of examples/, each with the name of its file."""
    for path in sorted(glob.glob(os.path.join(TOP, 'examples', '*.flow'))):
        with open(path, encoding='ascii') as file:
            yield os.path.basename(path), file.read()


def told(program, words, text, seconds=600):
    """What the program writes to a session, in bytes, and its status."""
    ran = subprocess.run([program, *words], input=text, stdout=subprocess.PIPE, timeout=seconds, check=False)
    return ran.stdout, ran.returncode


def answer(program, words, text):
    """What the program answers to a session's text, as the plain objects of flow.answers."""
    return READERS[words[0]](told(program, words, text.encode())[0].decode())
