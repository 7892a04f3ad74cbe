"""How a script takes its words, reads a file, and ends."""
import argparse
import os
import sys

from flow.limits import CYCLES, LARGE
from flow.refused import NO_PROGRAM, WRONG_WORDS, Refused


class Parser(argparse.ArgumentParser):
    """A parser that refuses wrong words in one line."""

    def error(self, message):
        raise Refused(WRONG_WORDS, f'{message}; {self.prog} --help tells the words')


def number_to(most):
    """Takes a number from 1 to this off the command line."""
    def taken(text):
        if not (text.isdecimal() and 1 <= int(text) <= most):
            raise argparse.ArgumentTypeError(f'{text!r} is no number from 1 to {most:,}')
        return int(text)
    return taken


def take_limits(parser, cycles=number_to(CYCLES), ops=number_to(LARGE.counted_operations)):
    """Takes the options for limits, whose numbers are of these types; limits.options_of gives them on to the program."""
    parser.add_argument('--large', action='store_true', help='the limits for designs of real size')
    parser.add_argument('--cycles', metavar='N', type=cycles, help="a cycle limit in place of the session's")
    parser.add_argument('--ops', metavar='N', type=ops, help="an operation limit in place of the session's")


def read_bytes(path):
    """The bytes of a file; `-` is standard input."""
    try:
        with open(0 if path == '-' else path, 'rb', closefd=path != '-') as file:
            return file.read()
    except OSError as fault:
        raise Refused(WRONG_WORDS, f'{path}: {fault.strerror}') from fault


def run(name, command):
    """Runs what a script does, which gives the status, and ends the script. A refusal is told in a line on standard error."""
    try:
        status = command()
        sys.stdout.flush()
    except Refused as refusal:
        print(f'{name}: {refusal}', file=sys.stderr)
        status = refusal.status if refusal.status > 0 else NO_PROGRAM  # a signal ended the program
    except BrokenPipeError:  # the reader of standard output went away
        os.dup2(os.open(os.devnull, os.O_WRONLY), sys.stdout.fileno())
        status = 0
    sys.exit(status)
