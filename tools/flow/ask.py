"""Asks the built program about a session, given as a text, and gives its answer as plain objects; docs/PYTHON.md has an example.

Each call takes the session's text, `cycles` and `ops` as limits in place of the session's, and `large` for the limits of designs of
real size. NoAnswer tells that the session is refused, or that memory ran out; NotBuilt that the program has to be built first.
"""
from flow.answers import read_depths, read_least, read_log, read_path, read_run, read_stalls, read_sweep
from flow.limits import options_of
from flow.program import Program


def told(words, text, cycles=None, ops=None, large=False):
    """The text of an answer."""
    program = Program()
    program.need()
    return program.answer([*words, *options_of(large, cycles, ops)], text.encode('ascii'))


def run(text, events=False, cycles=None, ops=None, large=False):
    """What the design does, and after each edit: a Run."""
    return read_run(told(['run'] + ['--events'] * events, text, cycles, ops, large))


def stalls(text, cycles=None, ops=None, large=False, polls=False):
    """Where time is lost: Stalls, with `polls` also how the modules poll."""
    return read_stalls(told(['stalls'] + ['--polls'] * polls, text, cycles, ops, large))


def path(text, events=False, cycles=None, ops=None, large=False, polls=False):
    """What makes the latency: a Path, which with `polls` follows what modules poll for."""
    return read_path(told(['path'] + ['--events'] * events + ['--polls'] * polls, text, cycles, ops, large))


def log(text, cycles=None, ops=None, large=False):
    """What each access gave: a Log."""
    return read_log(told(['log'], text, cycles, ops, large))


def size(text, cycles=None, ops=None, large=False, slack=0):
    """The smallest depths that lose at most `slack` clocks: Depths."""
    return read_depths('size', told(['size'] + ['--slack', str(slack)] * bool(slack), text, cycles, ops, large))


def least(text, cycles=None, ops=None, large=False, slack=0):
    """The depths of the fewest bits of FIFO memory that lose at most `slack` clocks: LeastDepths."""
    return read_least(told(['least'] + ['--slack', str(slack)] * bool(slack), text, cycles, ops, large))


def advise(text, cycles=None, ops=None, large=False):
    """Depths with which no FIFO is ever full: Depths."""
    return read_depths('advise', told(['advise'], text, cycles, ops, large))


def sweep(text, low, high, cycles=None, ops=None, large=False):
    """The verdict for each choice of depths: a Sweep."""
    return read_sweep(told(['sweep', str(low), str(high)], text, cycles, ops, large))
