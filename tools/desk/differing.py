"""The first difference of two sessions: verdicts, outputs, blocked modules, and the first access that differs, with its clock."""
import itertools

from flow.answers import read_run
from flow.program import ANSWERED

SAME, DIFFERENT, TROUBLE = 0, 1, 2  # statuses, as of diff


def first_place(one, other):
    """Where two lists differ first."""
    return next(at for at, (a, b) in enumerate(itertools.zip_longest(one, other)) if a != b)


def tell_outputs(one, other):
    """Tells, for each sink, where its values differ first."""
    for name in dict.fromkeys([*one, *other]):
        a, b = one.get(name), other.get(name)
        if a is None or b is None:
            print(f'out {name}: only in the {"second" if a is None else "first"}')
        elif a != b:
            at = first_place(a, b)
            values = [values[at] if at < len(values) else 'no value' for values in (a, b)]
            print(f'out {name}: {len(a)} and {len(b)} values; value {at} is {values[0]}, and {values[1]}')


def tell_held(one, other):
    """Tells, for each module that waits for ever in one of the two, what it waits for in both."""
    waits = [{entry.module: f'{entry.side} {entry.channel}' for entry in held} for held in (one, other)]
    for name in dict.fromkeys(itertools.chain(*waits)):
        told = [held.get(name, 'not held') for held in waits]
        if told[0] != told[1]:
            print(f'held {name}: {told[0]}, and {told[1]}')


def tell_access(one, other):
    """Tells the first access that differs, off two logs."""
    accesses = [[line for line in log.splitlines() if line.startswith('access ')] for log in (one, other)]
    if accesses[0] != accesses[1]:
        at = first_place(*accesses)
        told = [lines[at] if at < len(lines) else 'no more access' for lines in accesses]
        print(f'access {at}:\n  {told[0]}\n  {told[1]}')


def tell_difference(ask, texts, limits):
    """Tells how the answers to two texts differ, and gives the status."""
    answers = [ask(['run', *limits], text) for text in texts]
    for number, (answer, status) in enumerate(answers, 1):
        if status not in ANSWERED:
            print(f'session {number}: {answer.strip()}')
    if any(status not in ANSWERED for _, status in answers):
        return TROUBLE
    one, other = (read_run(answer).reports[0] for answer, _ in answers)
    logs = [ask(['log', *limits], text)[0] for text in texts]
    if one == other and logs[0] == logs[1]:
        print('the same')
        return SAME
    if one.verdict != other.verdict:
        print(f'verdict {one.verdict}, and {other.verdict}')
    tell_outputs(one.outputs, other.outputs)
    tell_held(one.held, other.held)
    tell_access(*logs)
    return DIFFERENT
