"""Tells what a report means."""
import re

from explain.budgets import most_ops_reached, out_of_operations
from explain.language import count_of, plain, table
from explain.session import asks_outcomes
from flow.circles import circles_of
from flow.limits import STANDARD, limits_of


def reason_of(session, module, waiting, spent):
    """Why what a blocked module waits for does not come."""
    other = session.awaited(*waiting[module])
    if other is None:
        return 'whose input values are used up'
    if other == module:
        return 'which only the module itself could give'
    if other in waiting:
        return f'which {other} would give, and {other} waits too'
    return f'which {other} would give, and {other} has ended' + (' or is out of operations' if spent else '')


def tell_waits(session, held, spent):
    """Tells what each blocked module waits for, and who waits for whom in a circle. Some module may be out of operations."""
    waiting = {entry.module: (entry.side, entry.channel) for entry in held}
    for module, (side, channel) in waiting.items():
        want = 'an element in' if side == 'empty' else 'a place in'
        print(f'  {module} waits for {want} {channel}, {reason_of(session, module, waiting, spent)}.')
    for circle in circles_of({module: session.awaited(*wait) for module, wait in waiting.items()}):
        links = [f'{one} waits for {other}' for one, other in zip(circle, circle[1:] + circle[:1])]
        print('  In a circle: ' + ', '.join(links) + '.')


def remedy_of(kind, held, row, options, session):
    """What to do about a verdict."""
    if kind == 'deadlock' and held and all(entry.side == 'empty' for entry in held):
        depths = 'more depth helps only where it changes the outcome of a query' if asks_outcomes(session) else 'no depth helps'
        return (f'every blocked module waits for data, so {depths}: give a source more input, or let the module that is waited for '
                'write earlier, more often, or at all')
    blocked, full = {entry.module for entry in held}, [entry for entry in held if entry.side == 'full']
    if kind == 'deadlock' and full and all(session.awaited(entry.side, entry.channel) not in blocked for entry in full):
        return ('whoever should read has ended: let it read on, or let the writer stop; a deeper FIFO helps only if the writer comes to '
                'its end')
    if kind == 'ops' and most_ops_reached(options, session):
        more = ', or give more operations with --large' if limits_of(options) is STANDARD else ''
        return f'mend a loop that never ends, or simulate fewer values: the operation limit is the greatest that there is{more}'
    return plain(row[2])


def tell_meaning(verdict, held, options, session):
    """Tells what a verdict means, and what to do about it."""
    for row in table('verdicts'):
        name, letter = row[0].strip('`').split()
        if name == verdict.kind:
            meaning = re.sub(rf'\b{letter}\b', str(verdict.clock), plain(row[1]))
            print(f'  {meaning[0].upper()}{meaning[1:]}.')
            if row[2]:
                print(f'  What to do: {remedy_of(verdict.kind, held, row, options, session)}.')


def tell_outputs(outputs):
    """Tells how far each sink came."""
    for name, values in outputs.items():
        told = f', the last of them {values[-1]}' if len(values) > 1 else f': {values[0]}' if values else ''
        print(f'  Sink {name} got {count_of(len(values), "value") if values else "no values"}{told}.')


def tell_report(report, options, text, session, known):
    """Tells a report; `known` has the verdicts whose meaning was told, and the outputs of the report before."""
    edit = session.edits[report.number - 1] if report.number else None
    title = f'After edit {report.number} (depth {" ".join(edit)})' if edit else 'The design as it is'
    kind = report.verdict.kind
    print(f'{title}: {kind} {report.verdict.clock}.')
    if kind not in known:
        known[kind] = True
        tell_meaning(report.verdict, report.held, options, session)
    if report.outputs != known.get('out'):
        tell_outputs(report.outputs)
    known['out'] = report.outputs
    tell_waits(session, report.held, kind == 'ops')
    if kind == 'ops' and report.number == 0:
        print(f'  {out_of_operations(options, text, session, report.held)}')
