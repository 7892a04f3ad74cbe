"""Where operations went: which modules used theirs up, and loops that never end."""
from explain.program import answer
from flow.depths import with_depths
from flow.limits import STANDARD, limits_of
from flow.session import POPS


def ops_of(options, session):
    """The operation limit that holds."""
    return int(options[options.index('--ops') + 1]) if '--ops' in options else session.ops or limits_of(options).default_operations


def most_ops_reached(options, session):
    return ops_of(options, session) >= limits_of(options).counted_operations


def more_ops(options, session):
    """More operations, to see who goes on: the most of a standard session or twice as many, and no more than there may be."""
    return min(max(2 * ops_of(options, session), STANDARD.counted_operations), limits_of(options).counted_operations)


def with_ops(options, ops):
    """The options with another operation limit."""
    kept = [option for at, option in enumerate(options) if '--ops' not in options[max(at - 1, 0):at + 1]]
    return kept + ['--ops', str(ops)]


def clocks_of(options, text):
    """Of each module the clocks in which it moves and in which it stalls."""
    found = answer('stalls', options, text)
    return {entry.module: (entry.moved, entry.still) for entry in found.modules} if found else {}


def out_of_operations(options, text, session, held):
    """Names the modules that used up their operations: those that go further with more. With the greatest limit some of the
    modules named may have ended in their own time."""
    blocked = {entry.module for entry in held}
    over = [module.name for module in session.modules if module.name not in blocked]
    if most_ops_reached(options, session):
        return f'Out of operations{"" if len(over) == 1 else ", or ended"}: {", ".join(over)}.'
    before, after = clocks_of(options, text), clocks_of(with_ops(options, more_ops(options, session)), text)
    spent = [name for name in over if before.get(name) != after.get(name)] or over
    return f'Out of operations: {", ".join(spent)}.'


def ports_of(options, text):
    """How many elements passed each port, by channel and side."""
    found = answer('stalls', options, text)
    return {(port.channel, port.side): port.count for port in found.ports} if found else {}


def endless_pushes(options, text, session, held, depths):
    """Of a design that uses up its operations with depths that never block: who pushes on although its reader has stopped."""
    ports = ports_of(options, with_depths(text.decode('ascii', 'replace'), depths).encode())
    for entry in held:
        readers = session.users(entry.channel, POPS)
        if entry.side == 'full' and readers and not any(other.module == readers[0] for other in held):
            pushed, popped = (ports.get((entry.channel, side), 0) for side in ('push', 'pop'))
            yield (f'{entry.module} pushed {pushed:,} elements on {entry.channel} and would go on; {readers[0]} stopped after '
                   f'{popped:,}. That is no question of depths: let the loop of {entry.module} end, or {readers[0]} read on.')
