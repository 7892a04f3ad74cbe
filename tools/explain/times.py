"""Of a design that is done or deadlocked: where its time is lost, and which depths matter."""
from explain.budgets import endless_pushes
from explain.language import count_of
from explain.program import answer
from explain.session import asks_outcomes
from flow.depths import with_depths

MOST_NAMED = 8  # FIFOs in one sentence
MOST_STALLS = 5  # that are told


def missed_by(module, queries):
    """The queries that a module made in vain, in words."""
    return ', '.join(f'{query.missed:,} of {query.tried:,} {query.kind} of {query.channel}'
                     for query in queries if query.module == module and query.missed)


def tell_polls(found):
    """Tells the modules that poll longest, and what for."""
    for polls in sorted(found.polls, key=lambda entry: -entry.clocks)[:MOST_STALLS]:
        print(f'  {polls.module} polls in vain for {count_of(polls.clocks, "clock")}: {missed_by(polls.module, found.queries)} '
              '(omnisim stalls --polls).')


def tell_stalls(options, text, session):
    """Tells the modules that stall most, those that poll, and FIFOs that nothing goes through."""
    found = answer('stalls', options + ['--polls'] * asks_outcomes(session), text)
    if found is None:
        return
    for stall in sorted(found.stalls, key=lambda entry: -entry.clocks)[:MOST_STALLS]:
        print(f'  {stall.module} stalls for {count_of(stall.clocks, "clock")}: {stall.channel} is {stall.side}.')
    if not found.stalls:
        print('  No module ever stalls.')
    tell_polls(found)
    for fifo in found.fifos:
        if fifo.most == 0:
            print(f'  Nothing ever goes through {fifo.fifo}.')


def tell_chain(options, text, session):
    """Tells what makes the latency, and, of a design without queries, whether depths can change it."""
    polls = ['--polls'] * asks_outcomes(session)
    found = answer('path', options + polls, text)
    if found is None:
        return
    where = [f'{count_of(entry.clocks, "clock")} in {entry.module}' for entry in sorted(found.spent, key=lambda entry: -entry.clocks)]
    full = [entry.channel for entry in found.crossed if entry.side == 'full']
    if where:
        print(f'  The chain that makes the latency spends {", ".join(where)} ({" ".join(["omnisim path"] + polls)}).')
    if asks_outcomes(session):
        return
    if full:
        print(f'  Deepening can help at {", ".join(full)}: there the chain that makes the latency waits for a place.')
    elif session.depths:
        print("  No FIFO's depth can change that: the latency is the least that any depths give.")


def tell_time(options, text, session, verdict):
    """Of a design that is done: where time is lost, what makes the latency, and whether FIFO depths matter."""
    tell_stalls(options, text, session)
    tell_chain(options, text, session)
    tell_places(options, text, session, verdict)


def changes_of(session, sizes):
    """Which FIFOs get another depth, in words."""
    named = [f'{name} {depth} (now {session.depths[name]})' for name, depth in sizes.items() if depth != session.depths.get(name)]
    more = f' and {len(named) - MOST_NAMED} more' if len(named) > MOST_NAMED else ''
    return ', '.join(named[:MOST_NAMED]) + more


def outputs_of(options, text):
    """The outputs of the design, without its edits."""
    found = answer('run', options, text)
    return found.reports[0].outputs if found else {}


def tell_other_outputs(options, text, session, sizes):
    """Of a design with queries: whether its outputs are others with these depths."""
    if asks_outcomes(session):
        changed = with_depths(text.decode('ascii', 'replace'), sizes).encode()
        now, then = outputs_of(options, text), outputs_of(options, changed)
        differ = [name for name in now if now[name] != then.get(name)]
        if differ:
            print(f'  But then the outputs of {", ".join(differ)} differ from those now, since queries have other outcomes.')


def tell_places(options, text, session, verdict):
    """Of a design that is done: how many places its FIFOs need, and which."""
    found = answer('size', options, text) if session.depths else None
    if found is None:
        return
    have, need = sum(session.depths.values()), sum(found.depths.values())
    changes = changes_of(session, found.depths)
    if found.verdict == verdict and need < have:
        print(f'  The FIFOs have {count_of(have, "place")}; {need:,} lose{"s" if need == 1 else ""} nothing: {changes} (omnisim size).')
    elif found.verdict.is_done and found.verdict.clock < verdict.clock:
        print(f'  With {count_of(need, "place")} in its FIFOs the design is done in clock {found.verdict.clock}: {changes} '
              '(omnisim size).')
    else:
        return
    tell_other_outputs(options, text, session, found.depths)


def tell_depths(options, text, session, held):
    """Of a deadlock in which somebody waits for a place: depths with which the design is done, if there are some."""
    found = answer('size', options, text)
    if found is None:
        return
    if found.verdict.is_done:
        deeper = [f'{name} {depth}' for name, depth in found.depths.items() if depth > session.depths[name] or asks_outcomes(session)]
        print(f'  With these depths it is done in clock {found.verdict.clock}: {", ".join(deeper)} (omnisim size).')
    elif not asks_outcomes(session):
        is_endless = found.verdict.kind == 'ops'
        endless = list(endless_pushes(options, text, session, held, found.depths)) if is_endless else []
        for told in endless:
            print(f'  {told}')
        if not endless:
            print('  Deeper FIFOs alone do not help: it is not done with any depths (omnisim advise).')
