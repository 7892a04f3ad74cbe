"""The rows of a page's tables: modules, ports and FIFOs, as texts."""
from dataclasses import dataclass

from flow.session import POPS, PUSHES
from report.counts import percent, told, told_or_dash
from report.facts import too_shallow

SLOWER = 1.05  # times its loop's interval; beyond it a port is marked


def by_side(stalls, module, side):
    """The clocks in which a module stalls because some channel is empty, or full."""
    return sum(stall.clocks for stall in stalls.stalls if stall.module == module and stall.side == side)


def causes_of(stalls, module):
    """Why a module stalls, the longest first."""
    found = sorted((stall for stall in stalls.stalls if stall.module == module), key=lambda stall: -stall.clocks)
    return [{'channel': stall.channel, 'side': stall.side, 'clocks': told(stall.clocks)} for stall in found]


def module_rows(facts):
    """The modules, those with the most stalls first."""
    rows, clock = [], facts.verdict.clock
    for time in sorted(facts.stalls.modules, key=lambda time: -time.still):
        empty, full = (by_side(facts.stalls, time.module, side) for side in ('empty', 'full'))
        rows.append({
            'name': time.module, 'moved': told(time.moved), 'still': told(time.still), 'empty': told(empty),
            'full': told(full), 'shares': [percent(part, clock) for part in (time.moved, empty, full)],
            'causes': causes_of(facts.stalls, time.module),
        })
    return rows


@dataclass(frozen=True)
class Wanted:
    """What a body asks of a port: its II, or None for a plain block, and how often an iteration uses the port.

    It is sure where each use is a `read` or a `write` without a guard.
    """
    interval: int
    times: int
    is_sure: bool

    def text(self):
        if self.interval is None:
            return 'block'
        return told(self.interval) if self.times == 1 else f'{told(self.interval)} for {self.times}'


def wanted_of(session, port):
    """What each body of a module asks of a port that it uses."""
    kinds = POPS if port.side == 'pop' else PUSHES
    module = next(module for module in session.modules if module.name == port.module)
    found = []
    for block in module.blocks:
        used = [made for made in block.operations if made.kind in kinds and made.channel.name == port.channel]
        is_sure = all(made.guard is None and made.kind == kinds[0] for made in used)
        if used:
            found.append(Wanted(block.interval if block.go else None, len(used), is_sure))
    return found


def is_slow(port, wanted):
    """Whether a port of a single loop, which uses it in every iteration, is slower than the loop asks for."""
    if port.interval is None or len(wanted) != 1 or wanted[0].interval is None or not wanted[0].is_sure:
        return False
    return port.interval > SLOWER * wanted[0].interval / wanted[0].times


def port_row(session, port):
    wanted = wanted_of(session, port)
    return {
        'module': port.module, 'side': port.side, 'channel': port.channel,
        'verb': 'pops' if port.side == 'pop' else 'pushes',
        'count': told(port.count), 'first': told(port.first), 'last': told(port.last), 'slow': is_slow(port, wanted),
        'interval': '–' if port.interval is None else f'{port.interval:,.2f}'.removesuffix('.00'),
        'wanted': ', '.join(dict.fromkeys(one.text() for one in wanted)),
    }


def fifo_rows(facts):
    rows, shallow, clock = [], too_shallow(facts), facts.verdict.clock
    held = {time.fifo: time for time in facts.stalls.fifos}
    for fifo in facts.session.fifos():
        time, size = held[fifo.name], facts.size and facts.size.depths[fifo.name]
        partly = clock - time.empty - time.full
        rows.append({
            'name': fifo.name, 'width': fifo.width, 'depth': told(fifo.depth), 'most': told(time.most),
            'empty': told(time.empty), 'full': told(time.full), 'size': told_or_dash(size),
            'advise': told(facts.advise.depths[fifo.name]), 'bits': told(fifo.width * fifo.depth),
            'size_bits': told_or_dash(size and fifo.width * size), 'shallow': fifo.name in shallow,
            'shares': [percent(part, clock) for part in (partly, time.empty, time.full)],
        })
    return rows


def size_note(facts):
    """What the depths of `size` give."""
    if facts.size is None:
        return f'The smallest depths are not known: size took more than {facts.wait} s and was stopped (--wait).'
    found, now = facts.size.verdict, facts.verdict
    if not found.is_done:
        return (f'With the depths of size, which are the advised ones, the design is not done either: {found.kind} '
                f'{told(found.clock)}.')
    promise = '' if facts.asks_outcomes else ', the smallest that lose no time'
    today = f'and now in clock {told(now.clock)}' if now.is_done else 'and now it is not done'
    change = 'as now' if found == now else today
    return f'With the depths of size{promise}, the design is done in clock {told(found.clock)}, {change}.'


def spent_rows(path):
    """The modules of the chain, those with the most clocks first."""
    spent = sorted(path.spent, key=lambda spend: -spend.clocks)
    longest = max([spend.clocks for spend in spent], default=1)
    return [{'name': spend.module, 'clocks': told(spend.clocks), 'share': spend.clocks / longest} for spend in spent]


def crossed_rows(path):
    """The channels that the chain crosses, and then those that it goes back through to what was polled for."""
    crossed = [{'side': cross.side, 'channel': cross.channel, 'count': told(cross.count)} for cross in path.crossed]
    return crossed + [{'side': 'polled', 'channel': poll.channel, 'count': told(poll.count)} for poll in path.polled]
