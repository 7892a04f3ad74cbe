"""The summary of a page: the one thing to know, the figures, the outputs and the edits."""
from report.counts import count_of, told
from report.facts import bits_of, too_shallow

SHOWN = 6  # values at each end of an output


def part(text, pick=None):
    """A piece of a headline; with `pick` it is a name that can be chosen."""
    return {'text': text, 'pick': pick}


def shallow_headline(facts, shallow):
    """Names the FIFOs that are too shallow, with what they need."""
    now, found, parts = facts.verdict, facts.size.verdict, []
    gain = f'the design is done in clock {told(found.clock)}' + (f', not {told(now.clock)}.' if now.is_done else '.')
    if len(shallow) == 1:
        (name, depth), = shallow.items()
        depths = f'with depth {told(depth)} in place of {told(facts.depths[name])}'
        return [part(name, 'channel'), part(f' is too shallow: {depths} {gain}')]
    for place, (name, depth) in enumerate(shallow.items()):
        between = '' if place == 0 else ' and ' if place == len(shallow) - 1 else ', '
        change = f' ({told(depth)} in place of {told(facts.depths[name])})'
        parts += [part(between), part(name, 'channel'), part(change)]
    return parts + [part(f' are too shallow: with these depths {gain}')]


def other_depths(facts):
    """The depths of `size` that are not today's, as text."""
    changed = {name: depth for name, depth in facts.size.depths.items() if depth != facts.depths[name]}
    return ', '.join(f'{name} {told(depth)}' for name, depth in changed.items())


def chain_headline(facts):
    """What the chain tells of depths where those of `size` are not known."""
    if not facts.depths or not facts.verdict.is_done or facts.asks_outcomes:
        return ''
    full = [cross.channel for cross in facts.path.crossed if cross.side == 'full']
    return '' if full else 'No FIFO is too shallow: no choice of depths is faster.'


def depths_headline(facts):
    """What depths can do for a design of which no FIFO is surely too shallow."""
    if not facts.depths or facts.size is None:
        return chain_headline(facts)
    now, found, (bits, size_bits) = facts.verdict, facts.size.verdict, bits_of(facts)
    if facts.asks_outcomes:
        if found.is_done and (not now.is_done or found.clock < now.clock):
            return f'With other depths ({other_depths(facts)}) the design is done in clock {told(found.clock)}.'
        return ''
    if now.is_done:
        fewer = f' {told(size_bits)} of the {count_of(bits, "bit")} are enough for that.' if size_bits < bits else ''
        return f'No FIFO is too shallow: no choice of depths is faster.{fewer}'
    if now.kind == 'deadlock' and not found.is_done:
        return 'No choice of depths lets the design finish.'
    return ''


def headline_of(facts):
    """The one thing to know, and how grave it is: good, slow or bad."""
    shallow, now = too_shallow(facts), facts.verdict
    told_of = shallow_headline(facts, shallow) if shallow else [part(depths_headline(facts))]
    could_be_faster = shallow or facts.asks_outcomes and told_of[0]['text']
    return [one for one in told_of if one['text']], 'bad' if not now.is_done else 'slow' if could_be_faster else 'good'


def figure(key, label, value, unit):
    return {'key': key, 'label': label, 'value': told(value), 'unit': unit}


def figures(facts):
    """The numbers to see first."""
    now, (bits, size_bits) = facts.verdict, bits_of(facts)
    label, unit = ('Latency', 'clocks') if now.is_done else ('Stops in clock', '')
    rows = [figure('latency', label, now.clock, unit)]
    if facts.size and facts.size.verdict.is_done and facts.depths:
        rows.append(figure('size-latency', 'Latency with the depths of size', facts.size.verdict.clock, 'clocks'))
    if facts.stalls.stalls:
        worst = max(facts.stalls.stalls, key=lambda stall: stall.clocks)
        label = f'Longest stall: {worst.module}, {worst.channel} {worst.side}'
        rows.append(figure('worst', label, worst.clocks, 'clocks'))
    if facts.depths:
        rows.append(figure('bits', 'FIFO memory', bits, 'bits'))
    if facts.depths and facts.size:
        rows.append(figure('size-bits', 'FIFO memory with the depths of size', size_bits, 'bits'))
    return rows


def output_rows(report):
    """What each sink got: all values where they are few, else the first and the last."""
    rows = []
    for name, values in report.outputs.items():
        few = len(values) <= 2 * SHOWN
        first, last = (values, []) if few else (values[:SHOWN], values[-SHOWN:])
        rows.append({'name': name, 'count': told(len(values)), 'first': ' '.join(map(str, first)) or 'none',
                     'last': ' '.join(map(str, last))})
    return rows


def edit_row(report, base, edits):
    """A report compared with that of the design as it is."""
    differ = [name for name, values in report.outputs.items() if values != base.outputs[name]]
    change = f'{report.verdict.clock - base.verdict.clock:+,}'.replace('-', '−').replace('+0', '0')
    is_compared = report.number > 0 and report.verdict.is_done and base.verdict.is_done
    outputs = f'differ: {", ".join(differ)}' if differ else 'the same' if report.number else ''
    return {
        'number': report.number, 'kind': report.verdict.kind, 'clock': told(report.verdict.clock),
        'change': 'depth {} {}'.format(*edits[report.number - 1]) if report.number else 'the design as it is',
        'difference': change if is_compared else '', 'differ': bool(differ), 'outputs': outputs,
    }


def edit_rows(facts):
    reports = facts.run.reports
    return [edit_row(report, reports[0], facts.session.edits) for report in reports] if len(reports) > 1 else []
