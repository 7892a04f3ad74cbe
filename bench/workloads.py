"""The texts of sessions that the scripts here measure and try."""
import random

from flow.limits import STANDARD

LIMITS = f'limits 1000000000 {STANDARD.counted_operations}'


def pipeline(modules, values):
    """Modules in a row, each of which reads a value and writes it plus one in each clock."""
    lines = ['flow 1', 'source a 32', 'sink y 32']
    lines += [f'fifo f{k} 32 4' for k in range(1, modules)]
    for k in range(modules):
        before = 'a' if k == 0 else f'f{k}'
        after = 'y' if k == modules - 1 else f'f{k + 1}'
        lines += [f'module m{k}', 'reg x 32', 'reg n 32', 'reg go 1', 'loop l 1 2 while go', f'at 0 read {before} x',
                  'at 0 set n + n 1', f'at 0 set go <u n {values - 1}', f'at 1 write {after} + x 1', 'stop']
    lines += ['input a ' + ' '.join(str(v % 1000) for v in range(values)), LIMITS, 'end']
    return '\n'.join(lines) + '\n'


def polling(pollers, clocks):
    """Modules that look into a FIFO each clock until a late writer fills it."""
    lines = ['flow 1'] + [f'fifo f{k} 8' for k in range(pollers)]
    lines += ['module late', f'block k {clocks + 1}'] + [f'at {clocks} write f{k} 1' for k in range(pollers)] + ['stop']
    for k in range(pollers):
        lines += [f'module p{k}', 'reg x 8', 'reg ok 1', 'reg go 1', 'block first 1', 'at 0 set go 1', 'goto l', 'loop l 1 2 while go',
                  f'at 0 tryread f{k} x ok', 'at 1 set go == ok 0', 'stop']
    lines += [LIMITS, 'end']
    return '\n'.join(lines) + '\n'


def sparse(interval, values):
    """Two modules that do something once in so many clocks."""
    lines = ['flow 1', 'source a 32', 'fifo f 32', 'sink y 32']
    for name, before, after in (('p', 'a', 'f'), ('q', 'f', 'y')):
        lines += [f'module {name}', 'reg x 32', 'reg n 32', 'reg go 1', f'loop l {interval} {interval} while go', f'at 0 read {before} x',
                  'at 0 set n + n 1', f'at 0 set go <u n {values - 1}', f'at 1 write {after} x', 'stop']
    lines += ['input a ' + ' '.join(str(v) for v in range(values)), LIMITS, 'end']
    return '\n'.join(lines) + '\n'


def ring(modules, rounds):
    """Modules in a ring that pass one token on, so that all but one wait."""
    lines = ['flow 1'] + [f'fifo f{k} 32' for k in range(modules)]
    for k in range(modules):
        lines += [f'module m{k}', 'reg x 32', 'reg n 32', 'reg go 1']
        if k == 0:
            lines += ['block first 1', f'at 0 write f{1 % modules} 1', 'goto l']
        lines += ['loop l 2 2 while go', f'at 0 read f{k} x', 'at 0 set n + n 1', f'at 0 set go <u n {rounds - 1}',
                  f'at 1 write f{(k + 1) % modules} + x 1', 'stop']
    lines += [LIMITS, 'end']
    return '\n'.join(lines) + '\n'


def heavy(modules, values, sets):
    """Modules between sources and sinks of their own, each of which does so many operations for each value."""
    lines = ['flow 1'] + [f'source a{k} 32' for k in range(modules)] + [f'sink y{k} 32' for k in range(modules)]
    for k in range(modules):
        lines += [f'module m{k}', 'reg x 32', 'reg n 32', 'reg go 1'] + [f'reg r{i} 32' for i in range(200)]
        lines += ['loop l 2 2 while go', f'at 0 read a{k} x', 'at 0 set n + n 1', f'at 0 set go <u n {values - 1}']
        lines += [f'at 1 set r{i % 200} + * r{i % 200} 3 ^ x {i}' for i in range(sets)]
        lines += [f'at 1 write y{k} r0', 'stop']
    lines += [f'input a{k} ' + ' '.join(str(v % 1000) for v in range(values)) for k in range(modules)]
    return '\n'.join(lines + [LIMITS, 'end']) + '\n'


def waiting(modules, rounds, sets):
    """Modules that wait for one, which does so many operations before it writes to each of them."""
    others = range(1, modules)
    lines = ['flow 1'] + [f'fifo f{k} 32' for k in others]
    lines += ['module m0', 'reg n 32', 'reg go 1'] + [f'reg r{i} 32' for i in range(200)]
    lines += ['loop l 2 2 while go', 'at 0 set n + n 1', f'at 0 set go <u n {rounds - 1}']
    lines += [f'at 0 set r{i % 200} + * r{i % 200} 3 {i}' for i in range(sets)]
    lines += [f'at 1 write f{k} r{k}' for k in others] + ['stop']
    for k in others:
        lines += [f'module m{k}', 'reg x 32', 'reg n 32', 'reg go 1', 'loop l 1 1 while go', f'at 0 read f{k} x', 'at 0 set n + n 1',
                  f'at 0 set go <u n {rounds - 1}', 'stop']
    return '\n'.join(lines + [LIMITS, 'end']) + '\n'


def asking(values, tries):
    """A module that tries so often to read from a source of so many values."""
    lines = ['flow 1', 'source a 32', 'sink y 32', 'module m', 'reg x 32', 'reg ok 1', 'reg n 32', 'reg go 1', 'loop l 1 2 while go',
             'at 0 tryread a x ok', 'at 0 set n + n 1', f'at 0 set go <u n {tries - 1}', 'at 1 write y x', 'stop']
    lines += ['input a ' + ' '.join(str(v % 1000) for v in range(values)), LIMITS, 'end']
    return '\n'.join(lines) + '\n'


def filled(values):
    """A FIFO that is filled with so many values, and then read with a query for each pop."""
    lines = ['flow 1', f'fifo f 32 {values + 1}', 'sink y 32', 'module p', 'reg i 32', 'reg g 1', 'loop l 1 1 while g', 'at 0 write f i',
             'at 0 set i + i 1', f'at 0 set g <u i {values - 1}', 'stop']
    lines += ['module q', 'reg x 32', 'reg ok 1', 'reg i 32', 'reg g 1', f'block w {values + 5}', f'at {values + 4} set g 1', 'goto l',
              'loop l 1 2 while g', 'at 0 tryread f x ok', 'at 0 set i + i 1', f'at 0 set g <u i {values - 1}', 'at 1 write y x', 'stop',
              LIMITS, 'end']
    return '\n'.join(lines) + '\n'


def wide(fifos, writes):
    """Many FIFOs, at which a module waits from its first clock on, and another with so many writes in a block that it repeats
    up to the limit."""
    lines = ['flow 1'] + [f'fifo f{k} 32' for k in range(fifos)] + ['sink y 32', 'module m', f'block k {writes}']
    lines += [f'at {i} write y {i % 7}' for i in range(writes)] + ['goto k', 'module waits', 'reg x 32', f'block k {2 * fifos}']
    lines += [f'at {k} read f{k} x' for k in range(fifos)] + [f'at {fifos + k} write f{k} 0' for k in range(fifos)]
    lines += ['stop', LIMITS, 'end']
    return '\n'.join(lines) + '\n'


def split_and_joined(fifos, values):
    """A module that writes so many FIFOs in a clock, and one that reads them in a clock, every fifth only if it has an element."""
    lines = ['flow 1', 'source a 32', 'sink y 32'] + [f'fifo f{k} 32 {1 + k % 3}' for k in range(fifos)]
    lines += ['module split', 'reg x 32', 'reg n 32', 'reg go 1', 'loop l 1 2 while go', 'at 0 read a x', 'at 0 set n + n 1',
              f'at 0 set go <u n {values - 1}'] + [f'at 1 write f{k} + x {k}' for k in range(fifos)] + ['stop']
    lines += ['module join', 'reg n 32', 'reg go 1', 'reg ok 1'] + [f'reg x{k} 32' for k in range(fifos)]
    lines += ['loop l 2 4 while go', 'at 0 set n + n 1', f'at 0 set go <u n {values - 1}']
    lines += [f'at 0 tryread f{k} x{k} ok' if k % 5 == 4 else f'at 0 read f{k} x{k}' for k in range(fifos)]
    lines += [f'at 3 write y + x0 x{fifos - 1}', 'stop', 'input a ' + ' '.join(str(v % 1000) for v in range(values)), LIMITS, 'end']
    return '\n'.join(lines) + '\n'


def staggered(modules, values):
    """Modules in a row whose loops have intervals of 1, 2 and 3, between FIFOs of depth 1 to 4, so that few FIFOs make the latency."""
    lines = ['flow 1', 'source a 32', 'sink y 32'] + [f'fifo f{k} 32 {1 + k % 4}' for k in range(1, modules)]
    for k in range(modules):
        before = 'a' if k == 0 else f'f{k}'
        after = 'y' if k == modules - 1 else f'f{k + 1}'
        interval = 1 + 7 * k % 3
        lines += [f'module m{k}', 'reg x 32', 'reg n 32', 'reg go 1', f'loop l {interval} {interval + 1} while go', f'at 0 read {before} x',
                  'at 0 set n + n 1', f'at 0 set go <u n {values - 1}', f'at 1 write {after} + * x 3 {k}', 'stop']
    lines += ['input a ' + ' '.join(str(v % 1000) for v in range(values)), LIMITS, 'end']
    return '\n'.join(lines) + '\n'


def forks(stages, values):
    """Stages in a row: a fork, a branch whose module takes and gives bursts, a branch straight to the join, and the join. FIFOs have
    several widths. The values are a multiple of 8."""
    lines, channels, inner = ['flow 1', 'source a 32', 'sink y 32'], [], []
    for k in range(stages):
        before, after = f'i{k}' if k else 'a', f'i{k + 1}' if k < stages - 1 else 'y'
        burst, wait = (2, 4, 8)[k % 3], k % 4
        channels += [f'fifo p{k} {8 + 8 * (k % 3)} 16', f'fifo q{k} {32 - 8 * (k % 2)} 16', f'fifo s{k} {16 + 4 * (k % 5)} 16']
        channels += [f'fifo i{k + 1} 32 16'] * (k < stages - 1)
        loop = lambda name, interval, length, trips, *ops: [
            f'module {name}{k}', 'reg n 32', 'reg go 1', f'loop l {interval} {length} while go', *(f'temp t{i} 32' for i in range(8)),
            'at 0 set n + n 1', f'at 0 set go <u n {trips - 1}', *ops, 'stop']
        inner += loop('fork', 1, 2, values, f'at 0 read {before} t0', f'at 1 write p{k} t0', f'at 1 write s{k} t0')
        inner += loop('bursts', burst + wait, 2 * burst + wait + 1, values // burst,
                      *(f'at {i} read p{k} t{i}' for i in range(burst)), *(f'at {burst + wait + i} write q{k} t{i}' for i in range(burst)))
        inner += loop('join', 1, 2, values, f'at 0 read q{k} t0', f'at 0 read s{k} t1', f'at 1 write {after} + t0 t1')
    lines += channels + inner
    return '\n'.join(lines + ['input a ' + ' '.join(str(v % 1000) for v in range(values)), LIMITS, 'end']) + '\n'


def branching(seed, widths=(32,)):
    """Modules at random without queries, each of which reads from earlier ones and writes to later ones, in bursts or value by value.
    Each FIFO has one of the widths, at random."""
    draw, wide = random.Random(seed), random.Random(f'widths {seed}')
    modules, values = draw.randint(2, 6), draw.choice((4, 8, 16, 32))
    edges = [(before, after) for after in range(1, modules) for before in draw.sample(range(after), min(after, draw.choice((1, 1, 2, 3))))]
    lines = ['flow 2']
    lines += [f'fifo f{k} {wide.choice(widths)} {draw.randint(1, 8)} {draw.choice((1, 1, 2, 5))}' for k in range(len(edges))]
    for module in range(modules):
        burst = draw.choice((1, 1, 1, 2, 4))
        reads = [f'read f{k} x' for k, (_, after) in enumerate(edges) if after == module]
        writes = [f'write f{k} x' for k, (before, _) in enumerate(edges) if before == module]
        timed, clock = [], 0
        for operation in draw.sample(reads, len(reads)) + draw.sample(writes, len(writes)):
            clock += draw.choice((0, 1, 1, 2))
            timed += [(clock + value, operation) for value in range(burst)]
        length = max(at for at, _ in timed) + 2
        interval = min(draw.choice((burst, burst + 1, 2 * burst, length)), length)
        lines += [f'module m{module}', 'reg x 32', 'reg n 32', 'reg go 1', f'loop l {interval} {length} while go', 'at 0 set n + n 1',
                  f'at 0 set go <u n {values // burst - 1}', *(f'at {at} {operation}' for at, operation in sorted(timed)), 'stop']
    return '\n'.join(lines + [LIMITS, 'end']) + '\n'


def edited_at_random(text, fifos, edits, seed):
    """The same session with so many edits, each of one of these FIFOs to a depth from 1 to 8, small ones more often."""
    draw = random.Random(seed)
    return with_edits(text, [(draw.choice(fifos), draw.choice((1, 1, 2, 2, 3, 4, 8))) for _ in range(edits)])


def edited(text, name, depths):
    """The same session with an edit of a FIFO for each of these depths."""
    return with_edits(text, [(name, depth) for depth in depths])


def with_edits(text, edits):
    """The same session with these edits after its own: pairs of a FIFO and its depth."""
    assert text.endswith('end\n')
    return text[:-4] + ''.join(f'depth {name} {depth}\n' for name, depth in edits) + 'end\n'


def tried(values, edits):
    """Four modules in a row that try their accesses, and edits of which most change what a query was told."""
    lines = ['flow 1', 'source a 32', 'sink y 32'] + [f'fifo f{k} 32 2' for k in (1, 2, 3)]
    names = ['a', 'f1', 'f2', 'f3', 'y']
    for k, (before, after) in enumerate(zip(names, names[1:])):
        lines += [f'module m{k}', 'reg x 32', 'reg n 32', 'reg go 1', 'reg ok 1', f'loop l {1 + k} {2 + k} while go']
        lines += [f'at 0 tryread {before} x ok' if k else f'at 0 read {before} x', 'at 0 set n + n 1', f'at 0 set go <u n {values - 1}']
        lines += [f'at 1 trywrite {after} x ok' if k < 3 else f'at 1 write {after} x', 'stop']
    lines += ['input a ' + ' '.join(str(v) for v in range(values))]
    chance = random.Random(1)
    lines += [f'depth {chance.choice(names[1:4])} {chance.randint(1, 12)}' for _ in range(edits)]
    return '\n'.join(lines + ['end']) + '\n'


def late_write(clocks):
    """A module that does one thing, after so many clocks."""
    return f'flow 1\nsink y 8\nmodule m\nblock k {clocks}\nat {clocks - 1} write y 1\nstop\nlimits 1000000000000000 10\nend\n'


def long_text(inputs, operations):
    """One module of many blocks: as many operations and inputs as fit into a text."""
    body = 1013
    lines = ['flow 1', 'source a 32', 'module m', 'reg some_register_of_this_module 32']
    blocks = -(-operations // body)
    for k in range(blocks):
        lines.append(f'block b{k} {body}')
        for i in range(min(body, operations - k * body)):
            lines.append(f'at {i} set some_register_of_this_module + some_register_of_this_module {i}')
        if k == 0:
            lines.append('at 0 read a some_register_of_this_module')
        lines.append(f'goto b{k + 1}' if k + 1 < blocks else 'stop')
    lines += ['input a ' + ' '.join(str(v) for v in range(inputs)), 'end']
    return '\n'.join(lines) + '\n'


def deep_expression():
    """One line of four megabytes of operators."""
    head = 'flow 1\nmodule m\nreg x 8\nblock k 1\nat 0 set x '
    tail = '1\nstop\nend\n'
    return head + '~ ' * ((STANDARD.text_bytes - len(head) - len(tail)) // 2) + tail
