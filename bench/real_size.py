"""Eight designs as they are published, each of any size: what `Design` builds, and the values of its sinks where they are known.

    systolic N K      a matrix product on N x N cells, K long: feeders, cells, and a drain for each row
    image W H         an image of W x H pixels: blurred by line buffers, sharpened, a threshold, a histogram, sums of rows
    layers N T SEED   a random network of N processes in layers, and T tokens
    fft P T           butterflies over 2^P points, a process each, and T frames
    graph N D R SEED  N nodes that poll D neighbours each and try to send to them, in R rounds
    floats N L T      N pipelines in a row, of interval 1 with L live iterations, and T values
    stencil G T       G x G cells that exchange values with their neighbours, in T steps
    farm N T          one process deals to N workers, another one collects, T values each

The sizes that stand in the functions are those that a session may have. A loop counts its trips by two registers, as the loops of
tools/flow do.
"""
import random

from flow.design import Design
from flow.expressions import choose, value
from flow.limits import STANDARD

CYCLES = 10 ** 12
MODULUS = 65_537


def limited(design):
    """A design with the most cycles and operations that it may ask for."""
    design.limits(CYCLES, STANDARD.counted_operations)
    return design


def copier(design, name, source, sinks, trips, width=32):
    """A process that reads a value and writes it a clock later, to each of these."""
    loop = design.module(name).loop('main', 1, 2, trips=trips)
    x = loop.temp('x', width)
    loop.read(0, source, x)
    for sink in sinks:
        loop.write(1, sink, x)


# ---- a systolic array

def cell(design, name, left, above, right, below, parts, trips):
    """A cell: products of what comes from the left and from above, added up; then the sums of the cells before it in its row, and
    its own, go on. `parts` are the FIFO of those sums, how many they are, and the FIFO of its own."""
    before, count, after = parts
    module = design.module(name)
    total = module.register('total', 32)
    loop = module.loop('main', 1, 4, trips=trips)
    x, w = loop.temp('x', 32), loop.temp('w', 32)
    loop.read(0, left, x)
    loop.read(0, above, w)
    loop.set(3, total, total + x * w)
    for sink, what in ((right, x), (below, w)):
        if sink is not None:
            loop.write(1, sink, what)
    loop.goto('pass' if count else 'last')
    if count:
        others = module.loop('pass', 1, 2, trips=count)
        z = others.temp('z', 32)
        others.read(0, before, z)
        others.write(1, after, z)
        others.goto('last')
    module.block('last', 1).write(0, after, total)


def systolic(n=5, k=12):
    design = limited(Design())
    a = [[(3 * i + 5 * t) % 17 for t in range(k)] for i in range(n)]
    b = [[(7 * j + 2 * t) % 13 for j in range(n)] for t in range(k)]
    across = [[design.fifo(f'h{i}_{j}', 32, 4) for j in range(n)] + [None] for i in range(n)]
    down = [[design.fifo(f'v{i}_{j}', 32, 4) for j in range(n)] for i in range(n)] + [[None] * n]
    sums = [[None] + [design.fifo(f'd{i}_{j + 1}', 32, 2) for j in range(n)] for i in range(n)]
    for i in range(n):
        copier(design, f'feed_a{i}', design.source(f'a{i}', 32, a[i]), [across[i][0]], k)
        copier(design, f'feed_b{i}', design.source(f'b{i}', 32, [row[i] for row in b]), [down[0][i]], k)
    for i in range(n):
        for j in range(n):
            cell(design, f'pe{i}_{j}', across[i][j], down[i][j], across[i][j + 1], down[i + 1][j], (sums[i][j], j, sums[i][j + 1]), k)
    for i in range(n):
        copier(design, f'drain{i}', sums[i][n], [design.sink(f'y{i}', 32)], n)
    product = [[sum(a[i][t] * b[t][j] for t in range(k)) % 2 ** 32 for j in range(n)] for i in range(n)]
    return design, {f'y{i}': product[i] for i in range(n)}


# ---- an image

def blur(design, source, sink, width, pixels):
    """Nine pixels, weighed, from two lines kept in memories and a window of registers."""
    module = design.module('blur')
    column = module.register('column', 16)
    window = [[module.register(f'w{row}{place}', 16) for place in range(3)] for row in range(3)]
    lines = [module.memory(f'line{row}', 16, width) for row in range(2)]
    loop = module.loop('main', 1, 5, trips=pixels)
    new, upper, middle, here, total = (loop.temp(name, 16) for name in ('new', 'upper', 'middle', 'here', 'total'))
    loop.read(0, source, new)
    loop.load(0, upper, lines[0], column)
    loop.load(0, middle, lines[1], column)
    loop.set(0, here, column)
    loop.set(0, column, choose(column == width - 1, 0, column + 1))
    loop.store(1, lines[0], here, middle)
    loop.store(1, lines[1], here, new)
    for row, last in zip(window, (upper, middle, new)):
        for place, what in zip(row, (*row[1:], last)):
            loop.set(1, place, what)
    weights = (1, 2, 1, 2, 4, 2, 1, 2, 1)
    weighed = value(0)
    for weight, pixel in zip(weights, [pixel for row in window for pixel in row]):
        weighed = weighed + weight * pixel
    loop.set(2, total, weighed)
    loop.write(4, sink, total >> 4)


def histogram(design, source, seen, bins, pixels, count=64):
    """How many pixels fall into each bin; each pixel goes on."""
    module = design.module('histogram')
    x, at, old = module.register('x', 16), module.register('i', 16), module.register('o', 32)
    table = module.memory('table', 32, count)
    loop = module.loop('main', 4, 4, trips=pixels)
    loop.read(0, source, x)
    loop.set(1, at, x >> 2)
    loop.load(2, old, table, at)
    loop.store(3, table, at, old + 1)
    loop.write(3, seen, x)
    loop.goto('tell')
    place = module.register('place', 16)
    tell = module.loop('tell', 2, 2, trips=count)
    tell.load(0, old, table, place)
    tell.set(1, place, place + 1)
    tell.write(1, bins, old)


def row_sums(design, source, rows, width, pixels):
    """The sum of each row."""
    module = design.module('sums')
    x, column, last, total = (module.register(name, size) for name, size in (('x', 16), ('c', 16), ('last', 1), ('s', 32)))
    loop = module.loop('main', 2, 2, trips=pixels)
    loop.read(0, source, x)
    loop.set(0, last, column == width - 1)
    loop.set(0, column, choose(column == width - 1, 0, column + 1))
    loop.set(1, total, choose(last, 0, total + x))
    loop.write(1, rows, total + x, guard=last)


def image(width=24, height=16):
    design = limited(Design())
    pixels = width * height
    source = design.source('px', 8, [(5 * i + (i // width) * (i % 7)) % 251 for i in range(pixels)])
    depths = (('p0', 4), ('left', 4), ('right', 16), ('soft', 4), ('sharp', 4), ('bits', 4), ('seen', 4))
    first, left, right, soft, sharp, bits, seen = (design.fifo(name, 16, depth) for name, depth in depths)
    copier(design, 'reader', source, [first], pixels, 8)
    copier(design, 'fork', first, [left, right], pixels, 16)
    blur(design, left, soft, width, pixels)
    sharpen = design.module('sharpen').loop('main', 1, 3, trips=pixels)
    x, original = sharpen.temp('x', 16), sharpen.temp('o', 16)
    sharpen.read(0, soft, x)
    sharpen.read(0, right, original)
    sharpen.write(2, sharp, 2 * original - x)
    threshold = design.module('threshold').loop('main', 1, 3, trips=pixels)
    x, low = threshold.temp('x', 16), threshold.temp('t', 16)
    threshold.read(0, sharp, x)
    threshold.set(1, low, x & 255)
    threshold.write(2, bits, choose(low < 100, 0, low))
    histogram(design, bits, seen, design.sink('bins', 32), pixels)
    row_sums(design, seen, design.sink('rows', 32), width, pixels)
    return design, None


# ---- networks

def layered(n, draw):
    """Processes in layers: the interval and latency of each, and its edges as pairs of the process before and a depth. A process
    takes so many tokens before it gives one: where two paths meet again, the shorter one has FIFOs for the difference."""
    width = max(2, round(n ** 0.5 / 1.2))
    paces = [(draw.choice((1, 1, 1, 2, 3)), draw.randint(1, 12)) for _ in range(n)]
    edges, ahead = [[] for _ in range(n)], [0] * n
    for process in range(width, n):
        layer = process // width
        near = {draw.randrange((layer - 1) * width, layer * width)}
        for _ in range(draw.randint(0, 3)):
            back = max(0, layer - draw.randint(1, 3))
            near.add(draw.randrange(back * width, (back + 1) * width))
        held = {other: ahead[other] + 1 + (paces[other][1] + 1) // paces[other][0] for other in near}
        ahead[process] = max(held.values())
        edges[process] = [(other, ahead[process] - held[other] + draw.choice((2, 2, 4, 8))) for other in sorted(near)]
    return paces, edges


def layers(n=40, tokens=40, seed=1):
    design = limited(Design())
    paces, edges = layered(n, random.Random(seed))
    reads, writes = [[] for _ in range(n)], [[] for _ in range(n)]
    for process, before in enumerate(edges):
        for other, depth in before:
            fifo = design.fifo(f'e{other}_{process}', 32, depth)
            writes[other].append(fifo)
            reads[process].append(fifo)
    for process, (interval, latency) in enumerate(paces):
        froms = reads[process] or [design.source(f's{process}', 32, [(process * 31 + i) % 1000 for i in range(tokens)])]
        sinks = writes[process] or [design.sink(f'y{process}', 32)]
        loop = design.module(f'p{process}').loop('main', interval, latency + 2, trips=tokens)
        taken = [loop.temp(f'x{i}', 32) for i in range(len(froms))]
        for source, x in zip(froms, taken):
            loop.read(0, source, x)
        mixed, given = taken[0], loop.temp('v', 32)
        for x in taken[1:]:
            mixed = mixed ^ x
        loop.set(latency, given, process + 3 * mixed)
        for sink in sinks:
            loop.write(latency + 1, sink, given)
    return design, None


def fft(points_log=3, frames=8):
    design = limited(Design())
    size = 1 << points_log
    values = [[(i * 7 + frame * 13) % 101 for frame in range(frames)] for i in range(size)]
    now = [design.source(f'a{i}', 32, values[i]) for i in range(size)]
    for stage in range(points_log):
        half, last = 1 << stage, stage + 1 == points_log
        later = [design.sink(f'y{i}', 32) if last else design.fifo(f'f{stage + 1}_{i}', 32, 4) for i in range(size)]
        for i in range(size):
            if i & half:
                continue
            j, root = i | half, pow(3, (i % half) * (size // (2 * half)), MODULUS)
            loop = design.module(f'b{stage}_{i}').loop('main', 1, 8, trips=frames)
            u, w, m = (loop.temp(name, 32) for name in 'uwm')
            loop.read(0, now[i], u)
            loop.read(0, now[j], w)
            loop.set(4, m, w * root % MODULUS)
            loop.write(7, later[i], (u + m) % MODULUS)
            loop.write(7, later[j], (u + MODULUS - m) % MODULUS)
            for frame in range(frames):
                one, other = values[i][frame], values[j][frame] * root % MODULUS
                values[i][frame], values[j][frame] = (one + other) % MODULUS, (one + MODULUS - other) % MODULUS
        now = later
    return design, {f'y{i}': values[i] for i in range(size)}


def node(design, number, ins, outs, sink, rounds):
    """A node polls each FIFO that it reads, then tries to write each that it writes, round by round."""
    module = design.module(f'v{number}')
    total, sent, done = module.register('total', 32), module.register('sent', 32), module.register('done', 1)
    begin = len(ins) + 2
    length = begin + len(outs) + 1
    loop = module.loop('main', length, length, trips=rounds)
    for at, fifo in enumerate(ins):
        x, there = loop.temp(f'x{at}', 32), loop.temp(f'o{at}', 1)
        loop.try_read(at, fifo, x, there)
        loop.set(at + 1, total, (total + 1) ^ x, guard=there)
    for at, fifo in enumerate(outs, begin):
        loop.try_write(at, fifo, done, total + number)
        loop.set(at + 1, sent, sent + 1, guard=done)
    loop.goto('last')
    module.block('last', 1).write(0, sink, total)


def graph(n=20, degree=3, rounds=20, seed=1):
    design = limited(Design())
    draw = random.Random(seed)
    ins, outs = [[] for _ in range(n)], [[] for _ in range(n)]
    for p in range(n):
        for q in sorted(draw.sample([q for q in range(n) if q != p], degree)):
            fifo = design.fifo(f'e{p}_{q}', 32, draw.choice((1, 2, 4)))
            outs[p].append(fifo)
            ins[q].append(fifo)
    for p in range(n):
        node(design, p, ins[p], outs[p], design.sink(f'y{p}', 32), rounds)
    return design, None


# ---- pipelines and exchange

def floats(n=12, live=60, count=200):
    design = limited(Design())
    numbers = [(i * i) % 9_973 for i in range(count)]
    before = design.source('a', 64, numbers)
    stages = max(1, min(20, live // 8))
    for k in range(n):
        after = design.sink('y', 64) if k + 1 == n else design.fifo(f'f{k + 1}', 64, 4)
        loop = design.module(f'm{k}').loop('main', 1, live, trips=count)
        x = loop.temp('t0', 64)
        loop.read(0, before, x)
        for stage in range(stages):
            x, last = loop.temp(f't{stage + 1}', 64), x
            loop.set(1 + (stage + 1) * (live - 2) // (stages + 1), x, last * (2 * stage + 3) + k)
            numbers = [(number * (2 * stage + 3) + k) % 2 ** 64 for number in numbers]
        loop.write(live - 1, after, x)
        before = after
    return design, {'y': numbers}


def stencil(side=5, steps=20):
    design = limited(Design())
    cells = [(row, column) for row in range(side) for column in range(side)]
    near = {(r, c): [x for x in ((r - 1, c), (r + 1, c), (r, c - 1), (r, c + 1)) if x in set(cells)] for r, c in cells}
    fifos = {(x, y): design.fifo(f'e{x[0]}_{x[1]}_{y[0]}_{y[1]}', 32, 2) for x in cells for y in near[x]}
    now = {x: (x[0] * 37 + x[1] * 11) % 256 for x in cells}
    sink = design.sink('y', 32)
    for x in cells:
        module = design.module(f'c{x[0]}_{x[1]}')
        own, more = module.register('v', 32), module.register('more', 1)
        left = module.register('left', 32)
        start = module.block('start', 2)
        start.set(0, own, now[x])
        start.set(0, left, steps - 1)
        for y in near[x]:
            start.write(1, fifos[x, y], own)
        start.goto('main')
        loop = module.loop('main', 7, 7, trips=steps)
        taken = [loop.temp(f'x{i}', 32) for i in range(len(near[x]))]
        for y, there in zip(near[x], taken):
            loop.read(0, fifos[y, x], there)
        loop.set(1, more, left != 0)
        loop.set(2, left, left - 1)
        loop.set(4, own, sum(taken, 4 * own) >> 3)
        for y in near[x]:
            loop.write(6, fifos[x, y], own, guard=more)
        loop.goto('last')
        last = module.block('last', 1)
        if x == (0, 0):
            last.write(0, sink, own)
    for _ in range(steps):
        now = {x: (4 * now[x] + sum(now[y] for y in near[x])) >> 3 for x in cells}
    return design, {'y': [now[0, 0]]}


def farm(n=40, trips=20):
    design = limited(Design())
    numbers = [(i * 7) % 1000 for i in range(n * trips)]
    source, sink = design.source('a', 32, numbers), design.sink('y', 32)
    work = [design.fifo(f'w{k}', 32, 2) for k in range(n)]
    results = [design.fifo(f'r{k}', 32, 2) for k in range(n)]
    for name, reads, writes in (('deal', [source] * n, work), ('collect', results, [sink] * n)):
        module = design.module(name)
        x = module.register('x', 32)
        loop = module.loop('main', n, n + 1, trips=trips)
        for k in range(n):
            loop.read(k, reads[k], x)
            loop.write(k + 1, writes[k], x)
    for k in range(n):
        latency = 3 + k * 5 % 29
        loop = design.module(f'work{k}').loop('main', latency + 1, latency + 1, trips=trips)
        x = loop.temp('x', 32)
        loop.read(0, work[k], x)
        loop.write(latency, results[k], x * x + k)
    return design, {'y': [(number * number + i % n) % 2 ** 32 for i, number in enumerate(numbers)]}


DESIGNS = {made.__name__: made for made in (systolic, image, layers, fft, graph, floats, stencil, farm)}
