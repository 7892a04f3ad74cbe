"""The dataflow graph of a page: modules, sources, sinks and FIFOs as boxes, with what they did."""
from dataclasses import dataclass, field

from report.layout import Box, lay_out
from report.tables import by_side
from report.waits import circles

LONGEST = 24  # characters of a name in a box
NAME, SMALL = 7.6, 6.2  # pixels of a character
BAR, MARGIN = 7, 8  # pixels
FLAG = 34  # pixels that a flag below a box takes, and as many above it
OFTEN = 0.2  # of the clocks; from there on a FIFO counts as mostly full, or empty


@dataclass
class Node:
    """A box; `x` and `y` are its upper left corner, and each line has a text and a height."""
    kind: str
    name: str
    data: str  # module or channel
    label: str
    lines: list
    width: float
    height: int
    round: int
    look: str = ''
    bar: list = field(default_factory=list)
    flag: str = ''
    x: float = 0
    y: float = 0

    @property
    def pick(self):
        return f'{self.data}:{self.name}'


@dataclass
class Edge:
    """A line from a module to a channel, or back; `share` says for how much of the run the FIFO was so."""
    channel: str
    path: str
    look: str
    share: float

    @property
    def tip(self):
        """Its arrow head."""
        return next((f'tip-{word}' for word in ('stuck', 'bold') if word in self.look.split()), 'tip')


@dataclass
class Graph:
    width: float
    height: float
    nodes: list
    edges: list


def short(name):
    return name if len(name) <= LONGEST else name[:LONGEST - 1] + '…'


def width_of(name, second, least):
    """The pixels that a box with a name and a second line needs."""
    return max(least, NAME * len(short(name)) + 26, SMALL * len(second) + 22)


def lines_of(*texts):
    return [{'text': text, 'y': 18 + 15 * place} for place, text in enumerate(texts)]


def bar_of(shares, width, y):
    """The pieces of a bar, off pairs of a look and a share of its width."""
    pieces, x = [], MARGIN
    for look, share in shares:
        wide = share * (width - 2 * MARGIN)
        if wide > 0:
            pieces.append({'look': look, 'x': x, 'y': y, 'width': wide, 'height': BAR})
        x += wide
    return pieces


def module_node(facts, module, waits):
    """A module's box: how it spends its clocks, or what it waits for in the end."""
    clock = max(1, facts.verdict.clock)
    time = next(time for time in facts.stalls.modules if time.module == module)
    wait = next((wait for wait in waits if wait.module == module), None)
    label = f'Module {module}: moves in {time.moved:,} clocks, stalls in {time.still:,} of {facts.verdict.clock:,}'
    second = f'{100 * time.still / clock:.0f} % stalled' if time.still else 'never stalls'
    if wait:
        second = f'waits: {short(wait.channel)} {wait.side}'
        label += f'; in the end it waits, since {wait.channel} is {wait.side}'
    width = width_of(module, second, 118)
    shares = [('moves-piece', time.moved / clock)]
    shares += [(f'{side}-piece', by_side(facts.stalls, module, side) / clock) for side in ('empty', 'full')]
    is_spent = any(spend.module == module for spend in facts.path.spent)
    return Node('module', module, 'module', label, lines_of(short(module), second), width, 54, 5,
                'bold' if is_spent else '', bar_of(shares, width, 41))


def fifo_node(facts, fifo, shallow):
    """A FIFO's box: width, depth and most held, and how long it was empty and full."""
    clock = max(1, facts.verdict.clock)
    time = next(time for time in facts.stalls.fifos if time.fifo == fifo.name)
    second = f'{fifo.width} bit · held {time.most:,} of {fifo.depth:,}'
    width = width_of(fifo.name, second, 96)
    partly = clock - time.empty - time.full
    shares = [('empty-piece', time.empty / clock), ('rest-piece', partly / clock), ('full-piece', time.full / clock)]
    flag = f'too shallow: needs {shallow[fifo.name]:,}' if fifo.name in shallow else ''
    label = (f'FIFO {fifo.name}: {fifo.width} bit, depth {fifo.depth:,}, at most {time.most:,} held; empty in '
             f'{time.empty:,} clocks and full in {time.full:,} of {facts.verdict.clock:,}')
    label += f'; {flag}' if flag else ''
    return Node('fifo', fifo.name, 'channel', label, lines_of(short(fifo.name), second), width, 52, 14,
                'shallow' if flag else '', bar_of(shares, width, 39), flag)


def end_node(facts, channel):
    """The box of a source or a sink."""
    count = sum(port.count for port in facts.stalls.ports if port.channel == channel.name)
    of = f' of {len(channel.values):,}' if channel.kind == 'source' else ''
    second = f'{channel.kind} · {count:,}{of}'
    verb = 'read' if of else 'written'
    label = f'{channel.kind.capitalize()} {channel.name}: {channel.width} bit, {count:,}{of} values {verb}'
    return Node('end', channel.name, 'channel', label, lines_of(short(channel.name), second),
                width_of(channel.name, second, 84), 42, 20)


def circle_ends(waits):
    """The ends of channels on a circle of modules that wait for each other: pairs of a module and a channel."""
    inside = {module for circle in circles(waits) for module in circle}
    circle = [wait for wait in waits if wait.module in inside]
    return [(module, wait.channel) for wait in circle for module in (wait.module, wait.other)]


def nodes_of(facts, waits, shallow, stuck):
    """The boxes by key, in order of declaration."""
    nodes = {f'module {module.name}': module_node(facts, module.name, waits) for module in facts.session.modules}
    for channel in facts.session.channels.values():
        made = fifo_node(facts, channel, shallow) if channel.kind == 'fifo' else end_node(facts, channel)
        nodes[f'channel {channel.name}'] = made
    for channel in facts.path.channels:
        nodes[f'channel {channel}'].look += ' bold'
    for module, channel in stuck:
        nodes[f'module {module}'].look += ' stuck'
        nodes[f'channel {channel}'].look += ' stuck'
    return nodes


def ends_of(channel):
    """The modules at a channel, each with the keys of the line's tail and head."""
    if channel.writer:
        yield channel.writer.name, (f'module {channel.writer.name}', f'channel {channel.name}')
    if channel.reader:
        yield channel.reader.name, (f'channel {channel.name}', f'module {channel.reader.name}')


def look_of(facts, channel):
    """Whether a FIFO was mostly full or empty, and the share of the clocks in which it was so."""
    time = next((time for time in facts.stalls.fifos if time.fifo == channel), None)
    if time is None:
        return '', 0
    empty, full = (clocks / max(1, facts.verdict.clock) for clocks in (time.empty, time.full))
    look = 'mostly-full' if full >= max(OFTEN, empty) else 'mostly-empty' if empty >= OFTEN else ''
    return look, max(empty, full)


def lines_between(facts, stuck):
    """The lines of the graph: the keys of the ends, and an edge that has no path yet."""
    crossed = facts.path.channels
    for channel in facts.session.channels.values():
        look, share = look_of(facts, channel.name)
        for module, keys in ends_of(channel):
            bold = ' bold' if channel.name in crossed else ''
            red = ' stuck' if (module, channel.name) in stuck else ''
            yield keys, Edge(channel.name, '', look + bold + red, share)


def graph_of(facts, shallow):
    """The graph, laid out."""
    waits = facts.waits()
    stuck = circle_ends(waits)
    nodes, lines = nodes_of(facts, waits, shallow, stuck), list(lines_between(facts, stuck))
    boxes = {key: Box(key, node.width, node.height + (FLAG if node.flag else 0)) for key, node in nodes.items()}
    layout = lay_out(boxes, [keys for keys, _ in lines], len(facts.session.modules))
    for key, node in nodes.items():
        node.x, node.y = layout.boxes[key].x - node.width / 2, layout.boxes[key].y - node.height / 2
    for (_, edge), path in zip(lines, layout.paths):
        edge.path = path
    return Graph(layout.width, layout.height, list(nodes.values()), [edge for _, edge in lines])
