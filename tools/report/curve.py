"""The curve of the latency over the cost of all FIFOs, as an exploration found it."""
from report.counts import count_of

WIDTH, HEIGHT, LEFT, RIGHT, TOP, BOTTOM = 720, 360, 78, 700, 34, 312
FRAME = {'width': WIDTH, 'height': HEIGHT, 'left': LEFT, 'right': RIGHT, 'top': TOP, 'bottom': BOTTOM}
MOST_TICKS = 6
FRONT = 'The line is the Pareto front: no other choice beats these in both the latency and the cost.'


class Scale:
    """Maps values to pixels."""

    def __init__(self, values, low, high):
        least, most = min(values), max(values)
        room = max(1, (most - least) * 0.05)
        self.least, self.most, self.low, self.high = max(0, least - room), most + room, low, high

    def __call__(self, value):
        return self.low + (value - self.least) / (self.most - self.least) * (self.high - self.low)

    def ticks(self):
        step = 10 ** (len(str(int((self.most - self.least) / MOST_TICKS))) - 1)
        step = next(step * times for times in (1, 2, 5, 10, 20)
                    if (self.most - self.least) / (step * times) <= MOST_TICKS)
        first = int(-(-self.least // step)) * step
        return [{'at': self(value), 'text': f'{value:,}'} for value in range(first, int(self.most) + 1, step)]


def today(explored, facts, bits):
    """The bits and the latency of the session as it is, where it is done and bits are what is counted."""
    return [(bits, facts.verdict.clock)] if facts.verdict.is_done and explored.unit == 'bits' else []


def curve_of(explored, facts, bits):
    """What the template draws and lists."""
    kinds = sorted(explored.counts.items(), key=lambda pair: -pair[1])
    counts = ', '.join(f'{count:,} {kind}' for kind, count in kinds)
    note = f'./explore tried {count_of(sum(explored.counts.values()), "choice")} of depths: {counts}.'
    front = explored.front()
    frame = {'note': note, 'unit': explored.unit, 'names': list(front[0].depths) if front else [], **FRAME}
    if not front:
        return {**frame, 'dots': [], 'front': [], 'marks': [], 'rows': [], 'line': '', 'x_ticks': [], 'y_ticks': []}
    now = today(explored, facts, bits)
    places = [(point.cost, point.clock) for point in explored.dots + front] + now
    x_of = Scale([place[0] for place in places], LEFT, RIGHT)
    y_of = Scale([place[1] for place in places], BOTTOM, TOP)
    dots = [{'x': x_of(point.cost), 'y': y_of(point.clock)} for point in explored.dots]
    front_dots = [{'x': x_of(point.cost), 'y': y_of(point.clock), 'label': label_of(point)} for point in front]
    return {**frame, 'note': f'{note} {FRONT}', 'dots': dots, 'line': line_of(front_dots), 'front': front_dots,
            'marks': [{'x': x_of(cost), 'y': y_of(clock), 'label': 'now'} for cost, clock in now],
            'x_ticks': x_of.ticks(), 'y_ticks': y_of.ticks(),
            'rows': [row_of(point) for point in front]}


def line_of(dots):
    """The front as steps, up to the right end."""
    steps = ''.join(f'H{dot["x"]:.1f}V{dot["y"]:.1f}' for dot in dots[1:])
    return f'M{dots[0]["x"]:.1f},{dots[0]["y"]:.1f}{steps}H{RIGHT}'


def row_of(point):
    return {'clock': f'{point.clock:,}', 'cost': f'{point.cost:,}',
            'depths': [f'{depth:,}' for depth in point.depths.values()]}


def label_of(point):
    depths = ', '.join(f'{name} {depth:,}' for name, depth in point.depths.items())
    return f'{point.clock:,} clocks at a cost of {point.cost:,}: {depths}'
