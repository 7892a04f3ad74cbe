"""The Pareto front of latency and bits for any number of FIFOs, without a grid. Each point is an answer of the program: depths that
are done by a clock, found by `size --slack`, made better by single steps, and proved to be the least where `least` has the time."""
import concurrent.futures
import dataclasses
import re

from flow.answers import read_depths, read_least, read_run
from flow.depths import with_depths
from flow.pareto import unbeaten
from flow.program import NoAnswer, Program, TookTooLong
from flow.session import QUERIES

SHARES = (0, 1, 2, 5, 10, 20, 50)  # of the earliest end, in hundredths: the slacks to begin with
STEP = 0.05  # the bits of neighbours differ by at most this share, where there are clocks between them
MOST_POINTS = 40
MOST_PAIRS = 450  # of edits, in one session
QUERY = re.compile(rf'^at \d+ (if \S+ )?({"|".join(QUERIES)}) ', re.MULTILINE)


@dataclasses.dataclass
class Point:
    """Depths that are done in a clock, how many bits they need, and how many any depths need that are done in this slack, where that
    is known: not of a design with queries."""
    slack: int
    latency: int
    bits: int
    depths: dict
    bound: int = None
    is_least: bool = False

    @property
    def known(self):
        return 'least' if self.is_least else 'found' if self.bound is None else 'bound'

    @property
    def gap(self):
        """By how many hundredths the bits may be too many."""
        return 100 * (self.bits - self.bound) / self.bits if self.bits else 0.0


class Fifos:
    """The FIFOs of a checked session, and what the program says of their depths."""

    def __init__(self, base, limits, seconds):
        self.text, self.widths, self.limits, self.seconds = base.text, base.widths, limits, seconds
        self.program = Program()
        advised = read_depths('advise', self.told(['advise']))
        self.verdict, self.deepest = advised.verdict, advised.depths
        self.asks = QUERY.search(self.text) is not None

    def told(self, words, text=None):
        return self.program.answer(words + self.limits, ((text or self.text) + 'end\n').encode('ascii'))

    def bits(self, depths):
        return sum(self.widths[name] * depth for name, depth in depths.items())

    def orders(self):
        """The FIFOs in four orders of declaration: as they are, in reverse, most bits first, widest first."""
        names = list(self.widths)
        return [names, names[::-1], sorted(names, key=lambda name: -self.widths[name] * self.deepest[name]),
                sorted(names, key=lambda name: -self.widths[name])]

    def in_order(self, names):
        """The session with its FIFOs declared in this order."""
        lines = self.text.split('\n')
        own = {line.split()[1]: line for line in lines if line.startswith('fifo ')}
        ordered = iter(names)
        return '\n'.join(own[next(ordered)] if line.startswith('fifo ') else line for line in lines)

    def sized(self, slack, names):
        """The depths that `size` finds with this order of declaration."""
        return read_depths('size', self.told(['size', '--slack', str(slack)], self.in_order(names))).depths

    def latency(self, depths):
        """The latency with these depths, or None where they are not done."""
        verdict = read_run(self.told(['alone'], with_depths(self.text, depths))).reports[0].verdict
        return verdict.clock if verdict.is_done else None

    def tried(self, depths, changes):
        """Of each change, a dictionary of depths in place of these, the verdict with it alone."""
        found = []
        for at in range(0, len(changes), MOST_PAIRS):
            part = changes[at:at + MOST_PAIRS]
            edits, told = [], []
            for change in part:
                edits += [f'depth {name} {depth}\n' for name, depth in change.items()]
                told.append(len(edits))
                edits += [f'depth {name} {depths[name]}\n' for name in change]
            reports = read_run(self.told(['alone'], with_depths(self.text, depths) + ''.join(edits))).reports
            found += [reports[number].verdict for number in told]
        return found

    def least(self, slack):
        """What `least` answers in its time; None where it takes longer, or refuses."""
        words = ['least', '--slack', str(slack)] + self.limits
        try:
            return read_least(self.program.answer_within(self.seconds, words, (self.text + 'end\n').encode('ascii')))
        except (TookTooLong, NoAnswer):
            return None


def is_in_time(verdict, clock):
    return verdict.is_done and verdict.clock <= clock


def lowered(fifos, depths, clock):
    """These depths with one FIFO after the other a place lower, the one first that saves most, as long as some can be."""
    while True:
        names = [name for name, depth in depths.items() if depth > 1]
        verdicts = fifos.tried(depths, [{name: depths[name] - 1} for name in names])
        timely = [name for name, verdict in zip(names, verdicts) if is_in_time(verdict, clock)]
        if not timely:
            return depths
        name = max(timely, key=lambda name: fifos.widths[name])
        depths = {**depths, name: depths[name] - 1}


def exchanged(fifos, depths, clock):
    """These depths, or fewer bits: one FIFO deeper by a place and another one lower, as long as that saves some."""
    while True:
        pairs = [{up: depths[up] + 1, down: depths[down] - 1} for up in depths for down in depths
                 if fifos.widths[up] < fifos.widths[down] and depths[down] > 1 and depths[up] < fifos.deepest[up]]
        pairs = sorted(pairs, key=lambda pair: fifos.bits(pair) - sum(fifos.widths[name] * depths[name] for name in pair))[:MOST_PAIRS // 2]
        better = next((pair for pair, verdict in zip(pairs, fifos.tried(depths, pairs)) if is_in_time(verdict, clock)), None)
        if better is None:
            return depths
        depths = lowered(fifos, {**depths, **better}, clock)


def lone_bound(fifos, depths, clock):
    """Bits that all depths need that are done by a clock: those of each FIFO's least depth beside the deepest others."""
    low, high = dict.fromkeys(depths, 1), {name: min(depth, fifos.deepest[name]) for name, depth in depths.items()}
    while True:
        middles = {name: (low[name] + high[name]) // 2 for name in depths if low[name] < high[name]}
        if not middles:
            return fifos.bits(low)
        verdicts = fifos.tried(fifos.deepest, [{name: middle} for name, middle in middles.items()])
        for (name, middle), verdict in zip(middles.items(), verdicts):
            if is_in_time(verdict, clock):
                high[name] = middle
            else:
                low[name] = middle + 1


def point_of(fifos, slack):
    """The point of a slack."""
    clock = fifos.verdict.clock + slack
    proved = None if fifos.asks else fifos.least(slack)
    if proved is not None:
        return Point(slack, fifos.latency(proved.depths), proved.bits, proved.depths, proved.bits, True)
    found = min((fifos.sized(slack, names) for names in fifos.orders()), key=fifos.bits)
    found = exchanged(fifos, found, clock)
    bits, bound = fifos.bits(found), None if fifos.asks else lone_bound(fifos, found, clock)
    return Point(slack, fifos.latency(found), bits, found, bound, bits == bound)


def between(points):
    """Slacks between neighbours whose bits differ by much."""
    points = sorted(points, key=lambda point: point.slack)
    wide = [(low, high) for low, high in zip(points, points[1:]) if low.bits - high.bits > STEP * low.bits and high.slack - low.slack > 1]
    return [(low.slack + high.slack) // 2 for low, high in wide]


def front_of(fifos, jobs, told):
    """The points of the front, by latency; `told` is called with each point as it comes."""
    points, slacks = {}, sorted({fifos.verdict.clock * share // 100 for share in SHARES})
    with concurrent.futures.ThreadPoolExecutor(jobs) as pool:
        while slacks and len(points) < MOST_POINTS:
            for point in pool.map(lambda slack: point_of(fifos, slack), slacks[:MOST_POINTS - len(points)]):
                points[point.slack] = point
                told(point)
            slacks = [slack for slack in between(points.values()) if slack not in points]
    ordered = sorted(points.values(), key=lambda point: (point.latency, point.bits, not point.is_least))
    return unbeaten(ordered, lambda point: point.bits)


def csv_of(points):
    """The text of front.csv."""
    names = list(points[0].depths) if points else []
    lines = [','.join(['latency', 'bits', 'known', 'bound', 'gap'] + names)]
    for point in points:
        bound = ['', ''] if point.bound is None else [str(point.bound), f'{point.gap:.1f}']
        lines.append(','.join([str(point.latency), str(point.bits), point.known, *bound] + [str(point.depths[name]) for name in names]))
    return '\n'.join(lines) + '\n'
