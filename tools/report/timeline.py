"""What modules do and FIFOs hold, clock by clock, packed for the page.

Where all of it is too much for a page, single clocks are kept at the beginning and at the end of the run alone, and the
whole run is told in buckets of equally many clocks.
"""
import base64
import zlib
from array import array
from bisect import bisect_left, bisect_right

from flow.answers import TraceTaker

MOST_KEPT = 1_500_000  # spans, fills and links
MOST_PACKED = 2_800_000  # bytes of the packed text
BUCKETS = 1_500  # about
MOVES, EMPTY, FULL, CHAIN = range(4)


def packed(numbers):
    """Numbers as bytes of seven bits, the lowest first; the eighth bit says that more follow. Deflated, in base64."""
    found = bytearray()
    for number in numbers:
        while number > 127:
            found.append(number & 127 | 128)
            number >>= 7
        found.append(number)
    return base64.b64encode(zlib.compress(bytes(found), 9)).decode('ascii')


class Series:
    """Values that change: value k holds from `starts[k]` to the next start, and the last one to the end."""

    def __init__(self):
        self.starts, self.values, self.end = array('Q'), array('Q'), 0

    def add(self, start, value):
        self.starts.append(start)
        self.values.append(value)

    def pieces(self, until):
        """All values up to a clock: triples of a value, its first clock, and the clock after its last."""
        stops = [*self.starts[1:], self.end]
        every = zip(self.values, self.starts, stops)
        return ((value, start, min(stop, until)) for value, start, stop in every if start < until)

    def between(self, first, until):
        """The changes of a range of clocks: triples of a value, its first clock there, and the clock after its last."""
        until = min(until, self.end)
        at = max(0, bisect_right(self.starts, first) - 1)
        while at < len(self.starts) and self.starts[at] < until:
            stop = self.starts[at + 1] if at + 1 < len(self.starts) else self.end
            yield self.values[at], max(first, self.starts[at]), min(stop, until)
            at += 1

    def numbers(self, first, until):
        """The count of the changes in a range of clocks, and for each its clocks and its value."""
        changes = list(self.between(first, until))
        yield len(changes)
        for value, start, stop in changes:
            yield stop - start
            yield value


class Timeline(TraceTaker):
    """Takes a trace. A module's value is 0 where it moves, 1 + 2 * channel where it waits for an element of a channel,
    and 2 + 2 * channel where it waits for a place in it."""

    def __init__(self, clock, modules, channels, fifos, links):
        self.clock, self.modules, self.fifos = clock, modules, fifos
        self.codes = {b'moves': 0}
        for number, channel in enumerate(channels):
            self.codes[b'empty ' + channel.encode()] = 1 + 2 * number
            self.codes[b'full ' + channel.encode()] = 2 + 2 * number
        self.lanes = [Series() for _ in modules]
        self.fills_of = {fifo.encode(): Series() for fifo in fifos}
        for series in self.fills_of.values():
            series.end = clock + 1
        numbers = {module: number for number, module in enumerate(modules)}
        self.links = [(numbers[link.module], link.first, link.last + 1) for link in links]
        self.link_starts = [link[1] for link in self.links]

    def spans(self, spans):
        lanes, codes = self.lanes, self.codes
        for module, start, clocks, name in spans:
            lane, first = lanes[int(module)], int(start)
            lane.add(first, codes[name])
            lane.end = first + int(clocks)

    def fills(self, fills):
        series = self.fills_of
        for clock, fifo, fill in fills:
            series[fifo].add(int(clock), int(fill))

    def series(self):
        return self.lanes + list(self.fills_of.values())

    def count_in(self, reach):
        """How many changes lie within so many clocks of the beginning or the end."""
        late = self.clock - reach
        return sum(bisect_left(starts, reach) + len(starts) - bisect_left(starts, max(late, reach))
                   for starts in [series.starts for series in self.series()] + [self.link_starts])

    def windows(self, most):
        """The ranges of clocks that are kept one by one: all of them, or the beginning and the end."""
        low, high = 0, -(-self.clock // 2)
        if self.count_in(high) <= most:
            return [(0, self.clock)]
        while low < high:
            middle = (low + high + 1) // 2
            low, high = (middle, high) if self.count_in(middle) <= most else (low, middle - 1)
        return [(0, low), (self.clock - low, self.clock)] if low else []

    def kept(self, first, until):
        """The numbers of a range of clocks: for each module its spans, for each FIFO its fills, and the links."""
        for lane in self.lanes:
            yield from lane.numbers(first, until)
        for series in self.fills_of.values():
            yield from series.numbers(first, until + 1)
        yield from self.link_numbers(first, until)

    def link_numbers(self, first, until):
        """The count of the links in a range of clocks; for each its module, the clocks before it, and its clocks."""
        begin, end = max(0, bisect_right(self.link_starts, first) - 1), bisect_left(self.link_starts, until)
        links = [link for link in self.links[begin:end] if link[2] > first]
        yield len(links)
        before = first
        for module, start, stop in links:
            start, stop = max(start, first), min(stop, until)
            yield from (module, start - before, stop - start)
            before = stop

    def shares(self, size):
        """For each module and bucket the clocks of moves, of waits for an element and for a place, and of the chain."""
        count = -(-self.clock // size)
        found = [[[0] * count for _ in range(4)] for _ in self.modules]
        for lane, rows in zip(self.lanes, found):
            for value, start, stop in lane.pieces(self.clock):
                spread(rows[MOVES if value == 0 else EMPTY if value % 2 else FULL], size, start, stop)
        for module, start, stop in self.links:
            spread(found[module][CHAIN], size, start, stop)
        for rows in found:
            for column in zip(*rows):
                yield from column

    def bounds(self, size):
        """For each FIFO and bucket the least and the most that it holds."""
        for series in self.fills_of.values():
            low, high = {}, {}
            for value, start, stop in series.pieces(self.clock):
                for bucket in range(start // size, (stop - 1) // size + 1):
                    low[bucket] = min(low.get(bucket, value), value)
                    high[bucket] = max(high.get(bucket, value), value)
            for bucket in range(-(-self.clock // size)):
                yield from (low[bucket], high[bucket])

    def data(self):
        """What the page's script reads."""
        most, size = MOST_KEPT, max(1, -(-self.clock // BUCKETS))
        while True:
            windows = self.windows(most)
            whole = windows == [(0, self.clock)]
            text = packed(number for window in windows for number in self.kept(*window))
            if len(text) <= MOST_PACKED:
                break
            most //= 2
        parts = [] if whole else [self.shares(size), self.bounds(size)]
        return {'clock': self.clock, 'windows': windows, 'kept': text, 'bucket': size,
                'buckets': packed(number for part in parts for number in part) if parts else ''}


def spread(row, size, start, stop):
    """Adds the clocks from `start` to `stop` to the buckets that they lie in."""
    while start < stop:
        bucket = start // size
        end = (bucket + 1) * size
        if stop < end:
            end = stop
        row[bucket] += end - start
        start = end
