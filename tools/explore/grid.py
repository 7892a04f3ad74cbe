"""The grid of depths, and the walk through its points."""
import fnmatch
import math
import re

from flow.depths import no_fifo
from flow.limits import EDITS
from flow.refused import WRONG_WORDS, Refused

MOST_POINTS = 100_000_000


class Grid:
    """The depths to try, axis by axis: an axis has FIFOs that change together. The walk goes through all points; neighbours differ in
    one axis."""

    def __init__(self, words, base):
        given = [part_of(word) for word in words]
        leading = [(pattern, text) for pattern, text in given if not text.startswith('@')]
        axes = [(matching(pattern, base), range_of(text, base.limits.fifo_depth)) for pattern, text in leading]
        self.axes, self.depths = [names for names, _ in axes], [depths for _, depths in axes]
        leaders = [pattern for pattern, _ in leading]
        for pattern, text in given:
            if text.startswith('@'):
                if text[1:] not in leaders:
                    raise Refused(WRONG_WORDS, f'{pattern}={text}: no FIFO=DEPTHS is given for {text[1:]}')
                self.axes[leaders.index(text[1:])] += matching(pattern, base)
        self.names = [name for axis in self.axes for name in axis]
        self.count = math.prod(map(len, self.depths))
        self.check()

    def check(self):
        """Refuses a FIFO in two axes, and more points or FIFOs than can be explored."""
        twice = sorted({name for name in self.names if self.names.count(name) > 1})
        if twice:
            raise Refused(WRONG_WORDS, f'{twice[0]} is given twice')
        if self.count > MOST_POINTS:
            raise Refused(WRONG_WORDS, f'the grid has {self.count:,} points; take at most {MOST_POINTS:,}')
        if len(self.names) + max(map(len, self.axes)) > EDITS:
            raise Refused(WRONG_WORDS, f'{len(self.names):,} FIFOs are more than {EDITS:,} edits of a session can change')

    def point(self, at):
        """The depth of each FIFO where the axes have these depths."""
        return [depth for axis, depth in zip(self.axes, at) for _ in axis]

    def walk(self):
        """Each point as the list of its axes' depths, which is the same list each time, and the axis that changed (None at first)."""
        at, steps = [0] * len(self.depths), [1] * len(self.depths)
        point = [depths[0] for depths in self.depths]
        yield point, None
        place = len(at) - 1
        while place >= 0:
            there = at[place] + steps[place]
            if 0 <= there < len(self.depths[place]):
                at[place], point[place] = there, self.depths[place][there]
                yield point, place
                place = len(at) - 1
            else:
                steps[place] = -steps[place]
                place -= 1

    def edits(self, point, place):
        """The edits that lead from the point before to this one."""
        return [f'depth {name} {point[place]}\n' for name in self.axes[place]]


def part_of(word):
    """The two sides of a word FIFO=DEPTHS."""
    pattern, mark, text = word.partition('=')
    if not mark:
        raise Refused(WRONG_WORDS, f'{word!r} is not of the form FIFO=DEPTHS')
    return pattern, text


def matching(pattern, base):
    """The FIFOs that a name or a pattern means."""
    found = [name for name in base.depths if fnmatch.fnmatchcase(name, pattern)]
    if not found:
        raise Refused(WRONG_WORDS, no_fifo(pattern, base.depths))
    return found


def range_of(text, most):
    """The depths of a text such as 1,2,4..8, ascending. None is greater than `most`."""
    depths = set()
    for part in text.split(','):
        match = re.fullmatch(r'(\d+)(?:\.\.(\d+))?', part)
        low, high = (int(match.group(1)), int(match.group(2) or match.group(1))) if match else (0, 0)
        if not 1 <= low <= high <= most:
            raise Refused(WRONG_WORDS, f'{part!r} is no depth from 1 to {most:,}, and no range LOW..HIGH of such depths')
        depths.update(range(low, high + 1))
    return sorted(depths)
