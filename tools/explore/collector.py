"""What the points of a grid answered: a line for each, how they end, and the front."""
import os

from explore.chunks import read_names
from flow.pareto import unbeaten


class Collector:
    """Writes points.csv and keeps, for each cost, the least latency and the first depths with it."""

    def __init__(self, folder, base, grid, costs):
        self.folder, self.grid, self.walk, self.costs = folder, grid, grid.walk(), costs
        self.best, self.counts, self.first = {}, {}, None
        self.widths = [base.widths[name] for name in grid.names]
        self.fixed = sum(costs.of(base.widths[name], depth) for name, depth in base.depths.items() if name not in grid.names)
        self.chunks, self.next = read_names(folder), 0
        self.csv = open(os.path.join(folder, 'points.csv'), 'w', encoding='ascii')
        self.csv.write(','.join(grid.names + ['verdict', 'clock', costs.unit]) + '\n')

    def take(self, done):
        """Takes the answers of the chunks that are next in order and done."""
        while self.next < len(self.chunks) and self.chunks[self.next] in done:
            with open(os.path.join(self.folder, 'answers', self.chunks[self.next]), encoding='ascii') as file:
                for line in file:
                    self.add(*line.split())
            self.next += 1
        self.csv.flush()

    def add(self, verdict, clock):
        """Adds the answer for the next point of the walk."""
        point = self.grid.point(next(self.walk)[0])
        cost = self.fixed + sum(self.costs.of(width, depth) for depth, width in zip(point, self.widths))
        self.csv.write(','.join(map(str, point)) + f',{verdict},{clock},{cost}\n')
        self.counts[verdict] = self.counts.get(verdict, 0) + 1
        self.first = self.first or verdict
        if verdict == 'done':
            found = (int(clock), tuple(point))
            if cost not in self.best or found < self.best[cost]:
                self.best[cost] = found

    def front(self):
        """The points that no other beats: (cost, latency, depths), from low cost to high."""
        return unbeaten([(cost, *found) for cost, found in sorted(self.best.items())], lambda point: point[1])
