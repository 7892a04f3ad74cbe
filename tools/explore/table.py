"""The tables on standard output."""
import itertools

from flow.program import STATUSES


def print_rows(rows, endings=()):
    """Prints rows of cells, whose columns are as wide as their widest cells; endings follow the rows."""
    sizes = [max(map(len, column)) for column in zip(*rows)]
    for row, ending in itertools.zip_longest(rows, endings, fillvalue=''):
        print('  '.join(cell.rjust(size) for cell, size in zip(row, sizes)) + ending)


def tell_grid(collector):
    """Prints how the points of a grid end, and the front."""
    counts = ', '.join(f'{collector.counts[name]:,} {name}' for name in STATUSES if name in collector.counts)
    count = sum(collector.counts.values())
    print(f'{count:,} point{"" if count == 1 else "s"}{": " if counts else ""}{counts}')
    front = collector.front()
    if front:
        rows = [[str(clock), str(cost), *map(str, depths)] for cost, clock, depths in front]
        print_rows([['latency', collector.costs.unit, *collector.grid.names], *rows])


def tell_front(points):
    """Prints the points of the front without a grid."""
    rows = [[str(point.latency), str(point.bits), '-' if point.bound is None else str(point.bound)] for point in points]
    endings = [f'  gap {point.gap:.1f} %' if point.known == 'bound' else f'  {point.known}' for point in points]
    print_rows([['latency', 'bits', 'at least'], *rows], ['', *endings])
