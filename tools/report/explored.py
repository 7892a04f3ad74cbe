"""Reads the folder of an exploration: the least latency for each cost of the FIFOs, and the Pareto front."""
import csv
import os
from dataclasses import dataclass, field

from flow.depths import without_edits
from flow.pareto import unbeaten
from flow.refused import WRONG_WORDS, Refused

MOST_DOTS = 4_000  # that are drawn


@dataclass
class Point:
    cost: int
    clock: int
    depths: dict


@dataclass
class Explored:
    unit: str  # of the costs, as ./explore names it: bits, where no table was chosen
    counts: dict = field(default_factory=dict)  # of the points by verdict
    best: dict = field(default_factory=dict)  # by cost, the point with the least latency
    dots: list = field(default_factory=list)

    def front(self):
        """The points that no other beats, from low cost to high."""
        return unbeaten([point for _, point in sorted(self.best.items())], lambda point: point.clock)


def read_explored(folder, canonical):
    """What ./explore found; `canonical` is the session's text as `check` prints it. A folder of another session is refused."""
    base = without_edits(canonical).removesuffix('end\n')
    try:
        with open(os.path.join(folder, 'base.flow'), encoding='ascii') as file:
            if file.read() != base:
                raise Refused(WRONG_WORDS, f'{folder} explores another session')
        with open(os.path.join(folder, 'points.csv'), encoding='ascii', newline='') as file:
            return read_points(csv.reader(file), folder)
    except OSError as fault:
        raise Refused(WRONG_WORDS, f'{folder} is no folder of ./explore: {fault.strerror}') from fault
    except ValueError as fault:
        raise Refused(WRONG_WORDS, f'{folder}/points.csv has a line that is not whole; let ./explore end') from fault


def read_points(rows, folder):
    head = next(rows, [])
    if head[-3:-1] != ['verdict', 'clock']:
        raise Refused(WRONG_WORDS, f'{folder}/points.csv is not what ./explore writes')
    found = Explored(head[-1])
    for *depths, verdict, clock, cost in rows:
        found.counts[verdict] = found.counts.get(verdict, 0) + 1
        if verdict == 'done':
            cost, clock = int(cost), int(clock)
            if cost not in found.best or clock < found.best[cost].clock:
                found.best[cost] = Point(cost, clock, dict(zip(head[:-3], map(int, depths))))
    points = [point for _, point in sorted(found.best.items())]
    found.dots = points[::-(-len(points) // MOST_DOTS) or 1]
    return found
