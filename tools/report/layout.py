"""Where the boxes of a dataflow graph stand, by Graphviz. Lengths are in pixels, with y downwards."""
import shlex
import shutil
import subprocess
from dataclasses import dataclass, field

from flow.refused import NO_PROGRAM, Refused

DOT_UP_TO = 150  # modules; beyond them sfdp is quicker
POINTS = 72  # an inch
WIDE = 1_150  # pixels that a row has, where a long graph is broken into rows
ROW_GAP = 34
MOST_ASTRAY = 2  # edges that go elsewhere than to the same row or the next
MARGIN = 14


@dataclass
class Box:
    """A node: a module, or a channel."""
    key: str
    width: float
    height: float
    x: float = 0  # of its middle
    y: float = 0


@dataclass
class Layout:
    width: float
    height: float
    boxes: dict
    paths: list = field(default_factory=list)  # for each edge the `d` of an SVG path


def dot_text(boxes, edges):
    """The graph in Graphviz's language; boxes and edges are numbered."""
    number = {key: place for place, key in enumerate(boxes)}
    lines = ['digraph {', 'graph [rankdir=LR nodesep=0.22 ranksep=0.38 overlap=prism]',
             'node [shape=box fixedsize=true]', 'edge [arrowhead=none]']
    for box in boxes.values():
        size = f'width={box.width / POINTS:.4f} height={box.height / POINTS:.4f}'
        lines.append(f'n{number[box.key]} [{size}]')
    lines += [f'n{number[tail]} -> n{number[head]}' for tail, head in edges]
    return '\n'.join(lines + ['}', ''])


def lay_out(boxes, edges, modules):
    """Places the boxes, a dictionary by key, and the edges, pairs of keys; there are so many modules."""
    engine = 'dot' if modules <= DOT_UP_TO else 'sfdp'
    if shutil.which(engine) is None:
        raise Refused(NO_PROGRAM, 'Graphviz is needed for the graph (apt-get install graphviz)')
    done = subprocess.run([engine, '-Tplain'], input=dot_text(boxes, edges).encode(), stdout=subprocess.PIPE,
                          stderr=subprocess.PIPE, check=False)
    if done.returncode != 0:
        raise Refused(NO_PROGRAM, f'{engine} failed: {done.stderr.decode(errors="replace").strip()[:300]}')
    return read_plain(done.stdout.decode(), boxes, edges)


def read_plain(text, boxes, edges):
    """The layout that Graphviz writes with -Tplain: inches, with y upwards."""
    keys, splines, height = list(boxes), {}, 0
    for line in text.splitlines():
        words = shlex.split(line)
        if words[0] == 'graph':
            width, height = float(words[2]) * POINTS, float(words[3]) * POINTS
        elif words[0] == 'node':
            box = boxes[keys[int(words[1][1:])]]
            box.x, box.y = float(words[2]) * POINTS, height - float(words[3]) * POINTS
        elif words[0] == 'edge':
            numbers = [float(word) * POINTS for word in words[4:4 + 2 * int(words[3])]]
            ends = (keys[int(words[1][1:])], keys[int(words[2][1:])])
            splines.setdefault(ends, []).append([(x, height - y) for x, y in zip(numbers[::2], numbers[1::2])])
    points = [splines[edge].pop(0) for edge in edges]
    rows = in_rows(boxes, edges, points, height) if width > 1.6 * WIDE and width > 5 * height else None
    paths = [curve(shifted(spline, MARGIN)) for spline in points]
    return rows or Layout(width + 2 * MARGIN, height + 2 * MARGIN, moved(boxes, MARGIN), paths)


def moved(boxes, by):
    for box in boxes.values():
        box.x, box.y = box.x + by, box.y + by
    return boxes


def shifted(points, by):
    return [(x + by, y + by) for x, y in points]


def curve(points):
    """A Bezier curve as an SVG path."""
    first, *rest = [f'{x:.1f},{y:.1f}' for x, y in points]
    return f'M{first}C{" ".join(rest)}'


def row_starts(boxes):
    """The left ends of the rows of a long graph; no box is cut."""
    starts, end = [0.0], 0.0
    for box in sorted(boxes.values(), key=lambda box: box.x - box.width / 2):
        left = box.x - box.width / 2
        if box.x + box.width / 2 - starts[-1] > WIDE and left >= end:
            starts.append(left)
        end = max(end, box.x + box.width / 2)
    return starts


def in_rows(boxes, edges, points, height):
    """A long graph in rows, one below the other, or None where too many edges skip a row or go back."""
    starts = row_starts(boxes)
    step = height + ROW_GAP
    row = {key: max(at for at, start in enumerate(starts) if start <= box.x) for key, box in boxes.items()}
    if sum(row[head] not in (row[tail], row[tail] + 1) for tail, head in edges) > MOST_ASTRAY:
        return None
    for key, box in boxes.items():
        box.x, box.y = box.x - starts[row[key]] + ROW_GAP, box.y + row[key] * step + ROW_GAP
    paths = []
    for (tail, head), spline in zip(edges, points):
        if row[tail] == row[head]:
            paths.append(curve([(x - starts[row[tail]] + ROW_GAP, y + row[tail] * step + ROW_GAP) for x, y in spline]))
        else:
            above = [row[key] * step + ROW_GAP / 2 for key in (tail, head)]
            paths.append(between_rows(boxes[tail], boxes[head], *above, row[head] == row[tail] + 1))
    width = max(box.x + box.width / 2 for box in boxes.values())
    return Layout(width + ROW_GAP, len(starts) * step + ROW_GAP, boxes, paths)


def between_rows(tail, head, above_tail, above_head, is_next):
    """A path from the right end of a box to the left end of another, through the gaps above their rows."""
    right, left = tail.x + tail.width / 2, head.x - head.width / 2
    way = '' if is_next else f'V{above_tail:.1f}H{ROW_GAP / 4}'
    return f'M{right:.1f},{tail.y:.1f}h8{way}V{above_head:.1f}H{left - 12:.1f}V{head.y:.1f}H{left:.1f}'
