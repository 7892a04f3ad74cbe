"""The chunks of a grid: each is the end of a session, whose edits go through the chunk's points. `run_chunk` simulates one of them, here
or on another machine."""
import glob
import os

from flow.limits import EDITS

MOST_IN_CHUNK = EDITS // 2  # points, so that a chunk has no more edits than a session, with those before its first point
LEAST_IN_CHUNK = 16
CHUNKS = 64  # at least, where the grid has enough points
RUN_CHUNK = r'''#!/bin/sh
# Simulates a chunk of the grid: run_chunk CHUNK [OPTION ..]. It writes a line for each point, its verdict and its clock.
# The first line of a chunk has the number of each report that tells a point.
cd "$(dirname "$0")" || exit 1
chunk=chunks/$1
shift
read -r _ points <"$chunk" || exit 1
{ cat base.flow "$chunk" | ./sim_cli alone "$@"; echo "status $?"; } | awk -v points="$points" '
    BEGIN { count = split(points, numbers, " "); for (at = 1; at <= count; at++) tells[numbers[at]] = 1 }
    /^verdict / { if (seen++ in tells) { told++; print $2, $3 } }
    /^status / { status = $2 }
    END { exit !(told == count && (status == 0 || status >= 3 && status <= 5)) }'
'''


def points_of_chunk(grid):
    """How many points a chunk gets where the words tell no number."""
    return min(MOST_IN_CHUNK, max(LEAST_IN_CHUNK, -(-grid.count // CHUNKS)))


def chunks_of(base, grid, points):
    """The chunks, with at most so many points: of each the numbers of the reports that tell its points, and its edits. The report
    after the last edit of a point tells it."""
    told, edits = [], []
    for point, place in grid.walk():
        step = grid.edits(point, place) if place is not None else []
        if told and (len(told) == points or len(edits) + len(step) > EDITS):
            yield told, edits
            told, edits = [], []
        if told:
            edits += step
        else:
            edits = [f'depth {name} {depth}\n' for name, depth in zip(grid.names, grid.point(point)) if base.depths[name] != depth]
        told.append(len(edits))
    yield told, edits


def write_chunks(folder, base, grid, points):
    """Writes the chunks and their names, seven digits each."""
    names = []
    for number, (told, edits) in enumerate(chunks_of(base, grid, points), 1):
        names.append(f'{number:07}')
        with open(os.path.join(folder, 'chunks', names[-1]), 'w', encoding='ascii') as file:
            file.write(f'# {" ".join(map(str, told))}\n{"".join(edits)}end\n')
    with open(os.path.join(folder, 'chunks.txt'), 'w', encoding='ascii') as file:
        file.write('\n'.join(names) + '\n')


def read_names(folder):
    """The names of the chunks, in order."""
    with open(os.path.join(folder, 'chunks.txt'), encoding='ascii') as file:
        return file.read().split()


def whole_answers(folder):
    """The chunks whose answers are whole: they have a line for each point."""
    names = set()
    for path in glob.glob(os.path.join(folder, 'answers', '[0-9]' * 7)):
        name = os.path.basename(path)
        with open(path, encoding='ascii') as answer, open(os.path.join(folder, 'chunks', name), encoding='ascii') as chunk:
            if sum(1 for _ in answer) == len(chunk.readline().split()) - 1:
                names.add(name)
    return names
