"""The command ./explore: its words, and the order in which things are done."""
import os
import re
import sys

from explore.base import Base
from explore.chunks import MOST_IN_CHUNK, read_names, whole_answers
from explore.collector import Collector
from explore.folder import lay_out, locked
from explore.front import Fifos, csv_of, front_of
from explore.grid import Grid
from explore.plot import draw, front_script, grid_script
from explore.runs import run_all
from explore.table import tell_front, tell_grid
from flow.costs import Costs
from flow.limits import options_of
from flow.program import STATUSES, Program
from flow.refused import NO_PROGRAM, WRONG_WORDS, Refused
from flow.script import Parser, run, take_limits

ABOUT = 'Simulates a design with each choice of FIFO depths out of a grid, on many processors or many machines.'
DETAILS = 'docs/EXPLORE.md teaches all of it.'
MOST_NAMED = 10  # chunks


def take_words(parser):
    """Takes the words that the command line may have."""
    number = lambda text: int(text) if re.fullmatch(r'[1-9]\d{0,14}', text) else parser.error(f'{text!r} is no number from 1 on')
    parser.add_argument('session', metavar='SESSION', help='the file with the session; its edits are not applied')
    parser.add_argument('ranges', metavar='FIFO=DEPTHS', nargs='*', help='1..16, or 1,2,4..8; FIFO may be a pattern, and DEPTHS @FIFO')
    parser.add_argument('--front', action='store_true', help='the front of latency and bits over all FIFOs, without a grid')
    parser.add_argument('--seconds', metavar='S', type=number, default=10, help='how long each point of --front may take to be proved; '
                        '10 without it')
    parser.add_argument('--cost', metavar='NAME', default='bits', help='what the front counts: bits, or a table of tools/flow/costs.json '
                        '(bram18, srl) or of the file that --costs names')
    parser.add_argument('--costs', metavar='FILE', help='a file of tables in place of tools/flow/costs.json')
    parser.add_argument('--out', metavar='FOLDER', help='where the results go; NAME.explored without it')
    parser.add_argument('--jobs', metavar='N', type=number, help='jobs at once on each machine; one for each processor without it')
    parser.add_argument('--hosts', metavar='FILE', help='runs on the machines of this file, by ssh (an --sshloginfile)')
    parser.add_argument('--retries', metavar='N', type=number, default=3, help='how often a chunk is tried; 3 without it')
    parser.add_argument('--points', metavar='N', type=number, help=f'the points of a chunk, at most {MOST_IN_CHUNK}')
    take_limits(parser, number, number)
    parser.add_argument('--resume', action='store_true', help='goes on with a folder where it was stopped')
    parser.add_argument('--bar', action='store_true', help='shows a progress bar')
    parser.add_argument('--prepare', action='store_true', help='lays out the folder and runs nothing')
    parser.add_argument('--collect', action='store_true', help='runs nothing, and takes the answers that are there')


def parsed():
    """The words of the command line."""
    parser = Parser(prog='explore', description=ABOUT, epilog=DETAILS)
    take_words(parser)
    options = parser.parse_intermixed_args()
    if options.points and options.points > MOST_IN_CHUNK:
        parser.error(f'a chunk has at most {MOST_IN_CHUNK} points')
    if options.front == bool(options.ranges):
        parser.error('give a grid, FIFO=DEPTHS .., or --front')
    if options.front and (options.hosts or options.resume or options.prepare or options.collect or options.cost != 'bits'):
        parser.error('--front takes --seconds, --out, --jobs, --cycles, --ops and --large alone')
    options.out = options.out or os.path.splitext(os.path.basename(options.session))[0] + '.explored'
    return options


def need_program():
    """Refuses to go on where there is no built program."""
    if not os.access(Program().path, os.X_OK):
        raise Refused(NO_PROGRAM, './omnisim --build builds the program, which is needed here')


def need_all(chunks, done):
    """Refuses to end well where chunks have no answer."""
    missing = [str(int(name)) for name in chunks if name not in done]
    if missing:
        named = ', '.join(missing[:MOST_NAMED]) + ' ..' * (len(missing) > MOST_NAMED)
        raise Refused(NO_PROGRAM, f'{len(missing):,} chunks have no answer ({named}); points.csv ends before the first of them; '
                                  '--resume runs them')


def explore_grid(options, limits):
    """Explores a grid, and gives the status."""
    costs = Costs(options.cost, options.costs)
    need_program()
    base = Base(options.session, limits)
    grid = Grid(options.ranges, base)
    lay_out(options, limits, base, grid)
    if options.prepare:
        print(f'{options.out}: {len(read_names(options.out)):,} chunks')
        return 0
    with locked(options.out) as lock:
        collector = Collector(options.out, base, grid, costs)
        if options.collect:
            done = whole_answers(options.out)
            collector.take(done)
        else:
            done = run_all(options, limits, collector, lock)
        collector.csv.close()
        tell_grid(collector)
        if collector.best:
            draw(options.out, grid_script(collector))
        need_all(collector.chunks, done)
    return 0 if 'done' in collector.counts else STATUSES[collector.first]


def explore_front(options, limits):
    """Finds the front without a grid, writes it, and gives the status."""
    need_program()
    base = Base(options.session, limits)
    if os.path.exists(options.out):
        raise Refused(WRONG_WORDS, f'{options.out} is there; --out names another folder')
    fifos = Fifos(base, limits, options.seconds)
    if not fifos.verdict.is_done:
        kind = fifos.verdict.kind
        raise Refused(STATUSES[kind], f'the design is not done with any depths that were tried: {kind}')
    heard = (lambda point: print(f'{point.latency} clocks: {point.bits} bits', file=sys.stderr)) if options.bar else (lambda point: None)
    points = front_of(fifos, options.jobs or os.cpu_count(), heard)
    os.makedirs(options.out)
    with open(os.path.join(options.out, 'front.csv'), 'w', encoding='ascii') as file:
        file.write(csv_of(points))
    tell_front(points)
    draw(options.out, front_script(points))
    return 0


def explore():
    """Does what the words ask for, and gives the status."""
    options = parsed()
    limits = options_of(options.large, options.cycles, options.ops)
    return explore_front(options, limits) if options.front else explore_grid(options, limits)


def main():
    try:
        run('explore', explore)
    except KeyboardInterrupt:
        print('explore: stopped; the same words with --resume go on where it was', file=sys.stderr)
        sys.exit(130)
