"""Draws front.svg by gnuplot, where that is installed."""
import shutil
import subprocess
import sys


def draw(folder, script):
    """Has gnuplot draw front.svg."""
    if shutil.which('gnuplot') is None:
        print('explore: gnuplot draws front.svg, and is not there (apt-get install gnuplot-nox)', file=sys.stderr)
        return
    subprocess.run(['gnuplot'], input=script.encode(), cwd=folder, check=False)


def script_of(unit, clocks, drawn):
    """What gnuplot draws over the cost and these latencies: sets of points, each with its name, its lines and its styles."""
    room = max(1, (max(clocks) - min(clocks)) // 20)
    blocks = ''.join(f'${name} << END\n{lines}\nEND\n' for name, lines, _ in drawn)
    plots = ', \\\n     '.join(f'${name} {style}' for name, _, styles in drawn for style in styles)
    return f'''set terminal svg size 800,500
set output 'front.svg'
set xlabel '{unit} of all FIFOs'
set ylabel 'latency in clocks'
set offsets 1, 1, 0, 0
set yrange [{min(clocks) - room}:{max(clocks) + room}]
{blocks}plot {plots}
'''


def grid_script(collector):
    """What gnuplot draws of a grid: the front, and the least latency for each cost."""
    unit = collector.costs.unit
    dots = '\n'.join(f'{cost} {clock}' for cost, (clock, _) in sorted(collector.best.items()))
    steps = '\n'.join(f'{cost} {clock}' for cost, clock, _ in collector.front())
    return script_of(unit, [clock for clock, _ in collector.best.values()], [
        ('dots', dots, [f"with points pt 7 ps 0.3 lc rgb 'gray' title 'least latency with so many {unit}'"]),
        ('front', steps, ["with steps lw 2 lc rgb 'blue' title 'Pareto front'", "with points pt 7 ps 0.6 lc rgb 'blue' notitle"])])


def front_script(points):
    """What gnuplot draws of a front without a grid: proved points are filled, and others have a line to their bound."""
    low = lambda point: point.bits if point.bound is None else point.bound
    lines = lambda chosen: '\n'.join(f'{point.bits} {point.latency} {low(point)} {point.bits}' for point in chosen)
    proved, others = [point for point in points if point.is_least], [point for point in points if not point.is_least]
    drawn = [('proved', lines(proved), ["with points pt 7 ps 0.8 lc rgb 'blue' title 'proved to be the least'"]),
             ('open', lines(others), ["using 1:2:3:4 with xerrorbars pt 6 ps 0.8 lc rgb 'gray40' title 'found, with a bound'"])]
    return script_of('bits', [point.latency for point in points], [part for part in drawn if part[1]])
