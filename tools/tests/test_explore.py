"""The words of explore, its grids and chunks, and what it says when it is stopped, and when there is no gnuplot."""
import contextlib
import io
import itertools
import os
import runpy
import tempfile
import types
import unittest
from unittest import mock

from explore.chunks import chunks_of
from explore.folder import lay_out
from explore.grid import Grid, range_of
from explore.plot import draw
from explore.table import tell_grid
from flow.limits import STANDARD
from flow.program import TOP
from flow.refused import Refused

EXPLORE = os.path.join(TOP, 'explore')


def explored(*words):
    """What explore says to these words on standard error, and its status."""
    told = io.StringIO()
    with mock.patch('sys.argv', ['explore', *words]), contextlib.redirect_stderr(told):
        try:
            runpy.run_path(EXPLORE, run_name='__main__')
        except SystemExit as ended:
            return told.getvalue(), ended.code


def base(**depths):
    """A session with these FIFOs."""
    return types.SimpleNamespace(depths=depths, limits=STANDARD)


class Words(unittest.TestCase):
    def test_a_stop_tells_how_to_go_on(self):
        with mock.patch('os.access', side_effect=KeyboardInterrupt):
            told = explored(os.path.join(TOP, 'examples', 'credits.flow'), 'data=1..2', '--out', '/nowhere/explored')
        self.assertEqual(told, ('explore: stopped; the same words with --resume go on where it was\n', 130))

    def test_a_grid_or_the_front_is_wanted(self):
        for more in [], ['data=1..2', '--front'], ['--front', '--resume']:
            told, status = explored('a.flow', *more)
            self.assertEqual((status, told.endswith('; explore --help tells the words\n')), (1, True))
        self.assertIn('give a grid, FIFO=DEPTHS .., or --front', explored('a.flow')[0])

    def test_both_ways_need_the_program(self):
        for word in 'data=1..2', '--front':
            with mock.patch('os.access', return_value=False):
                self.assertEqual(explored('a.flow', word), ('explore: ./omnisim --build builds the program, which is needed here\n', 125))


class Grids(unittest.TestCase):
    def test_depths_are_numbers_and_ranges(self):
        self.assertEqual(range_of('1,2,4..6,5', 6), [1, 2, 4, 5, 6])
        for text in '0', '3..2', '7', '1,,2', 'x':
            with self.assertRaises(Refused):
                range_of(text, 6)

    def test_neighbours_differ_in_one_axis(self):
        grid = Grid(['f=1..3', 'g*=1,4', 'h=@g*'], base(f=2, g1=2, g2=2, h=2))
        self.assertEqual((grid.axes, grid.count), ([['f'], ['g1', 'g2', 'h']], 6))
        points = [grid.point(point) for point, _ in grid.walk()]
        self.assertEqual(sorted(points), [[f, g, g, g] for f in (1, 2, 3) for g in (1, 4)])
        for one, other in itertools.pairwise(points):
            self.assertEqual((one[0] == other[0]) + (one[1:] == other[1:]), 1)

    def test_wrong_grids_are_told(self):
        for words, wanted in ((['f'], 'is not of the form FIFO=DEPTHS'), (['ff=1'], 'no FIFO ff; did you mean f?'),
                              (['f=1', 'f=2'], 'f is given twice'), (['f=@g'], 'no FIFO=DEPTHS is given for g'),
                              (['f=1..10000', 'g=1..10001'], 'the grid has 100,010,000 points')):
            with self.assertRaises(Refused) as caught:
                Grid(words, base(f=2, g=2))
            self.assertIn(wanted, str(caught.exception))


class Chunks(unittest.TestCase):
    def test_edits_lead_through_all_points(self):
        session = base(f=2, g=2)
        grid = Grid(['f=1..3', 'g=1..3'], session)
        chunks, found = list(chunks_of(session, grid, 4)), []
        for told, edits in chunks:
            depths = dict(session.depths)
            for number, edit in enumerate(['', *edits]):
                depths.update([(edit.split()[1], int(edit.split()[2]))] if edit else [])
                found += [(depths['f'], depths['g'])] * (number in told)
        self.assertEqual([len(told) for told, _ in chunks], [4, 4, 1])
        self.assertEqual(found, [tuple(point) for point, _ in grid.walk()])


class Folders(unittest.TestCase):
    def lay_out(self, folder, *words, resume):
        session = types.SimpleNamespace(text='flow 1\n', **vars(base(f=2, g=2, h=2)))
        options = types.SimpleNamespace(out=os.path.join(folder, 'out'), points=None, resume=resume, collect=False)
        with mock.patch('shutil.copy2'):
            lay_out(options, [], session, Grid(words, session))

    def test_another_grid_is_not_gone_on_with(self):
        with tempfile.TemporaryDirectory() as folder:
            self.lay_out(folder, '[fg]=1..6', 'h=1..3', resume=False)
            self.lay_out(folder, '[fg]=1..6', 'h=1..3', resume=True)
            with self.assertRaisesRegex(Refused, 'explores another session or grid'):
                self.lay_out(folder, 'f=1..6', 'g=1..3', resume=True)


class Tells(unittest.TestCase):
    def test_a_missing_gnuplot_is_named(self):
        told = io.StringIO()
        with mock.patch('shutil.which', return_value=None), contextlib.redirect_stderr(told):
            draw('/nowhere', 'plot')
        self.assertEqual(told.getvalue(), 'explore: gnuplot draws front.svg, and is not there (apt-get install gnuplot-nox)\n')

    def test_the_front_is_a_table(self):
        told, few = io.StringIO(), types.SimpleNamespace
        collector = few(counts={'deadlock': 1, 'done': 2}, costs=few(unit='bits'), grid=few(names=['f', 'long']),
                        front=lambda: [(8, 100, (1, 2)), (16, 9, (2, 2))])
        with contextlib.redirect_stdout(told):
            tell_grid(collector)
        self.assertEqual(told.getvalue().splitlines(), [
            '3 points: 2 done, 1 deadlock', 'latency  bits  f  long', '    100     8  1     2', '      9    16  2     2'])


if __name__ == '__main__':
    unittest.main()
