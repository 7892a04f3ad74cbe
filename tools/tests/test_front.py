"""The front without a grid: which slacks are asked for, what is kept, and the forms of its files."""
import types
import unittest
from unittest import mock

from explore.front import Point, between, csv_of, front_of, lone_bound, lowered
from explore.plot import front_script
from flow.answers import Verdict


def point(slack, bits, bound=None):
    return Point(slack, 100 + slack, bits, {'f': bits}, bits if bound is None else bound, bound is None)


class Needs:
    """FIFOs of which each needs a depth of its own; the design is done in clock 10 with these, and later with less."""
    widths = {'a': 8, 'b': 2}
    deepest = {'a': 9, 'b': 9}
    needs = {'a': 3, 'b': 5}

    def bits(self, depths):
        return sum(self.widths[name] * depth for name, depth in depths.items())

    def tried(self, depths, changes):
        found = [{**depths, **change} for change in changes]
        return [Verdict('done', 10 if all(depth >= self.needs[name] for name, depth in all_of.items()) else 11) for all_of in found]


class Fronts(unittest.TestCase):
    def test_neighbours_that_differ_much_get_one_between(self):
        self.assertEqual(between([point(0, 100), point(10, 90), point(20, 89)]), [5])
        self.assertEqual(between([point(0, 100), point(1, 50)]), [])

    def test_single_places_are_taken_away(self):
        self.assertEqual(lowered(Needs(), {'a': 5, 'b': 6}, 10), {'a': 3, 'b': 5})

    def test_the_bound_is_of_each_fifo_alone(self):
        self.assertEqual(lone_bound(Needs(), {'a': 9, 'b': 9}, 10), 8 * 3 + 2 * 5)

    def test_points_that_are_beaten_are_dropped(self):
        with mock.patch('explore.front.point_of', side_effect=lambda fifos, slack: point(slack, 64 if slack < 10 else 62)):
            found = front_of(types.SimpleNamespace(verdict=Verdict('done', 100)), 1, lambda point: None)
        self.assertEqual([(found.latency, found.bits) for found in found], [(100, 64), (110, 62)])

    def test_files(self):
        points = [point(0, 20), point(4, 10, 8)]
        self.assertEqual(csv_of(points), 'latency,bits,known,bound,gap,f\n100,20,least,20,0.0,20\n104,10,bound,8,20.0,10\n')
        self.assertIn('with xerrorbars', front_script(points))
        self.assertNotIn('xerrorbars', front_script(points[:1]))


if __name__ == '__main__':
    unittest.main()
